#!/bin/sh
# Times scripts of 10, 50 and 100 payments: with one RUN behind all of them, and with a RUN behind
# each. A script of 100 must be done in less than a second.
set -eu
root=$(CDPATH='' cd -- "$(dirname -- "$0")/.." && pwd)
input=$(mktemp)
trap 'rm -f "$input"' EXIT

# A script of so many payments; `runs` is `each` or `once`.
script() {
    awk -v count="$1" -v runs="$2" 'BEGIN {
        print "START 2024-01-01T05:30:00+05:30"
        print "BANK AAAA\nBANK BBBB\nPSP alpha\nPSP beta"
        print "ACCOUNT AAAA/1 100.00\nACCOUNT BBBB/1 5.00"
        print "ADDR ann@alpha AAAA/1 YES\nADDR bob@beta BBBB/1 YES\nOPEN"
        for (i = 1; i <= count; i++) {
            printf "SEND alpha {\"ReqPay\":{\"Head\":{\"msgId\":\"A%d\",\"orgId\":\"alpha\",\"ts\":\"2024-01-01T05:30:00+05:30\",\"ver\":\"1.0\"},\"Payees\":{\"Payee\":[{\"addr\":\"bob@beta\"}]},\"Payer\":{\"Amount\":{\"curr\":\"INR\",\"value\":\"1.00\"},\"addr\":\"ann@alpha\"},\"Txn\":{\"id\":\"T%d\",\"type\":\"PAY\"}}}\n", i, i
            if (runs == "each") print "RUN"
        }
        if (runs == "once") print "RUN"
        print "CLOSE"
    }'
}

"$root/upi_switch" script <"$root/examples/one_payment.script" >/dev/null
slow=0
for runs in once each; do
    for count in 10 50 100; do
        script "$count" "$runs" >"$input"
        began=$(date +%s%N)
        settled=$("$root/upi_switch" script <"$input" | grep -c '^OUTCOME,.*,SUCCESS,')
        took=$((($(date +%s%N) - began) / 1000000))
        echo "$count payments, RUN $runs: $took ms, $settled settled"
        if [ "$settled" -ne "$count" ] || [ "$took" -ge 1000 ]; then
            slow=1
        fi
    done
done
if [ "$slow" -ne 0 ]; then
    echo "a script isn't done in less than 1000 ms" >&2
    exit 1
fi
