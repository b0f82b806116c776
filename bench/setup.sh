#!/bin/sh
# Times a script with 65,536 accounts and 65,536 addresses and nothing else: it must be done in less
# than a second.
set -eu
root=$(CDPATH='' cd -- "$(dirname -- "$0")/.." && pwd)
input=$(mktemp)
output=$(mktemp)
trap 'rm -f "$input" "$output"' EXIT

awk 'BEGIN {
    print "START 2024-01-01T05:30:00+05:30"
    print "BANK AAAA\nPSP alpha"
    for (i = 0; i < 65536; i++) print "ACCOUNT AAAA/" i " 1.00"
    for (i = 0; i < 65536; i++) print "ADDR a" i "@alpha AAAA/" i " YES"
    print "OPEN"
}' >"$input"

"$root/upi_switch" script <"$root/examples/one_payment.script" >/dev/null
began=$(date +%s%N)
"$root/upi_switch" script <"$input" >"$output"
took=$((($(date +%s%N) - began) / 1000000))
taken=$(grep -c -e '^ACCOUNT ' -e '^ADDR ' "$output")
held=$(grep -c '^BALANCE,' "$output")
echo "65,536 accounts and 65,536 addresses: $took ms, $taken lines taken, $held balances"
if [ "$taken" -ne 131072 ] || [ "$held" -ne 65536 ]; then
    echo "a line isn't there" >&2
    exit 1
fi
if [ "$took" -ge 1000 ]; then
    echo "the setup isn't read in less than 1000 ms" >&2
    exit 1
fi
