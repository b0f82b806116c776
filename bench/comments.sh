#!/bin/sh
# Times the reading of 1,000,000 lines of comment (60 MB) before START. They write nothing, and must
# be read in less than 2 seconds.
set -eu
root=$(CDPATH='' cd -- "$(dirname -- "$0")/.." && pwd)
input=$(mktemp)
trap 'rm -f "$input"' EXIT

awk 'BEGIN {
    for (i = 1; i <= 1000000; i++) printf "# %07d a line of comment, which is passed over when read\n", i
    print "START 2024-01-01T05:30:00+05:30"
    print "OPEN"
}' >"$input"

"$root/upi_switch" script <"$root/examples/one_payment.script" >/dev/null
began=$(date +%s%N)
"$root/upi_switch" script <"$input" >/dev/null
took=$((($(date +%s%N) - began) / 1000000))

echo "1,000,000 lines, $(wc -c <"$input") bytes: $took ms"
if [ "$took" -ge 2000 ]; then
    echo "that is not less than 2000 ms" >&2
    exit 1
fi
