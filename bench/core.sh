#!/bin/sh
# What a call of the switch by tables costs as its history grows, and how much memory an entry takes:
# bench/core.sh [ROUNDS]
#
# Payments are made by calls, without any text: each is asked for, and then its nine messages are
# delivered, so that it has ten entries. Of histories of 1,000, 10,000 and 65,536 payments it tells what
# a call of the first and of the last thousand takes, the least of some rounds; the last must take at
# most 1.5 times as long. The peak of the process's memory at 65,536 payments, less that at none, must
# be at most 400 bytes an entry. It runs crates/core_bench, which must be built (`rt run` in its folder
# leaves it in out/).
set -eu
root=$(CDPATH='' cd -- "$(dirname -- "$0")/.." && pwd)
program=${CORE_BENCH:-$root/crates/core_bench/out/core_bench}
rounds=${1:-5}
if [ ! -x "$program" ]; then
    echo "core.sh: $program isn't there: rt run in crates/core_bench builds it" >&2
    exit 1
fi
work=$(mktemp -d)
trap 'rm -rf "$work"' EXIT

# Runs so many payments, and keeps what is told of their costs.
run() {
    "$program" "$1" >"$work/out" 2>"$work/costs"
    if ! grep -q "^$1 payments, $(($1 * 10)) entries, $(($1 * 9)) messages, $1 succeeded\$" "$work/out"; then
        echo "core.sh: $1 payments went otherwise: $(cat "$work/out")" >&2
        exit 1
    fi
}

# The peak of the process's memory in the run, in bytes.
peak() {
    awk '$1 == "VmHWM:" { print $2 * 1024 }' "$work/costs"
}

# The nanoseconds of a thousand calls in the run: `took first`.
took() {
    awk -v word="$1" '{ for (i = 1; i < NF; i++) if ($i == word) print $(i + 1) }' "$work/costs"
}

failed=0
printf '| payments | first calls | last calls | ratio | all calls | longest thousand |\n|---|---|---|---|---|---|\n'
for size in 1000 10000 65536; do
    least_first=0
    least_last=0
    least_all=0
    least_most=0
    round=0
    while [ "$round" -lt "$rounds" ]; do
        round=$((round + 1))
        run "$size"
        for what in first last all most; do
            found=$(took "$what")
            eval "least=\$least_$what"
            if [ "$least" -eq 0 ] || [ "$found" -lt "$least" ]; then eval "least_$what=$found"; fi
        done
    done
    awk -v size="$size" -v first="$least_first" -v last="$least_last" -v all="$least_all" -v most="$least_most" 'BEGIN {
        timed = size - size % 100
        printf "| %d | %d ns | %d ns | %.2f | %d ns | %d ns |\n", size, first / 1000, last / 1000, last / first, all / timed / 10, most / 1000
    }'
    if [ $((least_last * 2)) -gt $((least_first * 3)) ]; then
        failed=1
    fi
done
if [ "$failed" -ne 0 ]; then
    echo "the last calls take more than 1.5 times as long as the first" >&2
fi

run 0
none=$(peak)
run 65536
all=$(peak)
each=$(((all - none) / 655360))
echo "memory: $none bytes at no payment, $all at 65,536; $each an entry"
if [ "$each" -gt 400 ]; then
    echo "an entry takes more than 400 bytes" >&2
    failed=1
fi
exit "$failed"
