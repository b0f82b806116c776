#!/bin/sh
# Times appends to the shared journal beside pushes to a plain list under a lock, by 1, 2 and 4
# threads: bench/journal.sh [NOTES [ROUNDS]]
#
# Each figure is the best of some rounds of so many notes of 128 bytes in all. The two take turns, and
# each grows its list from nothing. With one thread the journal must come to at least half of the
# plain list's appends a second.
set -eu
root=$(CDPATH='' cd -- "$(dirname -- "$0")/.." && pwd)
program=$root/crates/journal_load/out/journal_load
notes=${1:-200000}
rounds=${2:-15}
if [ ! -x "$program" ]; then
    echo "there is no $program; run 'rt run -- shared 1 1' in crates/journal_load" >&2
    exit 1
fi

# How many nanoseconds the threads took.
took() {
    "$program" "$1" "$2" $((notes / $2)) 2>&1 >/dev/null
}

slow=0
for threads in 1 2 4; do
    plain=0
    shared=0
    round=0
    while [ "$round" -lt "$rounds" ]; do
        round=$((round + 1))
        time=$(took plain "$threads")
        if [ "$plain" -eq 0 ] || [ "$time" -lt "$plain" ]; then plain=$time; fi
        time=$(took shared "$threads")
        if [ "$shared" -eq 0 ] || [ "$time" -lt "$shared" ]; then shared=$time; fi
    done
    awk -v threads="$threads" -v notes="$notes" -v plain="$plain" -v shared="$shared" 'BEGIN {
        printf "%d threads: plain %.1f million appends a second, journal %.1f, ratio %.2f\n", threads, notes * 1000 / plain, notes * 1000 / shared, plain / shared
    }'
    if [ "$threads" -eq 1 ] && [ $((shared)) -gt $((2 * plain)) ]; then
        slow=1
    fi
done
if [ "$slow" -ne 0 ]; then
    echo "with one thread the journal comes to less than half" >&2
    exit 1
fi
