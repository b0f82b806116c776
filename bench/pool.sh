#!/bin/sh
# Times the worker pool with 1, 2 and 4 seats: bench/pool.sh [JOBS [ROUNDS]]
#
# It first times steps, to learn how many make 10 microseconds, and then runs jobs of so many steps,
# and jobs of none. Each figure is the best of some rounds, in which the counts of seats take turns.
set -eu
root=$(CDPATH='' cd -- "$(dirname -- "$0")/.." && pwd)
program=$root/crates/pool_bench/out/pool_bench
jobs=${1:-50000}
rounds=${2:-7}
if [ ! -x "$program" ]; then
    echo "there is no $program; run 'rt run' in crates/pool_bench" >&2
    exit 1
fi

# The fewest nanoseconds that it takes: `least TIMES SEATS JOBS STEPS`.
least() {
    best=
    round=0
    while [ "$round" -lt "$1" ]; do
        round=$((round + 1))
        time=$("$program" "$2" "$3" "$4" 2>&1 >/dev/null)
        if [ -z "$best" ] || [ "$time" -lt "$best" ]; then best=$time; fi
    done
    echo "$best"
}

# The lesser of two numbers, of which the first may be empty.
lesser() {
    if [ -z "$1" ] || [ "$2" -lt "$1" ]; then echo "$2"; else echo "$1"; fi
}

# One line for each count of seats: `lines WHAT STEPS`.
lines() {
    one='' two='' four=''
    turn=0
    while [ "$turn" -lt "$rounds" ]; do
        turn=$((turn + 1))
        one=$(lesser "$one" "$(least 1 1 "$jobs" "$2")")
        two=$(lesser "$two" "$(least 1 2 "$jobs" "$2")")
        four=$(lesser "$four" "$(least 1 4 "$jobs" "$2")")
    done
    awk -v what="$1" -v jobs="$jobs" -v one="$one" -v two="$two" -v four="$four" 'BEGIN {
        printf "%s: 1 seat %.0f a second, 2 seats %.0f, 4 seats %.0f; four to one %.2f\n", what, jobs * 1e9 / one, jobs * 1e9 / two, jobs * 1e9 / four, one / four
    }'
}

# A million steps less none, in nanoseconds, give those of 10 microseconds.
none=$(least 20 1 1 0)
million=$(least 20 1 1 1000000)
steps=$((10000 * 1000000 / (million - none)))
lines "jobs of 10 microseconds ($steps steps)" "$steps"
lines "jobs of no steps" 0
echo "load: $(cut -d' ' -f1-3 /proc/loadavg) on $(nproc) cores"
