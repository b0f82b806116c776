#!/bin/sh
# What each call of the tables costs at 1,000, 10,000 and 65,536 entries: nanoseconds of processor time
# a call, and instructions where valgrind is there. It runs crates/table_bench, which must be built
# (`rt run` in its folder leaves it in out/). The words are the calls, if not all are wanted.
#
# Each entry is asked for in turn: some four million calls are timed, and 65,000 counted. What filling
# the tables costs is that of a run of no rounds, and taken off; of calls that need tables without
# entries, of a run whose rounds make such tables and ask nothing. Of three times the least counts.
set -eu
root=$(CDPATH='' cd -- "$(dirname -- "$0")/.." && pwd)
program=${TABLE_BENCH:-$root/crates/table_bench/out/table_bench}
if [ ! -x "$program" ]; then
    echo "tables.sh: $program isn't there: rt run in crates/table_bench builds it" >&2
    exit 1
fi
work=$(mktemp -d)
trap 'rm -rf "$work"' EXIT

# The processor time of a line, in nanoseconds.
spent() {
    for _ in 1 2 3; do
        LC_ALL=C bash -c 'TIMEFORMAT="%U %S"; time echo "$2" | "$1" >"$3"' _ "$program" "$1" "$work/out" 2>&1
    done | awk '{ t = ($1 + $2) * 1e9; if (NR == 1 || t < least) least = t } END { printf "%d", least }'
}

# The instructions of a line.
steps() {
    echo "$1" | valgrind --tool=callgrind --callgrind-out-file=/dev/null "$program" 2>&1 >"$work/out" |
        sed -n 's/.*Collected : \([0-9]*\).*/\1/p'
}

# What a line costs, which is found once: `known spent LINE`.
known() {
    file=$work/$1.$(printf %s "$2" | tr ' ' .)
    if [ ! -e "$file" ]; then "$1" "$2" >"$file"; fi
    cat "$file"
}

# What a call costs: `each spent CALL SIZE TURNS`.
each() {
    calls=$(($3 * $4))
    case $2 in
        add) calls=$((2 * calls)) without="add $3 0" ;;
        *_first) without="nothing $3 $4" ;;
        *) without="least $3 0" ;;
    esac
    echo $((($(known "$1" "$2 $3 $4") - $(known "$1" "$without")) / calls))
}

if [ $# = 0 ]; then
    set -- get put_first take post_first post_again set remove_set least due_one add
fi
printf '| call | 1,000 | 10,000 | 65,536 |\n|---|---|---|---|\n'
for call in "$@"; do
    printf '| `%s` |' "$call"
    for size in 1000 10000 65536; do
        printf ' %s ns' "$(each spent "$call" "$size" $((4000000 / size)))"
        if command -v valgrind >/dev/null; then
            printf ', %s' "$(each steps "$call" "$size" $((65536 / size)))"
        fi
        printf ' |'
    done
    printf '\n'
done
