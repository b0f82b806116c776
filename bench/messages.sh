#!/bin/sh
# Times the reading and the writing of 100,000 messages of each kind, in both versions: in their
# written form, with their members in another order, with blanks, and with members that are unread.
# It prints nanoseconds a message and, where valgrind is there, instructions a message.
#
# A payment in its written form must be read in 8,000 instructions and written in 2,000, and any
# other form of a message read in 25,000; what is more is marked. Needs the program: `rt run` in crates/message_bench.
set -eu
root=$(CDPATH='' cd -- "$(dirname -- "$0")/.." && pwd)
program=$root/crates/message_bench/out/message_bench
times=100000
work=$(mktemp -d)
trap 'rm -rf "$work"' EXIT

# Nanoseconds that the program takes to read and to write so often.
clock() {
    began=$(date +%s%N)
    "$program" "$1" "$2" <"$work/message" >"$work/written"
    echo $(($(date +%s%N) - began))
}

# Instructions that it takes.
count() {
    valgrind --tool=callgrind --callgrind-out-file=/dev/null "$program" "$1" "$2" \
        <"$work/message" 2>&1 >/dev/null | sed -n 's/.*Collected : \([0-9]*\).*/\1/p'
}

# What one more reading or writing costs: `each clock READS WRITES TIMES`.
each() {
    once=$("$1" 1 1)
    echo $((($("$1" "$2" "$3") - once) / $4))
}

# One line of the table: `line NAME TEXT MOST`, of which the last is how many instructions a reading
# may take.
line() {
    printf '%s\n' "$2" >"$work/message"
    read_ns=$(each clock $((times + 1)) 1 $times)
    write_ns=$(each clock 1 $((times + 1)) $times)
    if command -v valgrind >/dev/null; then
        read_steps=$(each count 1001 1 1000)
        write_steps=$(each count 1 1001 1000)
        if [ "$read_steps" -gt "$3" ]; then read_steps="$read_steps (over $3)"; fi
        case $1 in pay* | full*)
            if [ "$write_steps" -gt 2000 ]; then write_steps="$write_steps (over 2000)"; fi
            ;;
        esac
    else
        read_steps=- write_steps=-
    fi
    printf '%-22s %5d bytes  read %6d ns %6s instructions  write %6d ns %6s instructions\n' \
        "$1" "${#2}" "$read_ns" "$read_steps" "$write_ns" "$write_steps"
}

tab=$(printf '\t')
grep -v '^#' "$root/bench/messages.txt" | while IFS=$tab read -r name text; do
    case $name in
        *-order) line "$name" "$text" 25000 ;;
        pay* | full*) line "$name" "$text" 8000 ;;
        *) line "$name" "$text" 25000 ;;
    esac
    case $name in *-order) continue ;; esac
    line "$name-blanks" "$(printf %s "$text" | sed 's/":/" : /g; s/,"/ , "/g; s/{/{ /g; s/}/ }/g')" 25000
    line "$name-unread" "$(printf %s "$text" | sed 's/"msgId"/"prodType":"UPI","seq":[1,2],"msgId"/; s/"id"/"custRef":"000000000001","refUrl":null,"id"/')" 25000
done
