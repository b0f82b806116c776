#!/bin/sh
# Types a script into the program, line by line, and asks after each line that what it writes is there
# within ten seconds, before the next line is typed.
set -eu
root=$(CDPATH='' cd -- "$(dirname -- "$0")/.." && pwd)
work=$(mktemp -d)
trap 'rm -rf "$work"' EXIT
program=${OURS:-$root/crates/switch_main/out/switch_main}
if [ ! -x "$program" ]; then
    echo "typed.sh: the proved program is needed: ./prove builds it" >&2
    exit 127
fi

mkfifo "$work/in" "$work/out"
"$program" script <"$work/in" >"$work/out" &
exec 3>"$work/in" 4<"$work/out"

# Types a line, and looks for these lines of what is written.
typed() {
    printf '%s\n' "$1" >&3
    line=$1
    shift
    for want in "$@"; do
        # shellcheck disable=SC2016
        got=$(timeout 10 sh -c 'IFS= read -r line <&4 && printf %s "$line"') || got='nothing'
        if [ "$got" != "$want" ]; then
            echo "after \"$line\": $got, not \"$want\"" >&2
            exit 1
        fi
    done
}

start='START 2024-01-01T05:30:00+05:30'
typed "$start" "$start"
typed 'BANK AAAA' 'BANK AAAA'
typed '# nothing'
typed 'OPEN' 'OPEN'
typed 'DELIVER 9' '# NOMSG 9 0'
typed 'TICK 5'
typed 'CLOSE' 'E 1 0 1704067205 CLOSE = CLOSED'
exec 3>&-
if [ "$(cat <&4 | head -n 1)" != REPORT ]; then
    echo 'behind the last line: no REPORT' >&2
    exit 1
fi
wait
echo 'each answer was there before the next line'
