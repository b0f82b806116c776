#!/bin/sh
# What a report costs at 1,000, 10,000 and 65,536 transactions between 64 banks: milliseconds of
# processor time a report, and instructions a row where valgrind is there. It runs crates/report_bench,
# which must be built (`rt run` in its folder leaves it in out/). It fails where a report of 65,536 rows
# takes a second or more.
#
# What making the rows costs is that of a run that makes no report, and taken off. Of three times the
# least counts.
set -eu
root=$(CDPATH='' cd -- "$(dirname -- "$0")/.." && pwd)
program=${REPORT_BENCH:-$root/crates/report_bench/out/report_bench}
if [ ! -x "$program" ]; then
    echo "report_time.sh: $program isn't there: rt run in crates/report_bench builds it" >&2
    exit 1
fi

# The processor time of a line, in microseconds.
spent() {
    for _ in 1 2 3; do
        LC_ALL=C bash -c 'TIMEFORMAT="%U %S"; time echo "$2" | "$1" >/dev/null' _ "$program" "$1" 2>&1
    done | awk '{ t = ($1 + $2) * 1e6; if (NR == 1 || t < least) least = t } END { printf "%d", least }'
}

# The instructions of a line.
steps() {
    echo "$1" | valgrind --tool=callgrind --callgrind-out-file=/dev/null "$program" 2>&1 >/dev/null |
        sed -n 's/.*Collected : \([0-9]*\).*/\1/p'
}

turns=10
printf '| rows | a report | a row |\n|---|---|---|\n'
for size in 1000 10000 65536; do
    each=$((($(spent "$size $turns") - $(spent "$size 0")) / turns))
    printf '| %s | %s.%s ms |' "$size" $((each / 1000)) $((each % 1000 / 100))
    if command -v valgrind >/dev/null; then
        printf ' %s instructions' $((($(steps "$size 1") - $(steps "$size 0")) / size))
    fi
    printf ' |\n'
done
if [ "$each" -ge 1000000 ]; then
    echo "report_time.sh: a report of 65,536 rows takes a second or more" >&2
    exit 1
fi
