#!/bin/sh
# Runs scripts with each allocation of memory refused in turn: bench/refused_memory.sh [SCRIPT..]
#
# One allocation is refused in a run. The run must end with status 6 and its line on standard error,
# and must have written the text of a front of the script's lines; or it must end as if nothing had
# been refused, where it could do without that memory. Without a script it takes those of examples/.
# Needs `cc` and the GNU C library.
set -u
root=$(CDPATH='' cd -- "$(dirname -- "$0")/.." && pwd) || exit 1
program=$root/crates/switch_main/out/switch_main
work=$(mktemp -d) || exit 1
trap 'rm -rf "$work"' EXIT

# Tells what was wrong, and ends.
wrong() {
    echo "$1" >&2
    exit 1
}

# Stands before the C library: it refuses the allocation whose number is in REFUSED, of those that the
# program itself asks for, and says so by a file. The program asks by these two calls alone.
cat >"$work/refuse.c" <<'END'
#define _GNU_SOURCE
#include <dlfcn.h>
#include <errno.h>
#include <fcntl.h>
#include <stdlib.h>
#include <string.h>
#include <unistd.h>

extern void *__libc_malloc(size_t);
extern void *__libc_realloc(void *, size_t);

static long count, refused;

static int refuses(void *caller) {
    Dl_info from;
    if (!refused) refused = getenv("REFUSED") ? atol(getenv("REFUSED")) : -1;
    if (!dladdr(caller, &from) || !strstr(from.dli_fname, "switch_main")) return 0;
    if (++count != refused) return 0;
    close(open(getenv("REFUSED_FILE"), O_CREAT | O_WRONLY, 0600));
    errno = ENOMEM;
    return 1;
}

void *malloc(size_t size) {
    return refuses(__builtin_return_address(0)) ? NULL : __libc_malloc(size);
}

void *realloc(void *old, size_t size) {
    return refuses(__builtin_return_address(0)) ? NULL : __libc_realloc(old, size);
}
END
cc -O1 -fno-optimize-sibling-calls -shared -fPIC -o "$work/refuse.so" "$work/refuse.c" -ldl || exit 1
"$root/upi_switch" script <"$root/examples/one_payment.script" >/dev/null || exit 1

# What the lines of a script write, each front of it: `fronts/N` is written by the first N lines. A
# front that is read to its end also has the end's text, or isn't a script; so each is followed here by
# a line that is refused.
fronts_of() {
    rm -rf "$work/fronts"
    mkdir "$work/fronts"
    lines=$(wc -l <"$1")
    line=0
    while [ "$line" -le "$lines" ]; do
        { head -n "$line" "$1" && echo "NONE"; } | "$program" script >"$work/fronts/$line" 2>/dev/null
        line=$((line + 1))
    done
}

# Whether what was written is the text of a front of the lines.
is_front() {
    for front in "$work"/fronts/*; do
        if cmp -s "$front" "$work/out"; then
            return 0
        fi
    done
    return 1
}

# Whether a run ended for want of memory.
is_ended() {
    [ "$status" -eq 6 ] && [ "$(cat "$work/err")" = "upi: no memory" ] && is_front
}

# Whether a run ended as if nothing had been refused.
is_whole() {
    [ "$status" -eq "$ended" ] && cmp -s "$work/err" "$work/said" && cmp -s "$work/out" "$work/whole"
}

# Runs a script with each allocation refused.
refuse_each() {
    [ -r "$1" ] || wrong "$1: can't be read"
    "$program" script <"$1" >"$work/whole" 2>"$work/said"
    ended=$?
    fronts_of "$1"
    number=0
    spared=0
    while :; do
        number=$((number + 1))
        rm -f "$work/reached"
        LD_PRELOAD=$work/refuse.so REFUSED=$number REFUSED_FILE=$work/reached \
            "$program" script <"$1" >"$work/out" 2>"$work/err"
        status=$?
        [ -e "$work/reached" ] || break
        if is_whole; then
            spared=$((spared + 1))
        else
            is_ended || wrong "$1, allocation $number: status $status, $(cat "$work/err")"
        fi
    done
    is_whole || wrong "$1: another end with none refused"
    [ "$spared" -lt $((number - 1)) ] || wrong "$1: no run ended for want of memory"
    echo "$1: $((number - 1)) allocations refused in turn, $spared of them not needed"
}

[ $# -gt 0 ] || set -- "$root"/examples/*.script
for script; do
    refuse_each "$script"
done
