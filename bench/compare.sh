#!/bin/sh
# Runs another program of the switch and ours by turns on the same inputs, asks that both write the
# same bytes and end with the same status, and prints what ours takes beside what the other takes:
# bench/compare.sh PEER [PAYMENTS [ROUNDS [COUNTED]]]
#
# PEER is a program with the commands script, audit, gen and load. The jobs are
#   gen     `gen PAYMENTS 1`
#   script  `script`, on the lines that `load PAYMENTS 1` plays
#   audit   `audit`, on what script wrote
#   load    `load PAYMENTS 1`
# Times are processor time, the best of ROUNDS rounds, in which the two take turns; memory is the most
# that was resident. Instructions are counted in one more run of each job with COUNTED payments: by
# `perf stat`, or by valgrind's callgrind where the processor's counter isn't to be had, or not at all.
# COUNTED 0 counts none. PAYMENTS is 50000 where it isn't given, ROUNDS 3, COUNTED 200.
#
# Needs the proved program (./prove), or another in the variable OURS, and python3.
set -eu
root=$(CDPATH='' cd -- "$(dirname -- "$0")/.." && pwd)
if [ $# -lt 1 ] || [ $# -gt 4 ]; then
    sed -n 's/^# bench/usage: bench/p' "$0" >&2
    exit 2
fi
if ! command -v python3 >/dev/null; then
    echo "compare.sh: python3 is needed to take times" >&2
    exit 127
fi
exec python3 - "${OURS:-$root/crates/switch_main/out/switch_main}" "$@" <<'END'
import os
import re
import resource
import shutil
import subprocess
import sys
import tempfile

ours, peer = sys.argv[1], sys.argv[2]
payments, rounds, counted = (
    int(word) if word else default
    for word, default in zip(sys.argv[3:] + [""] * 3, (50000, 3, 200))
)
TURNS = [b"RUN 7 5", b"TICK 30"]


class Run:
    """One run of a program: its status, what it took, and the file with what it wrote."""

    def __init__(self, words, source, wrote):
        with open(source, "rb") as stdin, open(wrote, "wb") as stdout:
            child = subprocess.Popen(words, stdin=stdin, stdout=stdout, stderr=subprocess.DEVNULL)
            _, status, usage = os.wait4(child.pid, 0)
        self.status = os.waitstatus_to_exitcode(status)
        child.returncode = self.status
        self.cpu = usage.ru_utime + usage.ru_stime
        self.kilobytes = usage.ru_maxrss


def played(generated):
    """The lines that a load plays: those that are generated, with the network's turns and the close."""
    lines = generated.split(b"\n")[:-1]
    sends = [at for at, line in enumerate(lines) if line.startswith(b"SEND ")]
    out = lines[: sends[0]] if sends else lines
    for made, at in enumerate(sends, 1):
        out.append(lines[at])
        if made % 100 == 0 or made == len(sends):
            out += TURNS
    return b"\n".join(out + 4 * TURNS + [b"CLOSE", b""])


def same(one, other):
    with open(one, "rb") as a, open(other, "rb") as b:
        while True:
            left, right = a.read(1 << 20), b.read(1 << 20)
            if left != right:
                return False
            if not left:
                return True


def memory(run, words, source, work):
    """The most kilobytes that were resident: where they are few, what a run counts is this script's own."""
    own = resource.getrusage(resource.RUSAGE_SELF).ru_maxrss
    if run.kilobytes > 2 * own or not os.access("/usr/bin/time", os.X_OK):
        return run.kilobytes
    note = os.path.join(work, "memory")
    Run(["/usr/bin/time", "-o", note, "-f", "%M"] + words, source, os.path.join(work, "unread"))
    with open(note, encoding="ascii") as text:
        return int(text.read().split()[-1])


def instructions(words, source, work):
    """How many instructions a run takes, if there is a way to count them."""
    note = os.path.join(work, "count")
    ways = [
        (["perf", "stat", "-x,", "-e", "instructions:u", "-o", note], r"^(\d+),"),
        (["valgrind", "--tool=callgrind", "--callgrind-out-file=/dev/null", "--log-file=" + note],
         r"Collected : (\d+)"),
    ]
    for way, pattern in ways:
        if not shutil.which(way[0]):
            continue
        with open(source, "rb") as stdin:
            subprocess.run(way + words, stdin=stdin, stdout=subprocess.DEVNULL,
                           stderr=subprocess.DEVNULL, check=False)
        with open(note, encoding="ascii", errors="replace") as text:
            found = re.search(pattern, text.read(), re.M)
        if found:
            return int(found.group(1))
    return None


def ratio(a, b):
    return f"{a / b:8.2f}" if b else "       -"


def jobs(count, work, both):
    """Runs `both(job, words, source)` for each job. It gives the file of what was written."""
    empty = os.path.join(work, "empty")
    open(empty, "wb").close()
    text = both("gen", ["gen", str(count), "1"], empty)
    script = os.path.join(work, "script")
    with open(text, "rb") as generated, open(script, "wb") as lines:
        lines.write(played(generated.read()))
    journal = both("script", ["script"], script)
    kept = os.path.join(work, "journal")
    os.replace(journal, kept)
    both("audit", ["audit"], kept)
    both("load", ["load", str(count), "1"], empty)


def timed(work):
    wrong = []

    def both(job, words, source):
        best, wrote = {}, {}
        for _ in range(rounds):
            for who, program in (("peer", peer), ("ours", ours)):
                wrote[who] = os.path.join(work, who)
                run = Run([program] + words, source, wrote[who])
                was = best.get(who, run)
                if (run.status, was.status) != (0, 0):
                    wrong.append(f"{job}: {who} ends with {run.status}")
                was.cpu = min(was.cpu, run.cpu)
                best[who] = was
            if not same(wrote["peer"], wrote["ours"]):
                wrong.append(f"{job}: the two write different bytes")
        p, o = best["peer"].cpu, best["ours"].cpu
        a, b = (memory(best[who], [program] + words, source, work)
                for who, program in (("peer", peer), ("ours", ours)))
        print(f"{job:7} {payments:7}  time {p * 1000:9.1f} {o * 1000:11.1f} ms {ratio(o, p)}"
              f"  memory {a:8} {b:8} KB {ratio(b, a)}", flush=True)
        return wrote["ours"]

    jobs(payments, work, both)
    return wrong


def counts(work):
    def both(job, words, source):
        takes = [instructions([program] + words, source, work) for program in (peer, ours)]
        if None in takes:
            print(f"{job:7} {counted:7}  instructions: not counted", flush=True)
        else:
            print(f"{job:7} {counted:7}  instructions {takes[0]:13,} {takes[1]:15,} {ratio(takes[1], takes[0])}",
                  flush=True)
        wrote = os.path.join(work, "wrote")
        Run([ours] + words, source, wrote)
        return wrote

    jobs(counted, work, both)


if rounds < 1 or payments < 0 or counted < 0:
    sys.exit("compare.sh: at least one round, and no fewer than no payments")
for program in (ours, peer):
    if not os.access(program, os.X_OK):
        sys.exit(f"compare.sh: {program} isn't a program")
with tempfile.TemporaryDirectory() as work:
    print("job     payments; peer, ours, ours by peer")
    wrong = timed(work)
    if counted:
        counts(work)
for line in dict.fromkeys(wrong):
    print(line, file=sys.stderr)
sys.exit(1 if wrong else 0)
END
