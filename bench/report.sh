#!/bin/sh
# Loads reports with Python's csv module and adds their columns up: bench/report.sh [OUTPUT..]
#
# An output is what `upi_switch script` has written; without one, those of examples/ are taken. Each
# line of a report must have six fields. What is paid must be what is received, the nets must add up to
# nothing, the reconciliation items to the money in flight, and what the accounts hold, with the money
# in flight, to what they opened with. Without an output it also asks that each example's report is one
# that the tests of recon_report read back. Skipped where python3 isn't there.
set -eu
root=$(CDPATH='' cd -- "$(dirname -- "$0")/.." && pwd)
if ! command -v python3 >/dev/null; then
    echo "report.sh: skipped, since python3 isn't there" >&2
    exit 0
fi
tested=
if [ $# = 0 ]; then
    tested=$root/crates/recon_report/src/tests/examples.rt
    set -- "$root"/examples/*.out
fi
exec python3 - "$tested" "$@" <<'END'
import csv
import sys
from decimal import Decimal


def wrong_sum(name, tested):
    with open(name, newline="", encoding="ascii") as output:
        lines = output.read().split("\n")
    begins = lines.index("REPORT")
    if tested and "\n".join(lines[begins + 1 :]) not in tested:
        return "no test reads this report back"
    accounts = [line.split(" ") for line in lines[:begins] if line.startswith("ACCOUNT ")]
    opened = sum((Decimal(words[2]) for words in accounts), Decimal(0))
    rows = list(csv.DictReader(lines[begins + 1 : -1], strict=True, restkey="more"))
    if any(len(row) != 6 or None in row.values() for row in rows):
        return "a line hasn't six fields"

    def total(kind, detail=""):
        return sum(
            (Decimal(row["amount"]) for row in rows if row["row"] == kind and row["detail"] == detail),
            Decimal(0),
        )

    paid, received = total("SETTLE", "PAID"), total("SETTLE", "RECEIVED")
    flight = total("FLIGHT")
    if sum(row["row"] == "FLIGHT" for row in rows) != 1:
        return "there isn't one FLIGHT"
    if sum(row["row"] == "BALANCE" for row in rows) != len(accounts):
        return "there isn't a BALANCE for each account"
    if paid != received:
        return f"{paid} was paid, and {received} received"
    if total("NET") != 0:
        return f"the nets add up to {total('NET')}"
    if total("RECON") != flight:
        return f"the items add up to {total('RECON')}, and {flight} is in flight"
    if total("BALANCE") + flight != opened:
        return f"accounts hold {total('BALANCE')}, {flight} is in flight, and they opened with {opened}"
    return None


tested = ""
if sys.argv[1]:
    with open(sys.argv[1], encoding="utf-8") as source:
        tested = source.read()
wrong = 0
for name in sys.argv[2:]:
    why = wrong_sum(name, tested)
    print(f"{name}: {why or 'adds up'}")
    wrong += why is not None
sys.exit(1 if wrong else 0)
END
