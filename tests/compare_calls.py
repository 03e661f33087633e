"""Single calls on drafts, rooms, closed rooms, dockets, carriers, sheets and files, against a model:

    python3 tests/compare_calls.py PATH_TO_ROOMS_CHECK_BINARY

The program is given scripts of calls (calls_scripts.py), and each line that it prints is held to the model's
(calls_program.py, calls_model.py). What a call brings may be anything: tables of any length and with any letters, carriers
for other seats, dockets of another room. It is counted what came: each number at each call that has it, each two checks of
a call that can both fail and did, and what else stands in `must_come`; what came seldom has failed. One thing cannot come:
over lines, a spool or a pair no take finds a letter that is stray by its poster, since a put brings the letter of a seat of
the room to the other seats. The scripts come from a fixed seed. The last line is `N passed, M failed`; the status is 1
where anything failed.
"""

import random
import re
import subprocess
import sys
from bisect import bisect_right
from collections import Counter
from concurrent.futures import ProcessPoolExecutor
from itertools import combinations
from pathlib import Path

sys.dont_write_bytecode = True
sys.path.insert(0, str(Path(__file__).resolve().parent))
from calls_model import ORDERS
from calls_program import LOOK, MAKES, SAVE, SHEET
from calls_scripts import SCRIPTS

SEED = 16
WORKERS = 4
SCRIPTS_TO_A_RUN = 40
PATIENCE = 60  # seconds that the program may take for one run
MOST_REPORTS = 10
OFTEN = 5
REFUSALS = Path(__file__).resolve().parent.parent / "docs" / "REFUSALS.md"

# The calls of ORDERS by the rows of docs/REFUSALS.md whose checks are numbers alone.
ROWS = {
    "making a draft": ["draft"], "draw up a seat's log, of an open or a closed room": ["draw up"], "a seat's log": ["log"],
    "a log's pages": ["pages"], "enter, on a sheet": ["enter"], "put, on a carrier": ["put"],
    "draw, from a carrier": ["draw"],
    "making lines or a spool": ["lines", "spool"], "making a pair": ["pair"],
    "making a text, a letter's name, a strike or a letter": ["text", "name", "strike", "letter"],
    "loading a file": ["load"], "saving a file": ["save"],
}

# Two checks that cannot both fail: the second looks at something that is not there where the first fails.
NEVER_BOTH = {
    ("open", 4, 5),  # a room without seats needs no places
    ("run", 4, 5),
    ("post", 8, 10),  # where there is no seat, there is no docket of it, no clock and no hold
    ("post", 8, 9),
    ("collect", 8, 13),
    ("show", 8, 15),
}

# The calls whose rows there have words as well.
IN_WORDS = {"run", "record", "reader", "put and draw", "over lines", "draw up a list"}

READINGS = ("log", "pages", "draw up")  # which an open and a closed room have


def pairs_of(call):
    """Every two checks of a call that can both fail, in their order."""
    pairs = {(call, first, second) for first, second in combinations(ORDERS[call], 2)}
    if call == "run":
        pairs.add((call, 5, 5))
    return sorted(pairs - NEVER_BOTH)


def must_come():
    closed = [(f"closed {call}", call) for call in READINGS]
    for name, call in [(call, call) for call in ORDERS] + closed:
        yield from {("refused", name, number) for number in ORDERS[call]}
        yield from {("before", name, *pair[1:]) for pair in pairs_of(call)}
    yield from (("taken", "stray", "by its number"), ("taken", "stray", "as the hold is full"), ("taken", "held", "new"))
    yield from (("taken", "repeat", "by the clock"), ("taken", "repeat", "by the hold"))
    for make in MAKES.values():
        for body in ("text", "job"):
            yield "sent", make, body
            yield "taken over", make, body
    for state in ("open", "closed"):
        for what in ("log", "pages", "drawn up"):
            yield "read", state, what
    for rows, pages in ((0, 0), (1, 1), (20, 1), (21, 2), (40, 2), (41, 3)):
        yield "pages of rows", rows, pages
    yield from (("a docket of the other room", "send"), ("a docket of the other room", "park"))
    for table in ("a log table", "a hold table"):
        yield from ((table, "longer than it must be"), (table, "just long enough"))
    yield from (("shown", "a letter that was written"), ("shown", "a letter that was taken"))
    yield from (("sent a letter that was written",), ("sent the first of several with one name",))
    for body, places in (("text", 256), ("job", 128)):
        yield from (("saved", body), ("loaded", body))
        for letters in (0, 1, 20, 21, places):
            yield "sheet of letters", body, letters


MUST_COME = sorted(set(must_come()), key=str)


def wrong_orders():
    """Where the rows of docs/REFUSALS.md and the model's orders differ."""
    text = REFUSALS.read_text(encoding="utf-8").split("## The order of checks")[1]
    rows = re.findall(r"^\| ([^|]+) \| ([0-9, ]+) \|$", text, re.M)
    told = {call: tuple(map(int, checks.split(", "))) for row, checks in rows for call in ROWS.get(row, [row])}
    for call in sorted(told.keys() | ORDERS.keys() - IN_WORDS):
        if told.get(call) != ORDERS.get(call):
            yield f"{call}: the order of checks is {told.get(call)} in docs/REFUSALS.md and {ORDERS.get(call)} in the model"


def look_around(script):
    """What the last calls left: both sets of tables, what each carrier means, the sheet and the file."""
    for at in (0, 1, 2):
        script.make(call=LOOK, set=at % 2, carrier=at)
    script.make(call=SHEET)
    script.make(call=SAVE, logs=0)


def make_scripts(numbers):
    scripts = []
    for maker, number in numbers:
        script = maker(random.Random(f"{SEED} {maker.__name__} {number}"))
        look_around(script)
        script.end()
        scripts.append(script)
    return scripts


def run(program, scripts):
    """The status, and the lines of each script."""
    data = b"".join(script.packed() for script in scripts)
    done = subprocess.run([program, "calls"], input=data, capture_output=True, timeout=PATIENCE)
    before, *parts = done.stdout.decode("ascii").split("script\n")
    outputs = [["script", *part.split("\n")[:-1]] for part in parts]
    return done.returncode, outputs if before == "" and len(outputs) <= len(scripts) else []


def compare(program, numbers):
    """For some scripts: how many passed, reports of the others, and what came."""
    scripts = make_scripts(numbers)
    status, outputs = run(program, scripts)
    outputs += [[]] * (len(scripts) - len(outputs))
    came, reports = Counter(), []
    for (maker, number), script, got in zip(numbers, scripts, outputs):
        came += script.came
        if status != 0 or got != script.lines:
            reports.append(f"{maker.__name__} {number}, status {status}, {difference(script, got)}")
    return len(scripts) - len(reports), reports, came


def difference(script, got):
    """The first line that is another, and the call that printed it."""
    want = script.lines
    at = next((i for i, pair in enumerate(zip(want, got)) if pair[0] != pair[1]), min(len(want), len(got)))
    index = bisect_right(script.starts, at) - 1
    call = script.calls[index] if 0 <= index and at < len(want) else None
    return f"line {at}: expected {want[at:at + 1]}, got {got[at:at + 1]}\n  call {index}: {call}\n  {script.setting}"


def told(what):
    return " ".join(map(str, what))


def print_counts(came):
    """Each call with its numbers, and each two of which the first was the answer; then what else came."""
    for name in sorted({what[1] for what in MUST_COME if what[0] == "refused"}):
        numbers = [f"{number} {came[what]}x" for what in MUST_COME if what[:2] == ("refused", name) for number in what[2:]]
        pairs = [f"{what[2]} before {what[3]} {came[what]}x" for what in MUST_COME if what[:2] == ("before", name)]
        print(f"{name}: {', '.join(numbers + pairs)}")
    for what in MUST_COME:
        if what[0] not in ("refused", "before"):
            print(f"{told(what)}: {came[what]}x")


def main():
    if len(sys.argv) != 2 or not Path(sys.argv[1]).exists():
        print(__doc__)
        return 2
    numbers = [(maker, number) for maker, count in SCRIPTS.items() for number in range(count)]
    random.Random(SEED).shuffle(numbers)
    parts = [numbers[at : at + SCRIPTS_TO_A_RUN] for at in range(0, len(numbers), SCRIPTS_TO_A_RUN)]
    passed, reports, came = 0, list(wrong_orders()), Counter()
    with ProcessPoolExecutor(WORKERS) as workers:
        for good, bad, counts in workers.map(compare, [sys.argv[1]] * len(parts), parts):
            passed, reports, came = passed + good, reports + bad, came + counts
    for what in MUST_COME:
        if came[what] < OFTEN:
            reports.append(f"'{told(what)}' came {came[what]} times, not {OFTEN}")
        passed += came[what] >= OFTEN
    print_counts(came)
    for report in reports[:MOST_REPORTS]:
        print(report)
    print(f"{came['calls']} calls in {len(numbers)} scripts, seed {SEED}")
    print(f"{passed} passed, {len(reports)} failed")
    return 1 if reports else 0


if __name__ == "__main__":
    sys.exit(main())
