#!/usr/bin/env python3
"""Pictures of runs of `branch` by tools/picture.py, against the lines that they are drawn from.

usage: check_picture.py

The sample in docs/run.svg must be what the tool draws. Pictures of random runs, of the model in tests/branch_model.py, must be
XML and have the marks that the lines tell, the arrows, bars and bands from the right step to the right one, and say what each
held letter waits for; also runs over a carrier that brings letters more than once, and strays. Lines that do not fit the steps
must be refused.
"""

import random
import re
import subprocess
import sys
import tempfile
import xml.etree.ElementTree as ElementTree
from collections import Counter, defaultdict
from concurrent.futures import ThreadPoolExecutor
from pathlib import Path

sys.dont_write_bytecode = True
HOME = Path(__file__).resolve().parent.parent
sys.path[:0] = [str(HOME / "tests"), str(HOME / "tools")]
from branch_model import PLACES, SEATS, Branch, Letter, Lines, Refused
from compare_branch import stream
from follow_branch import Misfit, follow
from picture import picture
from steps import steps_of_lines

SEED = 20241007
RUNS = 200
TOLD_RUNS = 80  # over a carrier that brings repeats and strays
STARTED = 8  # runs that are drawn by the program as it is started by hand; all others by its functions
MISFITS = 300
WORKERS = 2
TOOL = str(HOME / "tools" / "picture.py")
SVG = "{http://www.w3.org/2000/svg}"

# Each sort of mark must come in the random runs, and so often at least.
OFTEN = 20
MUST_COME = [
    "post sent",
    "post parked",
    "collect sent",
    "collect parked",
    "take held",
    "take repeat",
    "take stray",
    "show shown",
    "post refused",
    "collect refused",
    "take refused",
    "show refused",
    "bad",
]


class Copies(Lines):
    """Lines that bring some letters twice, to any seat, and letters that no seat posted."""

    def __init__(self, rng):
        super().__init__(SEATS, PLACES)
        self.rng = rng

    def put(self, letter):
        super().put(letter)
        for queue in self.queues:
            if self.rng.randrange(2) == 0:
                queue.insert(self.rng.randrange(len(queue) + 1), self.rng.choice([letter, letter, self.stray()]))

    def stray(self):
        poster, number = self.rng.choice([(3, 1), (15, 65535), (0, 5), (2, 300)])
        return Letter(poster, [number] * 16, None)


def lines_text(lines):
    return "".join(line + "\n" for line in lines)


def drawn(data, lines):
    return picture(follow(data, lines))


def started(data, lines, by_input):
    """Status, picture and errors of the program, with the steps or the lines on its standard input."""
    inputs = {"steps": data, "lines": lines_text(lines).encode("ascii")}
    with tempfile.TemporaryDirectory() as folder:
        names = []
        for name, content in inputs.items():
            names.append("-" if name == by_input else f"{folder}/{name}")
            (Path(folder) / name).write_bytes(content)
        command = [sys.executable, "-B", TOOL, *names]
        done = subprocess.run(command, input=inputs.get(by_input, b""), capture_output=True, timeout=60)
    return done.returncode, done.stdout.decode("ascii"), done.stderr.decode("ascii")


# What the lines tell.


class Told:
    """What the lines of a run tell: how many marks of each sort; what each letter waits for that a step names; and from which
    step to which the arrows, bars and bands go, with their seats.

    A letter waits for all that stood above it where it was posted and that the seat has neither posted nor shown."""

    def __init__(self, lines):
        self.marks, self.waits, self.spans = Counter(), [], []
        self.logs, self.holds = defaultdict(list), defaultdict(list)
        self.above, self.sent, self.parked = {}, {}, {}
        for index, line in enumerate(lines[:-SEATS]):
            self.add(index, *(line.split(" ")[1:] + [""] * 3)[:4])
        self.spans += [("park", seat, start, None) for seat, start in self.parked.items()]
        self.spans += [("keep", seat, *keep[1:], None) for seat, hold in self.holds.items() for keep in hold]

    def missing(self, seat, name):
        return self.above[name] - set(self.logs[seat])

    def add(self, index, call, seat, came, name):
        self.marks[f"step {call} {came}".strip()] += 1
        if call in ("post", "collect") and came != "refused":
            self.give(index, call, seat, came, name)
        elif call == "take" and came != "refused":
            self.take(index, seat, came, name)
        elif came == "shown":
            self.show(index, seat, name)
        held = [keep[0] for keep in self.holds[seat]] if (call, came, name) == ("show", "refused", "15") else []
        self.waits.append({letter: self.missing(seat, letter) for letter in ([name] if came == "held" else held)})

    def give(self, index, call, seat, came, name):
        if call == "post":
            self.above[name] = set(self.logs[seat])
            self.logs[seat].append(name)
        if came == "sent":
            self.sent[name] = index
        if came == "sent" and seat in self.parked:
            self.spans.append(("park", seat, self.parked.pop(seat), index))
        if came == "parked":
            self.parked.setdefault(seat, index)

    def take(self, index, seat, came, name):
        poster = name.split(".")[0]
        if name in self.sent and poster != seat:
            self.spans.append((f"way {came}", poster, seat, self.sent[name], index))
        if came == "held":
            self.holds[seat].append([name, index, None if self.missing(seat, name) else index])

    def show(self, index, seat, name):
        keep = next(keep for keep in self.holds[seat] if keep[0] == name)
        self.holds[seat].remove(keep)
        self.logs[seat].append(name)
        self.spans.append(("keep", seat, *keep[1:], index))
        for other in self.holds[seat]:
            if other[2] is None and not self.missing(seat, other[0]):
                other[2] = index


# What the picture has.


def words_in(element):
    return ["".join(text.itertext()) for text in element.iter(f"{SVG}text")]


def names_in(words):
    """The names in a list in which three or more of one poster are written as the first to the last."""
    names = set()
    for part in words.split(", "):
        first, _, last = part.partition(" to ")
        poster, number = first.split(".")
        names |= {f"{poster}.{n}" for n in range(int(number), int((last or first).split(".")[1]) + 1)}
    return names


def nearest(values, value):
    """The index of the value next to this one, or None where none is near."""
    best = min(range(len(values)), key=lambda at: abs(values[at] - value))
    return best if abs(values[best] - value) < 19 else None


class Drawn:
    """The same, as the picture has it."""

    def __init__(self, svg):
        self.root = ElementTree.fromstring(svg)
        texts = list(self.root.iter(f"{SVG}text"))
        self.xs = [float(text.get("x")) + 20 for text in texts if text.get("class") == "seat"]
        self.lines = [text for text in texts if text.get("class") == "line"][:-1]
        self.ys = [float(text.get("y")) - 4 for text in self.lines]
        groups = list(self.root.iter(f"{SVG}g"))
        self.untitled = sum(1 for group in groups if not group.findtext(f"{SVG}title"))
        steps = [group for group in groups if group.get("class").startswith("step ")]
        self.marks = Counter(group.get("class") for group in steps)
        self.waits = [self.waits_of(words_in(group)) for group in steps]
        self.spans = [self.span(group) for group in groups if group not in steps]

    def waits_of(self, words):
        """What the words beside a mark say that letters wait for."""
        held = words[0].removeprefix("held ") if words[0].startswith("held ") else None
        waits = {held: set()} if held else {}
        for line in words[1:]:
            name, found, names = line.partition("waits for ")
            if found:
                waits[name.strip() or held] = names_in(names)
        return waits

    def span(self, group):
        sort, paths = group.get("class"), group.findall(f"{SVG}path")
        numbers = [[float(number) for number in re.findall(r"[0-9.]+", path.get("d"))] for path in paths]
        start, end = (nearest(self.ys, y) for y in (numbers[0][1], numbers[-1][-1]))
        if sort == "park":
            return sort, self.seat(numbers[0][0]), start, end
        if sort == "keep":
            # The bar begins at the mark's left edge; its last part is whole from where the letter is ready.
            whole = paths[-1].get("class") == "ready"
            return sort, self.seat(numbers[0][0] + 7), start, nearest(self.ys, numbers[-1][1]) if whole else None, end
        return sort, self.seat(numbers[0][0]), self.seat(numbers[-1][-2]), start, end

    def seat(self, x):
        return str(nearest(self.xs, x))


def is_right(data, lines):
    """Whether the picture of a run has what its lines tell, and the lines themselves."""
    try:
        have = Drawn(drawn(data, lines))
    except (Misfit, ElementTree.ParseError) as error:
        print(error)
        return False
    want = Told(lines)
    return (
        have.untitled == 0
        and have.marks == want.marks
        and have.waits == want.waits
        and sorted(have.spans, key=str) == sorted(want.spans, key=str)
        and [line.text for line in have.lines] == lines[:-SEATS]
    )


def is_right_started(data, lines, by_input):
    return started(data, lines, by_input) == (0, drawn(data, lines), "")


def is_refused_started(data, lines, by_input):
    status, out, errors = started(data, lines, by_input)
    return status == 1 and out == "" and errors.count("\n") == 1 and errors.startswith("picture.py: line ")


def is_refused(data, lines):
    try:
        drawn(data, lines)
    except Misfit as error:
        return "\n" not in str(error)
    return False


# Runs, and lines that do not fit.


def told_run(rng):
    """A run with a repeat or a stray letter."""
    while True:
        data, branch = stream(rng), Branch()
        branch.room.carrier = Copies(rng)
        lines = branch.run(data)
        if any(word in line for line in lines for word in ("repeat", "stray")):
            return data, lines


def one_character(rng, lines):
    at = rng.randrange(len(lines))
    place = rng.randrange(len(lines[at]))
    other = rng.choice([c for c in "0123456789. abdehknoprstw" if c != lines[at][place]])
    return lines[:at] + [lines[at][:place] + other + lines[at][place + 1 :]] + lines[at + 1 :]


def one_left_out(rng, lines):
    at = rng.randrange(len(lines))
    return lines[:at] + lines[at + 1 :]


def one_twice(rng, lines):
    at = rng.randrange(len(lines))
    return lines[: at + 1] + lines[at:]


def of_another_run(rng, lines):
    while True:
        others = Branch().run(stream(rng))
        if others != lines:
            return others


SPOILS = [one_character, one_left_out, one_twice, of_another_run]


def misfit(rng, runs):
    data, lines = rng.choice(runs)
    return data, rng.choice(SPOILS)(rng, lines)


# The checks.


def sample():
    text = (HOME / "tests" / "samples" / "branch.txt").read_text(encoding="ascii")
    data = steps_of_lines(text.split("\n"))
    return data, Branch().run(data)


def wrong_uses():
    """Whether each wrong use ends with status 1, one line and no picture."""
    file = str(HOME / "docs" / "run.svg")
    unread = [["/no/such/file", "-"], [file, "/no/such/file"], [str(HOME), "-"], [file, file], [file, "-"]]
    for arguments in [[], ["-"], [file], ["-", "-"], [file] * 3] + unread:
        done = subprocess.run([sys.executable, "-B", TOOL, *arguments], input=b"", capture_output=True, timeout=60)
        said = done.stderr.startswith(b"picture.py: " if arguments in unread else b"usage: ")
        yield done.returncode == 1 and done.stdout == b"" and said and done.stderr.count(b"\n") == 1


def results():
    """Pairs: what was checked, and whether it is right."""
    rng = random.Random(SEED)
    runs = [sample(), (b"", Branch().run(b""))]
    runs += [(data, Branch().run(data)) for data in (stream(rng) for _ in range(RUNS))]
    told_runs = [told_run(rng) for _ in range(TOLD_RUNS)]
    spoilt = [misfit(rng, runs) for _ in range(MISFITS)]
    inputs = ["steps", "lines", None]
    yield "docs/run.svg", (HOME / "docs" / "run.svg").read_text(encoding="ascii") == drawn(*sample())
    for at, run in enumerate(runs + told_runs):
        yield f"run {at}, {run[0].hex()}", is_right(*run)
    for at, run in enumerate(spoilt):
        yield f"misfit {at}, {run[0].hex()}", is_refused(*run)
    for at, right in enumerate(wrong_uses()):
        yield f"wrong use {at}", right
    with ThreadPoolExecutor(WORKERS) as workers:
        jobs = [(is_right_started, run) for run in runs[:STARTED] + told_runs[:STARTED]]
        jobs += [(is_refused_started, run) for run in spoilt[:STARTED]]
        done = workers.map(lambda job: job[1][0](*job[1][1], inputs[job[0] % 3]), enumerate(jobs))
        for (check, run), right in zip(jobs, done):
            yield f"{check.__name__}, {run[0].hex()}", right
    counts = sum((Told(lines).marks for _, lines in runs + told_runs), Counter())
    for what in MUST_COME:
        print(f"{counts[f'step {what}']:7} {what}")
        yield f"{what} came often", counts[f"step {what}"] >= OFTEN


def main():
    if len(sys.argv) != 1:
        print(__doc__)
        return 2
    passed = failed = 0
    for what, right in results():
        passed += right
        failed += not right
        if not right:
            print(f"wrong: {what}")
    print(f"seed {SEED}")
    print(f"{passed} passed, {failed} failed")
    return 1 if failed else 0


if __name__ == "__main__":
    sys.exit(main())
