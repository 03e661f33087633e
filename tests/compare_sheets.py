"""Compares the sheets with the model in sheet_model.py:

    python3 tests/compare_sheets.py PATH_TO_SHEETS_CHECK_BINARY

Each history of letters is drawn up in two causal orders, which must print the
same sheet. Other logs have letters of any values, are as long as a sheet has
places or a little longer, or are entered on what the last log left. The cases
come from a fixed seed. The last line is `N passed, M failed`. The status is 1
where any case failed, and 2 where there is no program to run.
"""

import random
import re
import shutil
import subprocess
import sys
from dataclasses import dataclass
from pathlib import Path

sys.dont_write_bytecode = True
sys.path.insert(0, str(Path(__file__).resolve().parent))
import random_letters as some
from record_model import BODY, KIND_CODES, LENGTH, POSTER, RECORD_SIZE, SEATS, Letter, Strike, record_of
from sheet_model import JobList, Timeline

SEED = 40
HISTORIES = 10_500  # of each kind
LOOSE_LOGS = 1_000  # of each kind
CASES_TO_A_RUN = 3_000
PATIENCE = 60  # seconds that the program may take for one run
MOST_REPORTS = 10
DRAW_UP, ENTER = 255, 254
MODELS = {"text": Timeline, "job": JobList}


@dataclass
class Case:
    kind: str
    order: int
    log: list
    like_last: bool = False  # must print the same sheet as the case before

    def blocks(self):
        mark = bytearray(RECORD_SIZE)
        mark[POSTER : POSTER + 2] = self.order, KIND_CODES[self.kind]
        return b"".join(record for letter, record in self.log) + mark

    def expected(self, sheet):
        letters = [letter for letter, record in self.log]
        answer = (sheet.draw_up if self.order == DRAW_UP else sheet.enter_all)(letters)
        told = b"done" if answer is None else b"refused %d" % answer
        return told, [*sheet.lines()], [*sheet.more_lines(letters)]


@dataclass
class Bad:
    """A block of which no letter can be made."""

    kind: str
    record: bytes
    like_last = False

    def blocks(self):
        return self.record

    def expected(self, sheet):
        return b"bad", [], []


# Random logs: lists of pairs of a letter and its record


def with_record(letter):
    return letter, record_of(letter)


def job(rng, names):
    """An addition, or a strike that mostly names a letter of the history."""
    if rng.random() < 0.5:
        return some.add(rng)
    return Strike(*rng.choice(names)) if names and rng.random() < 0.8 else some.strike(rng)


def history(rng, kind, size):
    """Letters that boxes post, some of them after the letters of others are shown to them."""
    first = [0] * SEATS if rng.random() < 0.7 else [rng.choice((0, 1, 255, 65000)) for _ in range(SEATS)]
    seats = rng.sample(range(SEATS), rng.choice((1, 2, 2, 3, 3, 4, 5, 16)))
    clocks = {seat: list(first) for seat in seats}
    letters, names = [], []
    for _ in range(size):
        seat = rng.choice(seats)
        clock = clocks[seat]
        if letters and rng.random() < 0.6:
            clock[:] = map(max, clock, rng.choice(letters).stamp)
        clock[seat] += 1
        body = some.text(rng, rng.choice((0, 1, 5, 60))) if kind == "text" else job(rng, names)
        letters.append(Letter(tuple(clock), seat, body))
        names.append((seat, clock[seat]))
    return first, [with_record(letter) for letter in letters]


def causal_order(rng, first, log):
    """A random order in which each letter stands below all that it covers."""
    queues = {}
    for pair in log:
        queues.setdefault(pair[0].poster, []).append(pair)
    placed, order, next_up = list(first), [], dict.fromkeys(queues, 0)
    while next_up:
        poster = rng.choice([p for p, i in next_up.items() if is_next(queues[p][i][0], placed)])
        order.append(queues[poster][next_up[poster]])
        placed[poster] += 1
        next_up[poster] += 1
        if next_up[poster] == len(queues[poster]):
            del next_up[poster]
    return order


def is_next(letter, placed):
    return all(entry <= there or seat == letter.poster for seat, (entry, there) in enumerate(zip(letter.stamp, placed)))


def loose_letter(rng, kind):
    """A letter of any values, from few posters with few numbers, so that names come twice."""
    stamp = [rng.choice((0, 0, 1, 2, 3, 65535)) for _ in range(SEATS)]
    poster = rng.choice((0, 1, 15))
    stamp[poster] = rng.choice((1, 2, 65535))
    names = [(p, n) for p in (0, 1, 15) for n in (1, 2, 65535)]
    body = some.text(rng, rng.randint(0, 3)) if kind == "text" else job(rng, names)
    return Letter(tuple(stamp), poster, body)


def loose_log(rng, kind, size):
    return [with_record(loose_letter(rng, kind)) for _ in range(size)]


def bad_record(rng, kind):
    record = some.record(rng, kind)
    damage = rng.randrange(3)
    if damage == 0:
        record[POSTER] = rng.choice((16, 17, 128, 253))
    elif damage == 1:
        some.zero_own_number(rng, record)
    elif kind == "text":
        record[LENGTH] = rng.choice((1, 60, 60, 61, 255))
        record[BODY] = rng.choice((31, 127))
    else:
        record[BODY : BODY + 4] = rng.choice((b"\2\x10\1\0", b"\2\xff\1\0", b"\2\0\0\0", b"\2\x0f\0\0"))
    return bytes(record)


# Cases


def two_orders(rng, kind, size):
    first, log = history(rng, kind, size)
    yield Case(kind, DRAW_UP, causal_order(rng, first, log))
    yield Case(kind, DRAW_UP, causal_order(rng, first, log), like_last=True)


def cases_of_kind(rng, kind):
    for _ in range(HISTORIES):
        yield from two_orders(rng, kind, rng.choice((0, 1, 2, 3, 4, 5, 6, 8, 12)))
    for _ in range(LOOSE_LOGS):
        order = DRAW_UP if rng.random() < 0.5 else ENTER
        if rng.random() < 0.2:
            yield Bad(kind, bad_record(rng, kind))
        yield Case(kind, order, loose_log(rng, kind, rng.randint(0, 30)))
    places = MODELS[kind].places
    for size in (19, 20, 21, 40, 41, places - 1, places, places + 1, places + 2, 300):
        for _ in range(3):
            yield from two_orders(rng, kind, size)
            yield Case(kind, ENTER, loose_log(rng, kind, rng.randint(0, 3)))


# Comparing


def printed_blocks(program, cases):
    """What the program prints for each case: an answer, and the lines up to the next answer."""
    data = b"".join(case.blocks() for case in cases)
    done = subprocess.run([program], input=data, capture_output=True, timeout=PATIENCE)
    if done.returncode != 0:
        return []
    return [block.split(b"\n") for block in re.split(rb"\n(?=done|refused|bad)", done.stdout.removesuffix(b"\n"))]


def failures(program, cases):
    sheets = {kind: model() for kind, model in MODELS.items()}
    blocks = printed_blocks(program, cases)
    if len(blocks) != len(cases):
        yield len(cases), f"{len(blocks)} answers to {len(cases)} logs"
        return
    last = None
    for i, (case, block) in enumerate(zip(cases, blocks)):
        told, lines, more = case.expected(sheets[case.kind])
        sheet = block[1 : 1 + len(lines)]
        if block != [told, *lines, *more]:
            yield 1, f"log {i}: expected {[told, *lines, *more]}, printed {block}"
        elif case.like_last and sheet != last:
            yield 1, f"log {i}: printed {sheet}, and in the other order {last}"
        last = sheet


def runs(rng):
    """The cases in runs, of which none begins with the second of two orders."""
    run = []
    for kind in MODELS:
        for case in cases_of_kind(rng, kind):
            if len(run) >= CASES_TO_A_RUN and not case.like_last:
                yield run
                run = []
            run.append(case)
    yield run


def main():
    if len(sys.argv) != 2 or shutil.which(sys.argv[1]) is None:
        print("usage: compare_sheets.py PATH_TO_SHEETS_CHECK_BINARY", file=sys.stderr)
        return 2
    total, failed, reports = 0, 0, 0
    for run in runs(random.Random(SEED)):
        total += len(run)
        for count, report in failures(sys.argv[1], run):
            failed += count
            if reports < MOST_REPORTS:
                print(report)
            reports += 1
    print(f"{total - failed} passed, {failed} failed")
    return 1 if failed else 0


if __name__ == "__main__":
    sys.exit(main())
