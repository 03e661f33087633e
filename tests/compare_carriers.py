#!/usr/bin/env python3
"""Random puts and draws on lines, on a spool and on a pair of both, against a model.

usage: compare_carriers.py PROGRAM

PROGRAM is the built program `trial`. The model below follows docs/RULES.md. Each run writes the program a setting and
steps of eight bytes, and holds each line that the program prints to the model's.
"""

import random
import struct
import subprocess
import sys

SEED = 20240607
RUNS = 160
STEPS = 300

CAP = 2**32 - 1

# Settings that are always run: carriers with as many seats and letters as there can be, and sizes whose low bits alone would do.
EDGES = [
    (16, 16, 64, 4, 1024),
    (1, 1, 64, 64, 98),
    (1, 1, 64, 65, 98),
    (1, 1, 64, 2**16 + 1, 98),
    (1, 1, 64, 2**24 + 1, 98),
    (1, 1, 64, 2**31 + 1, 98),
]


class Lines:
    """A queue of c places for each seat."""

    def __init__(self, seats, size):
        self.seats = seats
        self.size = size
        self.lists = [[] for _ in range(seats)]

    @staticmethod
    def refusal(seats, size, letters):
        if seats == 0 or seats > 16:
            return 6
        if size == 0 or letters < seats * size:
            return 5
        return None

    def waiting(self, seat):
        return self.lists[seat] if seat < self.seats else []

    def fits(self, poster):
        others = [seat for seat in range(self.seats) if seat != poster]
        return poster < self.seats and all(len(self.lists[seat]) < self.size for seat in others)

    def add(self, letter):
        for seat in range(self.seats):
            if seat != letter["poster"]:
                self.lists[seat].append(letter)

    def take(self, seat, place):
        return self.lists[seat].pop(place)


class Spool:
    """Rows of 98 bytes, each with the seats that have yet to draw it."""

    def __init__(self, seats, space):
        self.seats = seats
        self.space = space
        self.rows = []

    @staticmethod
    def refusal(seats, space):
        if seats == 0 or seats > 16:
            return 6
        if space < 98:
            return 5
        return None

    def waiting(self, seat):
        return [letter for letter, wanted in self.rows if seat in wanted]

    def fits(self, poster):
        return poster < self.seats and 98 * (len(self.rows) + 1) <= self.space

    def add(self, letter):
        wanted = set(range(self.seats)) - {letter["poster"]}
        if wanted:
            self.rows.append((letter, wanted))

    def take(self, seat, place):
        row = [row for row in self.rows if seat in row[1]][place]
        row[1].discard(seat)
        self.rows = [row for row in self.rows if row[1]]
        return row[0]


class Pair:
    """Two carriers as one."""

    def __init__(self, first, second):
        self.seats = first.seats
        self.first = first
        self.second = second

    @staticmethod
    def refusal(first, second):
        return None if first.seats == second.seats else 6

    def waiting(self, seat):
        return self.first.waiting(seat) + self.second.waiting(seat)

    def fits(self, poster):
        return self.first.fits(poster) and self.second.fits(poster)

    def add(self, letter):
        self.first.add(letter)
        self.second.add(letter)

    def take(self, seat, place):
        ahead = len(self.first.waiting(seat))
        if place < ahead:
            return self.first.take(seat, place)
        return self.second.take(seat, place - ahead)


def waits(carrier, seat):
    return min(len(carrier.waiting(seat)), CAP)


def put_refusal(carrier, letter):
    if letter["poster"] >= carrier.seats:
        return 8
    if not carrier.fits(letter["poster"]):
        return 11
    return None


def draw_refusal(carrier, seat, place):
    if seat >= carrier.seats:
        return 8
    if place >= waits(carrier, seat):
        return 14
    return None


def show(letter):
    entries = " ".join(str(entry) for entry in letter["stamp"])
    return f"page {letter['poster']} {entries} add {letter['code']}"


def letter_of(poster, number, code):
    """The letter of a put, and none where no letter can have these parts."""
    stamp = [(number + seat) % 65536 for seat in range(16)]
    if poster > 15 or stamp[poster] == 0:
        return None
    return {"poster": poster, "stamp": stamp, "code": code}


def answers(carrier, steps):
    """What a carrier answers to the steps, line by line."""
    page = {"poster": 0, "stamp": [0] * 16, "code": 0}
    for call, seat, number, value in steps:
        if call == 1:
            letter = letter_of(seat, number, value)
            no = 20 if letter is None else put_refusal(carrier, letter)
            if no is None:
                carrier.add(letter)
            yield "put" if no is None else f"refused {no}"
        elif call == 2:
            no = draw_refusal(carrier, seat, value)
            if no is None:
                page = carrier.take(seat, value)
            yield "drawn" if no is None else f"refused {no}"
            yield show(page)
        elif call == 3:
            yield f"waits {waits(carrier, seat)}"
        elif call == 4:
            yield f"fits {str(carrier.fits(seat)).lower()}"
        else:
            yield f"seats {carrier.seats}"


def makes(setting):
    """The three makes by name, each with the number of its refusal or else the carrier."""
    line_seats, spool_seats, letters, size, space = setting
    line_no = Lines.refusal(line_seats, size, letters)
    spool_no = Spool.refusal(spool_seats, space)
    yield "lines", line_no, None if line_no else Lines(line_seats, size)
    yield "spool", spool_no, None if spool_no else Spool(spool_seats, space)
    if line_no or spool_no:
        yield "pair", line_no or spool_no, None
        return
    first, second = Lines(line_seats, size), Spool(spool_seats, space)
    pair_no = Pair.refusal(first, second)
    yield "pair", pair_no, None if pair_no else Pair(first, second)


def expected(setting, steps):
    """All lines of a run, and how many steps were taken."""
    lines = []
    taken = 0
    for name, no, carrier in makes(setting):
        lines.append(name)
        if no:
            lines.append(f"refused {no}")
        else:
            lines.extend(answers(carrier, steps))
            taken += len(steps)
    return lines, taken


def random_setting(rng):
    """Mostly carriers that can be made; some that are refused."""
    seats = rng.choice([1, 2, 3, 3, 4, 5, 5, 8, 16])
    size = rng.choice([1, 2, 3, 4])
    letters = min(64, seats * size + rng.choice([0, 0, 1, 5]))
    space = rng.choice([98, 195, 196, 294, 500, 980, 1024])
    spool_seats = seats
    odd = rng.randrange(12)
    if odd == 0:
        seats = rng.choice([0, 17, 255])
    elif odd == 1:
        size, letters = rng.choice([(0, 64), (size, seats * size - 1), (2**31, 64), (2**32 - 1, 0)])
    elif odd == 2:
        space = rng.choice([0, 97])
    elif odd == 3:
        spool_seats = rng.choice([1, 2, 6, 0, 17])
    return seats, spool_seats, letters, size, space


def random_step(rng, seats):
    kind = rng.choice([1, 1, 1, 2, 2, 2, 2, 3, 4, 5])
    seat = rng.randrange(max(1, min(seats, 16)))
    if rng.randrange(25) == 0:
        seat = rng.choice([seats, 15, 16, 255])
    number = rng.choice([rng.randrange(1, 300), rng.randrange(65536)])
    if rng.randrange(25) == 0:
        number = (65536 - seat) % 65536  # the letter's own number would be 0
    value = rng.randrange(2**32)
    if kind == 2:
        value = rng.choice([0, 0, 0, 1, 1, 2, 3, rng.randrange(12), 2 ** rng.randrange(4, 32), CAP - 1, CAP])
    return kind, seat & 255, number, value


def run(program, setting, steps):
    head = struct.pack("<BBHIH", *setting)
    body = b"".join(struct.pack("<BBHI", *step) for step in steps)
    done = subprocess.run([program], input=head + body, capture_output=True, check=True)
    return done.stdout.decode("ascii").splitlines()


def main():
    if len(sys.argv) != 2:
        print(__doc__)
        return 2
    rng = random.Random(SEED)
    passed = failed = operations = 0
    for index in range(len(EDGES) + RUNS):
        setting = EDGES[index] if index < len(EDGES) else random_setting(rng)
        steps = [random_step(rng, setting[0]) for _ in range(STEPS)]
        want, taken = expected(setting, steps)
        got = run(sys.argv[1], setting, steps)
        operations += taken
        if got == want:
            passed += 1
            continue
        failed += 1
        place = next((i for i, (a, b) in enumerate(zip(got, want)) if a != b), min(len(got), len(want)))
        print(f"run {index} {setting}: line {place}: got {got[place:place + 1]}, expected {want[place:place + 1]}")
    print(f"{operations} operations in {passed + failed} runs, seed {SEED}")
    print(f"{passed} passed, {failed} failed")
    return 1 if failed else 0


if __name__ == "__main__":
    sys.exit(main())
