"""Random steps on job rooms of up to sixteen seats, on a pair of lines and a spool, against a model:

    python3 tests/compare_rooms.py PATH_TO_ROOMS_CHECK_BINARY

Each case is a room of its own: the program is given its setting and steps, and every line that it prints is held to the
model's. The cases come from a fixed seed. The last line is `N passed, M failed`; the status is 1 where any case failed.
"""

import random
import struct
import subprocess
import sys
from collections import Counter
from concurrent.futures import ThreadPoolExecutor
from pathlib import Path

sys.dont_write_bytecode = True
sys.path.insert(0, str(Path(__file__).resolve().parent))
import branch_model as model
import compare_carriers as carriers
from record_model import Add, Strike
from sheet_model import JobList

SEED = 77
CASES = 5_000
CROWDED = 10  # of these the first: rooms whose spool is filled, or whose quota is spent
ROOM = 7  # the number of the program's room
QUEUES = 256  # letters
BYTES = 6272
ADD, STRIKE, SEND, PARK, COLLECT, TAKE, SHOW = range(1, 8)


class OnPair:
    """A pair of lines and a spool, as a room's carrier."""

    def __init__(self, seats, size):
        self.seats = seats
        self.pair = carriers.Pair(carriers.Lines(seats, size), carriers.Spool(seats, BYTES))

    def put(self, letter):
        if not self.pair.fits(letter.poster):
            raise model.Refused(11)
        self.pair.add({"poster": letter.poster, "letter": letter})

    def draw(self, seat, place):
        if seat >= self.seats:
            raise model.Refused(8)
        if place >= len(self.pair.waiting(seat)):
            raise model.Refused(14)
        return self.pair.take(seat, place)["letter"]


def refusal_to_make(seats, quota, size):
    """The number with which the room or its carrier is refused, or None."""
    if quota == 0 or quota > 256:
        return 1
    if seats > 16 or any((n + 1) * quota > 256 for n in range(seats)):
        return 3
    if seats == 0:
        return 6
    if size == 0 or QUEUES < seats * size:
        return 5
    return None


def reply(room, step):
    call, seat, number, wide, poster = step
    try:
        if call == ADD:
            return "docket %d %d %d" % (ROOM, *room.post(seat, Add(wide)))
        if call == STRIKE:
            if poster > 15 or number == 0:
                raise model.Refused(20)
            return "docket %d %d %d" % (ROOM, *room.post(seat, Strike(poster, number)))
        if call in (SEND, PARK):
            if wide != ROOM:
                raise model.Refused(12)
            (room.send if call == SEND else room.park)((seat, number))
            return "done"
        if call == COLLECT:
            return "docket %d %d %d" % (ROOM, *room.collect(seat))
        if call == TAKE:
            how, name = room.take(seat, wide)
            return "%s %d.%d" % (how, *name)
        return "shown %d.%d" % room.show(seat)
    except model.Refused as no:
        return f"refused {no.number}"


def sheet_line(room, seat):
    sheet = JobList()
    if sheet.places < room.count * room.quota:
        return "refused 17"
    for letter in room.seats[seat].log:
        stamp = list(letter.stamp) + [0] * (16 - room.count)
        sheet.enter(model.Letter(letter.poster, stamp, letter.body))
    jobs = sorted(sheet.contents.items())
    return "".join([f"jobs {seat}"] + [" %d.%d=%d" % (*name, code) for name, code in jobs])


def any_step(rng, room):
    """A step of any values."""
    return (rng.choice([*range(1, 8), 0, 8, 255]), rng.choice([rng.randrange(room.count), 16, 255]),
            rng.choice([0, 1, 2, 3, 256, 257, 65535]), rng.choice([ROOM, 0, 1, 256, 2**16, 2**24, 2**32 - 1]),
            rng.choice([0, 1, 15, 16]))


def likely_step(rng, room):
    """A step that mostly goes well: dockets that are out are spent, what waits is taken, what is held is shown."""
    seat = rng.randrange(room.count)
    box = room.seats[seat]
    if box.docket == "out":
        return (rng.choice([SEND, SEND, SEND, PARK]), seat, box.clock[seat], ROOM, 0)
    if box.docket == "parked" and rng.random() < 0.5:
        return (COLLECT, seat, 0, 0, 0)
    waits = len(room.carrier.pair.waiting(seat))
    if waits and rng.random() < 0.6:
        return (TAKE, seat, 0, rng.randrange(waits), 0)
    if box.hold and rng.random() < 0.7:
        return (SHOW, seat, 0, 0, 0)
    if rng.random() < 0.4:
        struck = rng.choice(box.log).name if box.log else (rng.randrange(room.count), 1)
        return (STRIKE, seat, struck[1], 0, struck[0])
    return (ADD, seat, 0, rng.randrange(2**32), 0)


def crowding_step(rng, room):
    """Posts of seat 0, each of which is sent, and now and then a take of seat 1."""
    box = room.seats[0]
    if box.docket == "out":
        return (SEND, 0, box.clock[0], ROOM, 0)
    if rng.random() < 0.03:
        return (TAKE, 1, 0, 0, 0)
    return (ADD, 0, 0, rng.randrange(2**32), 0)


def make_case(number):
    """The bytes for the program, and the lines that it must print."""
    rng = random.Random(f"{SEED} {number}")
    if number < CROWDED:
        return steps_made(rng, *rng.choice([((2, 128, 128), 160), ((1, 256, 1), 520)]), crowding_step)
    seats = rng.choice([1, 2, 3, 3, 4, 5, 8, 16, 16, rng.randrange(1, 17), rng.randrange(0, 19)])
    quota = rng.choice([1, 2, 3, 8, 15, 16, 17, rng.randrange(0, 300)])
    size = rng.choice([1, 2, 4, 16, rng.randrange(0, 20)])
    return steps_made(rng, (seats, quota, size), rng.randrange(10, 90), some_step)


def some_step(rng, room):
    return any_step(rng, room) if rng.random() < 0.1 else likely_step(rng, room)


def steps_made(rng, setting, count, next_step):
    seats, quota, size = setting
    data = bytearray(struct.pack("<BHB", seats, quota, size))
    no = refusal_to_make(seats, quota, size)
    if no:
        return bytes(data), [f"refused {no}"]
    room = model.Room(seats, quota, OnPair(seats, size))
    lines = []
    for _ in range(count):
        step = next_step(rng, room)
        data += struct.pack("<BBHIBBBB", *step, 0, 0, 0)
        lines.append(reply(room, step))
    for seat in range(seats):
        lines.append("".join([f"log {seat}"] + [" %d.%d" % letter.name for letter in room.seats[seat].log]))
        lines.append(sheet_line(room, seat))
    return bytes(data), lines


def run_case(program, number):
    data, want = make_case(number)
    done = subprocess.run([program], input=data, capture_output=True, timeout=60)
    got = done.stdout.decode().split("\n")[:-1]
    words = Counter(" ".join(line.split()[:2]) if line.startswith("refused") else line.split()[0] for line in want)
    if done.returncode == 0 and got == want:
        return True, words, ""
    at = next((i for i, pair in enumerate(zip(want, got)) if pair[0] != pair[1]), min(len(want), len(got)))
    return False, words, f"case {number}, line {at}: expected {want[at:at + 1]}, got {got[at:at + 1]}"


def main():
    program = sys.argv[1]
    if not Path(program).exists():
        print(f"error: there is no program {program}")
        sys.exit(2)
    passed, failed, words = 0, 0, Counter()
    with ThreadPoolExecutor(2) as pool:
        for good, seen, report in pool.map(lambda number: run_case(program, number), range(CASES)):
            passed, failed = passed + good, failed + (not good)
            words += seen
            if not good and failed <= 10:
                print(report)
    print(", ".join(f"{word}: {count}" for word, count in sorted(words.items())))
    print(f"{passed} passed, {failed} failed")
    sys.exit(1 if failed else 0)


if __name__ == "__main__":
    main()
