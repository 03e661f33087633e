#!/usr/bin/env python3
"""Random streams of steps to `branch`, against a model.

usage: compare_branch.py PROGRAM

PROGRAM is the built program `branch`. The model, tests/branch_model.py, follows docs/. Every stream's whole output is held to
the model's, and at the end each outcome and each refusal that can come must have come often. Then the program is given
arguments, of which it takes none, and inputs and outputs that fail.
"""

import errno
import os
import random
import struct
import subprocess
import sys
import tempfile
from concurrent.futures import ThreadPoolExecutor
from pathlib import Path

sys.dont_write_bytecode = True
sys.path.insert(0, str(Path(__file__).resolve().parent))
import broken_streams as broken
from branch_model import PLACES, QUOTA, SEATS, STEP, Branch
from run_program import PATIENCE, Program

SEED = 20240923
STREAMS = 5400
PIECES = 60  # streams that are written piece by piece
LONGER = 60  # streams of hundreds of steps
LONGEST = 70_000  # steps of one stream
IDLE = 420_000  # steps of one stream that change nothing, before those that do: more than 3 MiB
ENDLESS = 6  # streams that go on and on after what is no step
WORKERS = 2

# The example of docs/PROGRAMS.md.
EXAMPLE = "0100010007 0301 0401 0101020001 030201 0402 0302 0402 0402"
EXAMPLE_LINES = """0 post 0 sent 0.1
1 take 1 held 0.1
2 show 1 shown 0.1
3 post 1 sent 1.1
4 take 2 held 1.1
5 show 2 refused 15
6 take 2 held 0.1
7 show 2 shown 0.1
8 show 2 shown 1.1
log 0 0.1
log 1 0.1 1.1
log 2 0.1 1.1"""

# What it says to any argument, and arguments.
USAGE = b"usage: branch < STEPS (it takes no arguments)\n"
ARGUMENTS = [
    ["--help"],
    ["job"],
    [__file__],
    [""],
    [" "],
    ["-"],
    ["--"],
    [b"\xff"],
    ["\x1b[31m"],
    ["x" * 100_000],
    ["", ""],
    ["1", "2", "3"],
    ["0"] * 5000,
]

# What must come, and how often at least. Lines bring each letter once, to seats other than its poster's, so that no take
# finds a repeat or a stray letter, and a send of the program's own dockets is refused by a full queue alone.
OFTEN = 200
MUST_COME = [
    "post sent",
    "post parked",
    "post refused 8",
    "post refused 9",
    "post refused 10",
    "post refused 20",
    "collect sent",
    "collect parked",
    "collect refused 8",
    "collect refused 13",
    "take held",
    "take refused 8",
    "take refused 14",
    "show shown",
    "show refused 8",
    "show refused 15",
    "send refused 11",
    "short step",
    "other call",
]


def example():
    return b"".join(bytes.fromhex(word).ljust(8, b"\0") for word in EXAMPLE.split())


def any_bytes(rng, count):
    return bytes(rng.randrange(256) for _ in range(count))


def step(rng, call, seat, values=b""):
    """A step; the bytes that do not count are mostly zeros and now and then anything."""
    rest = any_bytes(rng, 6) if rng.randrange(4) == 0 else bytes(6)
    return bytes([call, seat]) + values + rest[len(values) :]


def any_seat(rng):
    return rng.choice([3, 4, 15, 16, 255]) if rng.randrange(30) == 0 else rng.randrange(SEATS)


def add(rng):
    return bytes([1, rng.randrange(256)]) + struct.pack("<I", rng.choice([0, 7, rng.randrange(2**32), 2**32 - 1]))


def strike(rng):
    number = rng.choice([1, rng.randrange(1, QUOTA + 1), 256, rng.randrange(1, 65536)])
    return bytes([2, rng.choice([rng.randrange(SEATS), rng.randrange(16), 15])]) + struct.pack("<H", number)


def bad_form(rng):
    kind = rng.randrange(3)
    if kind == 0:
        return bytes([rng.choice([0, 3, 4, 128, 255])]) + any_bytes(rng, 5)
    if kind == 1:
        return bytes([2, rng.choice([16, 17, 128, 255])]) + struct.pack("<H", rng.randrange(65536))
    return bytes([2, rng.randrange(16), 0, 0])


def post(rng):
    form = rng.randrange(20)
    return step(rng, 1, any_seat(rng), bad_form(rng) if form == 0 else strike(rng) if form < 8 else add(rng))


def take(rng):
    place = rng.choice([0, 0, 0, 0, 1, 1, 2, 3])
    if rng.randrange(25) == 0:
        place = rng.choice([PLACES, 5, 255, 256, 65535])
    return step(rng, 3, any_seat(rng), struct.pack("<H", place))


def collect(rng):
    return step(rng, 2, any_seat(rng))


def show(rng):
    return step(rng, 4, any_seat(rng))


def ending(rng):
    """What may end a stream: nothing, a short step, or another call and steps that are not read any more."""
    kind = rng.randrange(6)
    if kind == 0:
        return post(rng)[: rng.randrange(1, 8)]
    if kind == 1:
        return other_call(rng) + post(rng) + show(rng)
    return b""


# How often each call comes in the three sorts of streams: all mixed; much posted and little taken, so that queues are full;
# and letters that go through to the end.
MIXED = [post] * 4 + [collect] * 2 + [take] * 5 + [show] * 4
CROWDED = [post] * 6 + [collect] * 3 + [take] * 2 + [show] * 1
THROUGH = [post] * 3 + [collect] * 1 + [take] * 8 + [show] * 8


def stream(rng):
    if rng.randrange(100) == 0:
        return any_bytes(rng, rng.randrange(40))
    sort, length = rng.choice([(MIXED, 40), (CROWDED, 45), (THROUGH, 120), (THROUGH, 160)])
    return b"".join(rng.choice(sort)(rng) for _ in range(rng.randrange(length + 1))) + ending(rng)


def other_call(rng):
    return bytes([rng.choice([0, 5, 6, 255])]) + any_bytes(rng, 7)


def longer_stream(rng):
    """Hundreds of steps, and in half of the streams one among them that cannot be read."""
    steps = [rng.choice(rng.choice([MIXED, CROWDED, THROUGH]))(rng) for _ in range(rng.randrange(200, 700))]
    if rng.randrange(2) == 0:
        steps[rng.randrange(len(steps))] = other_call(rng)
    return b"".join(steps)


def longest_stream(rng):
    return b"".join(rng.choice(THROUGH)(rng) for _ in range(LONGEST))


def idle_step(rng):
    """A step that is refused in any room of the program."""
    kind = rng.randrange(4)
    if kind == 0:
        return step(rng, 1, any_seat(rng), bad_form(rng))
    if kind == 1:
        return step(rng, 3, any_seat(rng), struct.pack("<H", rng.randrange(PLACES, 65536)))
    return step(rng, rng.choice([1, 2, 4]), rng.randrange(SEATS, 256), add(rng))


def late_stream(rng):
    """All that changes the room comes after megabytes of steps that change nothing."""
    block = b"".join(idle_step(rng) for _ in range(1000))
    return block * (IDLE // 1000) + b"".join(rng.choice(THROUGH)(rng) for _ in range(400))


def whole(program, data):
    status, out, _ = program.run([], data)
    return status, out


def compare(program, index, data, sizes):
    """Whether the program prints what the model says, and what came."""
    return held_to_the_model(index, data, *(program.run_in_pieces([], data, sizes) if sizes else whole(program, data)))


def compare_end(program, index, data):
    """The same, where what is no step and 16 MiB stand behind the stream: of these the program reads no more."""
    status, got, read_on = program.run_until_end([], data + bytes(16 << 20))
    good, counts = held_to_the_model(index, data + bytes(STEP), status, got)
    if read_on:
        print(f"stream {index}: it read 16 MiB on after what is no step")
    return good and not read_on, counts


def held_to_the_model(index, data, status, got):
    model = Branch()
    want = "".join(line + "\n" for line in model.run(data)).encode("ascii")
    if status == 0 and got == want:
        return True, model.counts
    lines, expected = got.split(b"\n"), want.split(b"\n")
    place = next((i for i, (a, b) in enumerate(zip(lines, expected)) if a != b), min(len(lines), len(expected)))
    print(f"stream {index}, status {status}, line {place}: got {lines[place:place + 1]}, expected {expected[place:place + 1]}")
    print(f"  {data[:2000].hex()}")
    return False, model.counts


def compare_late(program, index, data, run):
    """The same of the stream that goes on for megabytes, which comes through a pipe or from a file."""
    return held_to_the_model(index, data, *run(program, data))


def printed(data):
    """What is printed of these steps, and how much of it is before the logs."""
    lines = [line + "\n" for line in Branch().run(data)]
    return "".join(lines).encode("ascii"), len("".join(lines[:-SEATS]))


def fails(run, program, why, *arguments):
    """What it answers where reading or printing fails, and whether it names this failure on standard error."""
    answer, error = broken.with_error(run, program, [], *arguments)
    status, out = answer if isinstance(answer, tuple) else (answer, b"")
    return out, status == 1 and f"code: {why},".encode() in error


def failing_uses(name, data, program):
    """What docs/PROGRAMS.md says of inputs and outputs that fail, with these steps."""
    lines, steps = printed(data)
    yield f"{name}, on a full device", fails(broken.on_full_device, program, errno.ENOSPC, data)[1]
    yield f"{name}, on a closed output", fails(broken.on_closed_output, program, errno.EBADF, data)[1]
    yield f"{name}, on an output that is hung up", fails(broken.on_output_hung_up, program, errno.EPIPE, data, 0)[1]
    for most in [steps - 1, steps, steps + 1, len(lines) - 1]:
        if most >= 0:
            out, failed = fails(broken.on_output_cut, program, errno.EFBIG, data, most)
            yield f"{name}, on {most} of {len(lines)} bytes", failed and lines.startswith(out)
    out, failed = fails(broken.from_broken_input, program, errno.EIO, data)
    yield f"{name}, and then an error", failed and lines[:steps].startswith(out)


def is_wrong_use(program, arguments, data):
    """Whether it says that it takes no arguments, and leaves the input where it is."""
    with tempfile.TemporaryFile() as file:
        file.write(data)
        file.seek(0)
        done = subprocess.run([program.path, *arguments], stdin=file, capture_output=True, timeout=PATIENCE)
        return (done.returncode, done.stdout, done.stderr) == (1, b"", USAGE) and os.lseek(file.fileno(), 0, os.SEEK_CUR) == 0


def called_by(program, words, data):
    """What it answers to these words, of which the first is what it is told to be its own name."""
    done = subprocess.run(words, executable=program.path, input=data, capture_output=True, timeout=PATIENCE)
    return done.returncode, done.stdout, done.stderr


def uses(program, rng):
    """What docs/PROGRAMS.md says of arguments and of inputs and outputs that fail: what was tried, and whether it was so."""
    empty, few, many = b"", example(), b"".join(rng.choice(THROUGH)(rng) for _ in range(3000))
    for arguments in ARGUMENTS:
        yield f"arguments {ascii(arguments)[:60]}", is_wrong_use(program, arguments, few)
    status, out = broken.in_shell(program, ["job"], "2>&-", input=few, stdout=subprocess.PIPE)
    yield "an argument, and a closed standard error", (status, out) == (1, b"")
    yield "an argument, and a full device", broken.on_full_device(program, ["job"], few) == 1
    for words in [[], [""], [b"\xff"], ["x" * 100_000], ["listing"]]:
        yield f"called by the words {ascii(words)[:60]}", called_by(program, words, few) == (0, printed(few)[0], b"")
    for name, data in [("no steps", empty), ("some steps", few), ("many steps", many)]:
        lines = printed(data)[0]
        yield f"{name}, from a file", broken.from_file(program, [], data) == (0, lines)
        yield f"{name}, on a file that holds all", broken.on_output_cut(program, [], data, len(lines)) == (0, lines)
        yield from failing_uses(name, data, program)
    yield "a reader that goes after a while", fails(broken.on_output_hung_up, program, errno.EPIPE, many * 20, 1000)[1]
    yield "a folder as input", fails(broken.from_folder, program, errno.EISDIR) == (b"", True)
    yield "a closed input", fails(broken.from_closed_input, program, errno.EBADF) == (b"", True)
    yield "an input that cannot be read", fails(broken.from_unreadable_input, program, errno.EBADF) == (b"", True)


def main():
    if len(sys.argv) != 2:
        print(__doc__)
        return 2
    program = Program(sys.argv[1])
    rng = random.Random(SEED)
    streams = [(example(), None), (b"", None)]
    streams += [(stream(rng), None) for _ in range(STREAMS)]
    streams += [(stream(rng), [rng.choice([1, 3, 7, 8, 9, 20, 64])]) for _ in range(PIECES)]
    streams += [(longer_stream(rng), None) for _ in range(LONGER)] + [(longest_stream(rng), None)]
    late = late_stream(rng)
    endless = [b"".join(rng.choice(MIXED)(rng) for _ in range(rng.randrange(100))) for _ in range(ENDLESS)]
    if Branch().run(example()) != EXAMPLE_LINES.split("\n"):
        print("the model does not print the example of docs/PROGRAMS.md")
        print("0 passed, 1 failed")
        return 1
    with ThreadPoolExecutor(WORKERS) as workers:
        done = list(workers.map(lambda case: compare(program, case[0], *case[1]), enumerate(streams)))
        done += workers.map(lambda case: compare_end(program, *case), enumerate(endless, len(streams)))
        ways = [whole, lambda program, data: broken.from_file(program, [], data)]
        done += workers.map(lambda case: compare_late(program, case[0], late, case[1]), enumerate(ways, len(done)))
    counts = {}
    for _, came in done:
        for what, often in came.items():
            counts[what] = counts.get(what, 0) + often
    passed = sum(1 for good, _ in done if good)
    failed = len(done) - passed
    for what in sorted(counts):
        print(f"{counts[what]:7} {what}")
    for what in MUST_COME:
        if counts.get(what, 0) >= OFTEN:
            passed += 1
        else:
            failed += 1
            print(f"{what} came {counts.get(what, 0)} times, not {OFTEN}")
    for what in sorted(set(counts) - set(MUST_COME)):
        failed += 1
        print(f"{what} came, which cannot be")
    tried = list(uses(program, rng))
    for what, good in tried:
        if not good:
            print(f"not as docs/PROGRAMS.md says: {what}")
    passed += sum(1 for _, good in tried if good)
    failed += sum(1 for _, good in tried if not good)
    print(f"{len(tried)} uses with arguments and with inputs and outputs that fail")
    print(f"{sum(len(data) // 8 for data, _ in streams) + 2 * (len(late) // 8)} steps in {len(streams) + 2} streams, seed {SEED}")
    print(f"{passed} passed, {failed} failed")
    return 1 if failed else 0


if __name__ == "__main__":
    sys.exit(main())
