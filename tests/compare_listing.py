"""Compares the program `listing` with the model in record_model.py:

    python3 tests/compare_listing.py PATH_TO_LISTING_BINARY

The random files come from a fixed seed, so that each run has the same cases.
The last line is `N passed, M failed`. The status is 1 where any case failed,
and 2 where there is no program to run.
"""

import errno
import os
import random
import re
import shutil
import sys
from concurrent.futures import ThreadPoolExecutor
from functools import partial
from pathlib import Path

sys.dont_write_bytecode = True
TESTS = Path(__file__).resolve().parent
sys.path[:0] = [str(TESTS), str(TESTS.parent / "tools")]
import broken_streams as broken
import random_letters as some
from letters import records_of_lines
from listing_examples import EXAMPLES
from record_model import RECORD_SIZE, listing, read_file, record_of
from run_program import Program

SEED = 20
WORKERS = 2
MOST_REPORTS = 10
MOST_GROWTH = 384  # KiB of memory
MANY, FEW = 130_000, 1  # letters
MEGABYTES = 40_000  # letters, which take 3.7 MiB
ONE_LINE = re.compile(rb"[^\n]*\S[^\n]*\n")
KINDS = ("text", "job")

# Comparing: each comparison answers None, or what went wrong


def short(value, most=200):
    words = repr(value)
    return words if len(words) <= most else f"{words[:most // 2]} ... {words[-most // 2:]}"


def expected_listing(kind, data):
    """The model's listing, where the model undoes its own writing."""
    letters, _ = read_file(data, kind)
    assert b"".join(map(record_of, letters)) == data[:RECORD_SIZE * len(letters)], "the model contradicts itself"
    return listing(data, kind)


def difference(kind, data, expected, status, output):
    if status == 0 and output == expected:
        return None
    pairs = zip(expected.split(b"\n") + [None], output.split(b"\n") + [None])
    at, (wanted, got) = next(((at, pair) for at, pair in enumerate(pairs) if pair[0] != pair[1]), (0, ("", "")))
    record = data[RECORD_SIZE * at:RECORD_SIZE * (at + 1)].hex()
    return (f"{kind}, {len(data)} bytes; record {at}: {record}\n  status: expected 0, got {status}\n"
            f"  line {at}: expected {short(wanted)}\n  line {at}:      got {short(got)}")


def compare(program, kind, data, expected=None):
    expected = expected or expected_listing(kind, data)
    status, output, error = program.run([kind], data)
    return difference(kind, data, expected, status, output) or (f"{kind}: standard error {short(error)}" if error else None)


def compare_in_pieces(program, kind, data, sizes):
    return difference(kind, data, expected_listing(kind, data), *program.run_in_pieces([kind], data, sizes))


def compare_end(program, kind, data):
    """After a fault the program reads no further, however much is still to come."""
    status, output, read_on = program.run_until_end([kind], data + bytes(16 << 20))
    wrong = difference(kind, data, expected_listing(kind, data), status, output)
    return wrong or (f"{kind}: it read 16 MiB on after a fault" if read_on else None)


def compare_memory(program, data):
    few, many = (program.peak_memory(["text"], data[:RECORD_SIZE * letters]) for letters in (FEW, MANY))
    told = f"peak memory: {few} KiB for {FEW} letters, {many} KiB for {MANY} letters"
    print(told)
    return None if many <= few + MOST_GROWTH else told


def compare_wrong_use(program, data, arguments):
    status, output, error = program.run(arguments, data)
    if status == 1 and output == b"" and ONE_LINE.fullmatch(error) and b"text" in error and b"job" in error:
        return None
    return f"arguments {arguments}: status {status}, output {short(output)}, error {short(error)}"


def compare_from_file(program, kind, data):
    (status, output), error = broken.with_error(broken.from_file, program, [kind], data)
    return difference(kind, data, expected_listing(kind, data), status, output) or (short(error) if error else None)


def compare_failing(program, name, why, run, kind, *arguments):
    """Where reading or printing fails it ends with status 1, says why in one line, and prints at most the lines of before."""
    answer, error = broken.with_error(run, program, [kind], *arguments)
    status, output = answer if isinstance(answer, tuple) else (answer, b"")
    lines = expected_listing(kind, *arguments[:1]) if arguments else b""
    before = lines[:lines.rindex(b"\n", 0, -1) + 1] if lines.count(b"\n") > 1 else b""
    if status == 1 and before.startswith(output) and error == f"listing: {os.strerror(why)} (os error {why})\n".encode():
        return None
    return f"{name}, {kind}: status {status}, output {short(output)}, error {short(error)}"


def compare_sample(program, name, kind):
    """The sample's records are those of its readable lines, and are listed right."""
    data = (TESTS / "samples" / f"{name}.letters").read_bytes()
    lines = (TESTS / "samples" / f"{name}.txt").read_text(encoding="ascii").split("\n")
    if records_of_lines(lines) != data:
        return f"{name}.letters is not what tools/letters.py makes of {name}.txt"
    return compare(program, kind, data)


def compare_damaged_sample(program):
    data = (TESTS / "samples" / "damaged.letters").read_bytes()
    good = listing(data[:3 * RECORD_SIZE], "job").removesuffix(b"3 letters\n")
    return compare(program, "job", data, good + b"3 bad 36\n3 letters\n")


# The classes of cases: each gives a comparison and its arguments, again and again

TEXT, SHORT, ADD, STRIKE = ("text", some.text), ("text", some.short_text), ("job", some.add), ("job", some.strike)


def one_change(rng, shape, change):
    kind, body = shape
    record = some.record(rng, kind, body(rng))
    change(rng, record)
    return compare, kind, some.file_around(rng, kind, record)


def one_byte(rng, shape, place, value):
    return one_change(rng, shape, lambda rng, record: record.__setitem__(place, value))


def examples(rng):
    return ((compare, kind, bytes.fromhex(data), lines.encode()) for kind, data, lines in EXAMPLES)


def samples(rng):
    return (compare_sample, "jobs", "job"), (compare_sample, "texts", "text"), (compare_damaged_sample,)


def good_files(kind, rng):
    return ((compare, kind, some.file(rng, kind)) for _ in range(400))


def changes(change, shapes, rng):
    return (one_change(rng, shape, change) for _ in range(60) for shape in shapes)


def wrong_posters(rng):
    return (one_byte(rng, rng.choice((TEXT, ADD, STRIKE)), 32, value) for value in range(16, 256))


def lengths(rng):
    for value in (*range(65), 127, 128, 254, 255):
        yield one_byte(rng, TEXT, 34, value)
    for value in (*range(10), 59, 60, 61, 127, 128, 255):
        yield one_byte(rng, ADD, 34, value)
        yield one_byte(rng, STRIKE, 34, value)


def text_bytes(rng):
    full = ("text", lambda rng: some.text(rng, 60))
    return (one_byte(rng, full, place, value) for place in range(36, 96) for value in (0, 31, 127, 255))


def every_place(rng):
    return (one_byte(rng, shape, place, rng.randint(0, 255)) for place in range(96) for shape in (TEXT, ADD, STRIKE))


def several_changes(rng):
    for turn in range(500):
        kind = KINDS[turn % 2]
        records = [some.record(rng, kind) for _ in range(rng.randint(1, 6))]
        for record in rng.sample(records, min(len(records), rng.choice((1, 1, 2)))):
            some.damage(rng, record, rng.choice((2, 3)))
        yield compare, kind, b"".join(records)


def cut_last_records(rng):
    for length in range(1, RECORD_SIZE):
        for kind in KINDS:
            last = some.damage(rng, some.record(rng, kind), rng.choice((0, 0, 1)))
            yield compare, kind, some.file(rng, kind) + last[:length]


def cut_anywhere(rng):
    for turn in range(200):
        data = some.file(rng, KINDS[turn % 2], least=1)
        yield compare, KINDS[turn % 2], data[:rng.randrange(len(data))]


def other_kind(rng):
    return ((compare, KINDS[turn % 2], some.file(rng, KINDS[1 - turn % 2], least=1)) for turn in range(100))


def mixed_kinds(rng):
    for turn in range(100):
        records = [some.record(rng, rng.choice(KINDS)) for _ in range(rng.randint(2, 6))]
        yield compare, KINDS[turn % 2], b"".join(records)


def random_bytes(rng):
    for turn in range(100):
        yield compare, KINDS[turn % 2], rng.randbytes(some.pick(rng, (95, 96, 97, 192), 0, 600))


def nearly_records(rng):
    """Random bytes of small values, so that the later checks are reached too."""
    for turn in range(300):
        head = bytes(map(rng.choice, ((0, 15, 16), (1, 2), (0, 1, 4, 5, 60, 61), (0, 0, 0, 1))))
        body = bytes(rng.choices((0, 1, 2, 16, 32), (30, 3, 6, 1, 1), k=60))
        yield compare, KINDS[turn % 2], some.file(rng, KINDS[turn % 2], 2) + rng.randbytes(32) + head + body


def longer_files(rng):
    """Good, damaged or cut in the last record or anywhere: faults at each distance from the start."""
    for count in range(9, 209):
        kind = rng.choice(KINDS)
        records = [some.record(rng, kind) for _ in range(count)]
        if rng.random() < 0.6:
            some.damage(rng, rng.choice((records[-1], rng.choice(records))), 1)
        data = b"".join(records)
        yield compare, kind, data[:len(data) - rng.choice((0, 0, rng.randint(1, 95), 95))]


def pieces(rng):
    for sizes in ((1,), (7,), (95,), (96,), (97,), (1000,), (7, 95, 97, 1000), (5000, 1, 4096)):
        for kind in KINDS:
            data = some.file(rng, kind, 120, 100)
            damaged = data + some.damage(rng, some.record(rng, kind), 2) + data
            for whole in (data, damaged, data[:-rng.randint(1, 95)]):
                yield compare_in_pieces, kind, whole, sizes


def endless(rng):
    return ((compare_end, kind, some.file(rng, kind) + bytes(RECORD_SIZE)) for kind in KINDS)


def wrong_uses(rng):
    uses = ([], ["other"], ["text", "job"], ["job", "text"], ["text", "text"], ["job", "job"], ["text", ""], ["job", ""],
            ["", "text"], ["", "job"], ["", ""], ["text", "", ""], ["job", "", ""], ["job", "job", "job"], ["text", "job", "x"],
            [""], ["Text"], ["Job"], ["TEXT"], ["JOB"], ["job "], [" text"], ["texts"], ["jo"], ["-"], ["--help"], [b"\xff"],
            [b"job\xff"], ["text\n"], ["x" * 5000])
    return ((compare_wrong_use, some.file(rng, kind), use) for use in uses for kind in KINDS)


def failing_streams(rng):
    """What docs/PROGRAMS.md says of inputs that cannot be read and of outputs that take nothing, or not all."""
    for kind in KINDS:
        for data in (b"", some.file(rng, kind, 9, 1), some.file(rng, kind, 900, 800), some.file(rng, kind, 3) + bytes(RECORD_SIZE)):
            yield compare_failing, "a full device", errno.ENOSPC, broken.on_full_device, kind, data
            yield compare_failing, "a closed output", errno.EBADF, broken.on_closed_output, kind, data
            yield compare_failing, "an output that is hung up", errno.EPIPE, broken.on_output_hung_up, kind, data, 0
        long = some.file(rng, kind, 900, 800)
        most = len(expected_listing(kind, long))
        for room in (0, 1, most // 2, most - 20):
            yield compare_failing, f"{room} of {most} bytes", errno.EFBIG, broken.on_output_cut, kind, long, room
        for data in (b"", some.file(rng, kind, 9, 1), some.file(rng, kind, 200, 190)):
            yield compare_failing, "an input, and then an error", errno.EIO, broken.from_broken_input, kind, data
        yield compare_failing, "a folder", errno.EISDIR, broken.from_folder, kind
        yield compare_failing, "a closed input", errno.EBADF, broken.from_closed_input, kind
        yield compare_failing, "an input that cannot be read", errno.EBADF, broken.from_unreadable_input, kind


def megabytes(rng):
    for kind in KINDS:
        data = b"".join(some.record(rng, kind) for _ in range(MEGABYTES))
        damaged = bytes(some.damage(rng, some.record(rng, kind), 2))
        for whole in (data, data[:-1], data + damaged + data[:5 * RECORD_SIZE]):
            yield compare, kind, whole
            yield compare_from_file, kind, whole


def large_files(rng):
    data = b"".join(some.record(rng, "text") for _ in range(MANY))
    yield compare, "text", data
    yield compare_memory, data


CLASSES = {
    "examples by hand": examples,
    "samples": samples,
    "good text files": partial(good_files, "text"),
    "good job files": partial(good_files, "job"),
    "poster 16 to 255": wrong_posters,
    "own number zeroed": partial(changes, some.zero_own_number, (TEXT, ADD, STRIKE)),
    "kind changed": partial(changes, some.set_kind, (TEXT, ADD, STRIKE)),
    "length changed": lengths,
    "byte 35 changed": partial(changes, some.set_zero, (TEXT, ADD)),
    "each text byte changed": text_bytes,
    "body byte changed": partial(changes, some.set_body, (TEXT, ADD, STRIKE)),
    "struck poster changed": partial(changes, some.set_struck_poster, (STRIKE,)),
    "struck number changed": partial(changes, some.set_struck_number, (STRIKE,)),
    "first padding changed": partial(changes, some.set_first_padding, (SHORT, ADD, STRIKE)),
    "last padding changed": partial(changes, some.set_last_padding, (SHORT, ADD, STRIKE)),
    "random byte changed": partial(changes, some.set_any, (TEXT, ADD, STRIKE)),
    "each byte changed": every_place,
    "several bytes changed": several_changes,
    "last record cut": cut_last_records,
    "cut anywhere": cut_anywhere,
    "other kind": other_kind,
    "mixed kinds": mixed_kinds,
    "random bytes": random_bytes,
    "nearly records": nearly_records,
    "9 to 208 letters": longer_files,
    "input in pieces": pieces,
    "endless input after a fault": endless,
    "wrong uses": wrong_uses,
    "failing streams": failing_streams,
    f"{MEGABYTES:,} letters, through a pipe and from a file": megabytes,
    f"{MANY:,} letters": large_files,
}


def answer(program, case):
    comparison, *arguments = case
    try:
        return comparison(program, *arguments)
    except Exception as error:
        return f"{type(error).__name__}: {short(str(error))}"


def main():
    path = os.path.abspath(sys.argv[1]) if len(sys.argv) == 2 else ""
    if not shutil.which(path):
        print(f"expected the path of the program to compare; '{path}' is none that can be run", file=sys.stderr)
        sys.exit(2)
    passed = failed = 0
    with ThreadPoolExecutor(WORKERS) as pool:
        for name, cases in CLASSES.items():
            answers = list(pool.map(partial(answer, Program(path)), cases(random.Random(f"{SEED} {name}"))))
            complaints = [(index, wrong) for index, wrong in enumerate(answers) if wrong]
            for index, wrong in complaints[:max(0, MOST_REPORTS - failed)]:
                print(f"FAILED: {name}, seed {SEED}, case {index}: {wrong}")
            print(f"{name}: {len(answers) - len(complaints)} passed, {len(complaints)} failed")
            passed, failed = passed + len(answers) - len(complaints), failed + len(complaints)
    print(f"{passed} passed, {failed} failed")
    sys.exit(1 if failed else 0)


if __name__ == "__main__":
    main()
