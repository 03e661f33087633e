#!/usr/bin/env python3
"""What the tools say when something is wrong: tools/steps.py, tools/letters.py, tools/picture.py and tools/first_run.sh; and
what tools/rename.py turns.

usage: check_tools.py

Each of the first three is run on inputs that cannot be read, on outputs that take nothing or not all, with wrong arguments, and
on lines that have no form, with and without PYTHONUNBUFFERED. Then it must end with status 1 and one short line of plain
characters on standard error, and it must have written nothing but the beginning of what it writes otherwise; a folder as
standard input is refused by python3 itself. Lines that mean the same must give the same bytes. first_run.sh is run with small
scripts in place of `rt`. rename.py must find nothing to turn here, and turn a small tree of older names.
"""

import errno
import os
import random
import re
import shutil
import subprocess
import sys
import tempfile
from pathlib import Path

sys.dont_write_bytecode = True
HOME = Path(__file__).resolve().parent.parent
sys.path[:0] = [str(HOME / "tests"), str(HOME / "tools")]
import broken_streams as broken
from branch_model import Branch
from letters import records_of_lines
from run_program import Program
from shared import BadLine
from steps import steps_of_lines

SEED = 20260929
SPOILT = 1000  # spoilt lines of each sort that go to the functions of a tool
STARTED = 12  # of them, those that go to the tool as it is started by hand
MANY = 40_000  # lines of a long input
LONGEST_MESSAGE = 300
PYTHON = Program(sys.executable)

STEPS_USE = "usage: steps.py < LINES > STEPS (it takes no arguments)"
LETTERS_USE = "usage: letters.py < LINES > RECORDS (it takes no arguments)"
POST_FORM = "the form is: post SEAT add CODE, or post SEAT strike POSTER.NUMBER"
BEGINS_STEP = "a line begins with post, collect, take or show, not "
BEGINS_LETTER = "a line begins with text, add or strike, not "
CUT = "'" + "x" * 40 + "...'"

# Lines that have no form, and what is said of them.
BAD_STEPS = [
    (b"post 0 strike 0", "the form of a struck letter is POSTER.NUMBER, not '0'"),
    (b"post 0 strike 0.", "a struck letter's number must be a number from 1 to 65535, not ''"),
    (b"post 0 strike 16.1", "a poster must be a number from 0 to 15, not '16'"),
    (b"post 0 strike 0.0\r", "a struck letter's number must be a number from 1 to 65535, not '0'"),
    (b"post", POST_FORM),
    (b"post 0 add", POST_FORM),
    (b"post 0 add 7 8", POST_FORM),
    (b"post 0 burn 7", "after a post's seat comes add or strike, not 'burn'"),
    (b"post 256 add 7", "a seat must be a number from 0 to 255, not '256'"),
    (b"post 0 add 4294967296", "a job's code must be a number from 0 to 4294967295, not '4294967296'"),
    (b"post 0 add 07", "a job's code must be a number from 0 to 4294967295, not '07'"),
    ("post 0 add \u0667".encode(), "a job's code must be a number from 0 to 4294967295, not '\\u0667'"),
    (b"take 1", "the form is: take SEAT PLACE"),
    (b"take 1 65536", "a place must be a number from 0 to 65535, not '65536'"),
    (b"collect 0 0", "the form is: collect SEAT"),
    (b"show", "the form is: show SEAT"),
    (b"shew 1", BEGINS_STEP + "'shew'"),
    (b"\xef\xbb\xbfshow 1", BEGINS_STEP + "'\\ufeffshow'"),
    (b"\x1b[31mshow\x07\x00 1", BEGINS_STEP + "'\\x1b[31mshow\\x07\\x00'"),
    (b"show \x1b]0;name\x07", "a seat must be a number from 0 to 255, not '\\x1b]0;name\\x07'"),
    (b"show \xff", "a seat must be a number from 0 to 255, not '\\udcff'"),
    (b"x" * 1_000_000, BEGINS_STEP + CUT),
    (b"show " + b"x" * 1_000_000, f"a seat must be a number from 0 to 255, not {CUT}"),
]
BAD_LETTERS = [
    (b"strike 1 1,1,0 0", "the form of a struck letter is POSTER.NUMBER, not '0'"),
    (b"strike 1 1,1,0 0.", "a struck letter's number must be a number from 1 to 65535, not ''"),
    (b"strike 1 1,1,0", "the form is: strike POSTER STAMP POSTER.NUMBER"),
    (b"strike 1 1,1,0 0.1 0.2", "the form is: strike POSTER STAMP POSTER.NUMBER"),
    (b"add 0 1,0,0\r", "the form is: add POSTER STAMP CODE"),
    (b"add 0 1,0,0 7 8", "the form is: add POSTER STAMP CODE"),
    (b"add 0 1,0,0 x", "a job's code must be a number from 0 to 4294967295, not 'x'"),
    (b"add 0 1,,0 7", "a stamp's entry must be a number from 0 to 65535, not ''"),
    (b"add 0 65536 7", "a stamp's entry must be a number from 0 to 65535, not '65536'"),
    (b"add 0 1,0,0,0,0,0,0,0,0,0,0,0,0,0,0,0,0 7", "a stamp has at most 16 entries"),
    (b"add 16 1 7", "a poster must be a number from 0 to 15, not '16'"),
    (b"add 1 1,0 7", "the stamp's entry at the poster, seat 1, must not be 0"),
    (b"text", "the form is: text POSTER STAMP TEXT"),
    (b"text 0", "the form is: text POSTER STAMP TEXT"),
    (b"text 0 1 " + b"x" * 61, "a text has at most 60 characters, this one has 61"),
    (b"text 0 1 a\x1b[31m", "a text's characters are the printable ones of ASCII, not '\\x1b'"),
    (b"text 0 1 a\r\r", "a text's characters are the printable ones of ASCII, not '\\r'"),
    (b"text 0 1 \xc3\xa9", "a text's characters are the printable ones of ASCII, not '\\xe9'"),
    (b"text 0 1 " + b"x" * 1_000_000, "a text has at most 60 characters, this one has 1000000"),
    (b"texts 0 1 a", BEGINS_LETTER + "'texts'"),
    (b"\x1b[31mtext 0 1 a", BEGINS_LETTER + "'\\x1b[31mtext'"),
    (b"\xff", BEGINS_LETTER + "'\\udcff'"),
    (b"x" * 1_000_000, BEGINS_LETTER + CUT),
]

# Lines, and others that mean the same.
SAME_STEPS = [
    (b"", b"\n"),
    (b"", b"# nothing\r\n \t\r\n  # nothing\n\n"),
    (b"show 1", b"show 1\n"),
    (b"show 1\nshow 2\n", b"show 1\r\nshow 2\r\n"),
    (b"show 1\nshow 2\n", b"  show 1\n\tshow\t2  \n"),
    (b"post 0 strike 0.1", b"\r\n   \n\t\n post  0\tstrike 0.1\t\r\n# \xff\n"),
]
SAME_LETTERS = [
    (b"", b"\n"),
    (b"", b"# nothing\r\n \t\r\n  # nothing\n\n"),
    (b"add 0 1 7\nstrike 1 1,1 0.1\n", b"add 0 1 7\r\nstrike 1 1,1 0.1\r\n"),
    (b"add 0 1 7\nstrike 1 1,1 0.1\n", b"  add 0 1 7\n\tstrike  1\t1,1  0.1 \n"),
    (b"text 0 1 a b\n", b"text 0 1 a b\r\n"),
    (b"text 0 1 a b\n", b"\r\n  text  0\t1 a b\n# \xff\n"),
    (b"text 0 1", b"text 0 1 "),
    (b"text 0 1", b"text 0 1\r\n"),
]
# What is put into a good line, besides any byte, and takes the place of a byte or of none.
SPOILS = [b"", b" ", b"\r", b"\t", b".", b",", b"0", b"9", b"-"]
# Texts whose own blanks count.
TEXTS = [b"", b"a", b" a", b"a ", b" a  b ", b"  ", b"#"]


class Tool:
    """A tool with what it is called with, a good input, and what it writes then."""

    def __init__(self, name, arguments, data, written):
        self.name = name
        self.command = ["-B", str(HOME / "tools" / f"{name}.py"), *arguments]
        self.data, self.written = data, written

    def run(self, data, *arguments):
        return PYTHON.run([*self.command, *arguments], data)


def is_short(error):
    """Whether it is one short line of plain characters."""
    return re.fullmatch(rb"[ -~]{1,%d}\n" % LONGEST_MESSAGE, error) is not None


def fails(tool, why, run, *arguments):
    """What it wrote, and whether it ends with status 1 and says nothing but this failure of the system."""
    answer, error = broken.with_error(run, PYTHON, tool.command, *arguments)
    status, out = answer if isinstance(answer, tuple) else (answer, b"")
    said = re.fullmatch(rb"%s\.py: the (in|out)put cannot be (read|written): (.*)\n" % tool.name.encode(), error)
    return out, status == 1 and said is not None and said[3].decode() == os.strerror(why) and is_short(error)


def says(tool, data, message, *arguments):
    return tool.run(data, *arguments) == (1, b"", message.encode("ascii") + b"\n")


# Input and output that fail.


def is_cut(tool, most):
    """It writes as much as the file can hold, and says why that is not all."""
    out, failed = fails(tool, errno.EFBIG, broken.on_output_cut, tool.data, most)
    return failed and out == tool.written[:most]


def ends_on_small_disk(tool, folder):
    """The same on a small disk; a write there is short before the next one fails."""
    path = Path(folder) / tool.name
    with open(path, "wb") as file:
        done = subprocess.run([sys.executable, *tool.command], input=tool.data, stdout=file, stderr=subprocess.PIPE, timeout=60)
    out = path.read_bytes()
    path.unlink()
    why = f"{tool.name}.py: the output cannot be written: {os.strerror(errno.ENOSPC)}\n".encode()
    return done.returncode == 1 and 0 < len(out) < len(tool.written) and tool.written.startswith(out) and done.stderr == why


def mounts(folder):
    """Whether a small disk could be mounted there; that needs a right that not every user has."""
    command = ["mount", "-t", "tmpfs", "-o", "size=64k", "none", folder]
    try:
        return subprocess.run(command, stderr=subprocess.DEVNULL).returncode == 0
    except FileNotFoundError:
        return False


def on_small_disk(tools):
    with tempfile.TemporaryDirectory() as folder:
        if not mounts(folder):
            return print("no small disk can be mounted here: a file of limited length stands for it")
        try:
            for tool in tools:
                yield f"{tool.name} on a small disk", ends_on_small_disk(tool, folder)
        finally:
            subprocess.run(["umount", folder])


def is_told_by_python(tool):
    """python3 itself refuses a folder as standard input, in lines of its own, before it reads the tool; else the tool says so."""
    (status, out), error = broken.with_error(broken.from_folder, PYTHON, tool.command)
    return status == 1 and out == b"" and b"is a directory" in error.lower() and b"Traceback" not in error


def broken_uses(tool):
    """A long input; each write of it that is not all must be told."""
    size = len(tool.written)
    yield "whole", tool.run(tool.data) == (0, tool.written, b"")
    yield "on a file that holds all", broken.on_output_cut(PYTHON, tool.command, tool.data, size) == (0, tool.written)
    for most in [0, 1, 4096, 102_400, size - 1]:
        yield f"on a file that holds {most} of {size} bytes", is_cut(tool, most)
    yield "on a full device", fails(tool, errno.ENOSPC, broken.on_full_device, tool.data)[1]
    yield "on a closed output", fails(tool, errno.EBADF, broken.on_closed_output, tool.data)[1]
    yield "on an output that is hung up", fails(tool, errno.EPIPE, broken.on_output_hung_up, tool.data, 0)[1]
    yield "a reader that takes one byte", fails(tool, errno.EPIPE, broken.on_output_hung_up, tool.data, 1)[1]
    yield "a folder as input", is_told_by_python(tool)
    yield "a closed input", fails(tool, errno.EBADF, broken.from_closed_input) == (b"", True)
    yield "an input that cannot be read", fails(tool, errno.EBADF, broken.from_unreadable_input) == (b"", True)
    yield "an input that breaks off", fails(tool, errno.EIO, broken.from_broken_input, tool.data[:2000]) == (b"", True)


# Arguments and lines.


def wrong_arguments(steps, letters):
    samples = str(HOME / "tests" / "samples")
    for tool, use, name in [(steps, STEPS_USE, "branch"), (letters, LETTERS_USE, "jobs")]:
        for arguments in [[f"{samples}/{name}.txt"], ["-"], ["--help"], [""], ["\x1b[31m"], ["1", "2"]]:
            yield f"{tool.name} {arguments}", says(tool, b"", use, *arguments)


def unread_files(picture):
    picture = Tool("picture", [], b"", b"")
    for name, shown, why in [
        ("/no/such/file", "'/no/such/file'", errno.ENOENT),
        ("/", "'/'", errno.EISDIR),
        ("\x1b[31m", "'\\x1b[31m'", errno.ENOENT),
        ("", "''", errno.ENOENT),
        ("x" * 100_000, CUT, errno.ENAMETOOLONG),
    ]:
        message = f"picture.py: {shown} cannot be read: {os.strerror(why)}"
        yield f"picture of {shown}", says(picture, b"", message, name, "-")


def bad_lines(steps, letters):
    """Each bad line alone and behind lines that are passed over, and behind a good one, of which nothing is written."""
    for tool, good, bad in [(steps, b"show 1", BAD_STEPS), (letters, b"add 0 1 7", BAD_LETTERS)]:
        for line, message in bad:
            yield f"{tool.name}: {line[:60]}", says(tool, line, f"{tool.name}.py: line 1: {message}")
        for line, message in bad[:3]:
            data = b"# first\r\n   \r\n" + good + b"\n" + line + b"\n" + good
            yield f"{tool.name}, line 4: {line[:60]}", says(tool, data, f"{tool.name}.py: line 4: {message}")


def bad_printed_lines(picture):
    """Lines that branch did not print. Lines with CR LF are others, too."""
    wanted = "for these steps it would be '0 post 0 sent 0.1'"
    for first, shown in [
        (b"", "''"),
        (b"0 post 0 sent 0.1\r", "'0 post 0 sent 0.1\\r'"),
        (b"\x1b[31m\x07", "'\\x1b[31m\\x07'"),
        (b"x" * 1_000_000, CUT),
    ]:
        yield f"picture: {shown}", says(picture, first + b"\n", f"picture.py: line 1 is {shown}; {wanted}")
    yield "picture: no lines", says(picture, b"", "picture.py: line 1 is missing: the lines end before the run does")
    no_lines = "picture.py: the lines are no lines of branch: they have bytes that are not ASCII"
    yield "picture: other bytes", says(picture, b"\xff" * 1000, no_lines)


def same_lines(steps, letters):
    for tool, pairs in [(steps, SAME_STEPS), (letters, SAME_LETTERS)]:
        for one, other in pairs:
            written = tool.run(one)
            yield f"{tool.name}: {one} and {other}", written[::2] == (0, b"") and tool.run(other) == written
    for text in TEXTS:
        record = letters.run(b"text 0 1 " + text)[1]
        yield f"letters: text {text}", record[34] == len(text) and record[36 : 36 + len(text)] == text


def spoilt(rng, lines):
    """A good line with some bytes put in, taken out or changed."""
    line = bytearray(rng.choice(lines))
    for _ in range(rng.randrange(1, 4)):
        at = rng.randrange(len(line) + 1)
        line[at : at + rng.randrange(2)] = rng.choice([*SPOILS, bytes([rng.randrange(256)])])
    return bytes(line).replace(b"\n", b"")


def is_answered(line, bytes_of_lines, size):
    """Whether it makes one part, or none of what is passed over, or says that the line is bad and why."""
    try:
        return len(bytes_of_lines([line.decode("utf-8", errors="surrogateescape")])) in (0, size)
    except BadLine as error:
        return is_short(f"{error}\n".encode("ascii"))


def is_answered_started(tool, line):
    status, out, error = tool.run(line)
    return (status == 0 and error == b"") or (status == 1 and out == b"" and is_short(error))


def spoilt_lines(steps, letters):
    rng = random.Random(SEED)
    of_steps, of_letters = (steps, steps_of_lines, ["branch"], 8), (letters, records_of_lines, ["jobs", "texts"], 96)
    for tool, bytes_of_lines, names, size in [of_steps, of_letters]:
        texts = [(HOME / "tests" / "samples" / f"{name}.txt").read_bytes() for name in names]
        lines = [line for line in b"\n".join(texts).split(b"\n") if line]
        tried = [spoilt(rng, lines) for _ in range(SPOILT)]
        for line in tried:
            yield f"{tool.name}, spoilt: {line}", is_answered(line, bytes_of_lines, size)
        for line in tried[:STARTED]:
            yield f"{tool.name}, spoilt and started: {line}", is_answered_started(tool, line)


# The first command.

# What stands for rt: one that fails, one that builds nothing, and one that builds a program of two lines.
FAILS, IDLE = "exit 3", "exit 0"
BUILDS = """mkdir -p out && printf '#!/bin/sh\\nwc -c\\necho ran\\n' > out/branch && chmod +x out/branch"""


class FirstRun:
    """A repository of the files that tools/first_run.sh needs, and a folder of programs for PATH."""

    def __init__(self, folder):
        self.top, self.programs = Path(folder) / "a top", Path(folder) / "programs"
        self.program = self.top / "crates" / "branch" / "out" / "branch"
        for path in ["tools", "tests/samples", "crates/branch/src", "crates/low/src"]:
            (self.top / path).mkdir(parents=True)
        self.programs.mkdir()
        for path in ["tools/first_run.sh", "tools/steps.py", "tools/shared.py", "tests/samples/branch.txt"]:
            shutil.copyfile(HOME / path, self.top / path)
        (self.top / "crates.txt").write_text("low:\nother:\nbranch: low std\n", encoding="ascii")
        (self.top / "crates" / "low" / "src" / "lib.rt").touch()

    def put(self, name, text):
        path = self.programs / name
        path.unlink(missing_ok=True)
        path.write_text(f"#!/bin/sh\n{text}\n", encoding="ascii")
        path.chmod(0o755)

    def run(self, *arguments, alone=False):
        """The status, the lines on standard output, and standard error."""
        path = f"{self.programs}" if alone else f"{self.programs}:{os.environ['PATH']}"
        command = [shutil.which("bash"), str(self.top / "tools" / "first_run.sh"), *arguments]
        done = subprocess.run(command, cwd="/", env={"PATH": path}, capture_output=True, text=True, timeout=60)
        return done.returncode, done.stdout.split("\n"), done.stderr


def first_runs(folder):
    first = FirstRun(folder)
    yield "no rt", first.run(alone=True) == (1, [""], "first_run.sh: rt is missing: it must be found by PATH\n")
    first.put("rt", FAILS)
    yield "no python3", first.run(alone=True) == (1, [""], "first_run.sh: python3 is missing: it must be found by PATH\n")
    status, _, error = first.run()
    yield "rt fails", (status, error) == (1, "first_run.sh: rt could not build branch; its lines above say why\n")
    first.put("rt", IDLE)
    status, _, error = first.run()
    yield "rt builds nothing", (status, error) == (1, "first_run.sh: rt ended well, but there is no crates/branch/out/branch\n")
    first.put("rt", BUILDS)
    status, lines, error = first.run()
    yield "rt builds", (status, lines[-3:], error) == (0, ["72", "ran", ""], "")
    yield "it tells what it builds", "2 crates in all: branch low" in lines[0] and "minutes" in lines[1]
    first.put("rt", FAILS)
    status, lines, error = first.run()
    yield "built already", (status, lines[-3:], error) == (0, ["72", "ran", ""], "") and "is built already" in lines[0]
    yield "an argument", first.run("--help") == (1, [""], "first_run.sh: it takes no arguments\n")
    os.utime(first.top / "crates" / "low" / "src" / "lib.rt", (2**31, 2**31))
    yield "a file below is newer", first.run()[0] == 1
    (first.top / "crates" / "low" / "src" / "lib.rt").unlink()
    first.program.write_text("#!/bin/sh\nwc -c\nexit 1\n", encoding="ascii")
    status, _, error = first.run()
    yield "branch fails", (status, error) == (1, "first_run.sh: branch could not be run on tests/samples/branch.txt\n")
    (first.top / "crates.txt").unlink()
    status, _, error = first.run()
    yield "no crates.txt", status == 1 and error.startswith("first_run.sh: crates.txt and ") and error.count("\n") == 1


# All.


def sample_steps():
    return steps_of_lines((HOME / "tests" / "samples" / "branch.txt").read_text(encoding="ascii").split("\n"))


def all_results(folder):
    """Pairs: what was tried, and whether it was right."""
    steps = Tool("steps", [], b"show 1\n" * MANY, bytes([4, 1, 0, 0, 0, 0, 0, 0]) * MANY)
    record = records_of_lines(["add 0 1 7"])
    letters = Tool("letters", [], b"add 0 1 7\n" * (MANY // 10), record * (MANY // 10))
    data = sample_steps() * 40
    path = Path(folder) / "run.steps"
    path.write_bytes(data)
    lines = "".join(line + "\n" for line in Branch().run(data)).encode("ascii")
    picture = Tool("picture", [str(path), "-"], lines, b"")
    status, picture.written, error = picture.run(lines)
    yield "a long picture", status == 0 and error == b"" and len(picture.written) > 102_400
    for unbuffered in ["1", None]:
        os.environ.pop("PYTHONUNBUFFERED", None)
        if unbuffered:
            os.environ["PYTHONUNBUFFERED"] = unbuffered
        for tool in [steps, letters, picture]:
            for what, right in broken_uses(tool):
                yield f"{tool.name}, PYTHONUNBUFFERED={unbuffered}, {what}", right
        yield from on_small_disk([steps, letters, picture])
    yield from wrong_arguments(steps, letters)
    yield from unread_files(picture)
    yield from bad_lines(steps, letters)
    yield from bad_printed_lines(picture)
    yield from same_lines(steps, letters)
    yield from spoilt_lines(steps, letters)
    yield from first_runs(folder)
    yield from renames(folder)


# A small tree of older names: its files, and what they must be turned into. A definition goes by where it stands, and a field,
# a text in quotes and a word of a comment stay.
OLDER = {
    "letters/specs/Refusals.antt": "-- told\nabbrev pub told : X\ntold x = x\n",
    "causality/specs/History.antt": "abbrev pub told : X\ntold f = f\n",
    "lives/specs/Worked.antt": "use Rattle.causality.specs.History.{told}\npub record Moment : X where\n  pub told : X\na = told a.told\n",
    "lives/specs/Lib.antt": "pub mod Worked\n",
    "rooms/src/a.rt": "// `told`\nuse seats::slip::Slip;\nghost use Rattle.letters.specs.Refusals.{told};\n"
    'fn told()\n    ensures { told told ≡ codes "told" }\n{\n    let slip = self.told;\n}\n',
}
TURNED = {
    "letters/specs/Refusals.antt": "-- told\nabbrev pub as_answer : X\nas_answer x = x\n",
    "causality/specs/History.antt": "abbrev pub map_letters : X\nmap_letters f = f\n",
    "lives/specs/Reachability.antt": "use Rattle.causality.specs.History.{map_letters}\npub record Configuration : X where\n  pub told : X\n"
    "a = map_letters a.told\n",
    "lives/specs/Lib.antt": "pub mod Reachability\n",
    "rooms/src/a.rt": "// `told`\nuse seats::docket_id::DocketId;\nghost use Rattle.letters.specs.Refusals.{as_answer};\n"
    'fn told()\n    ensures { as_answer as_answer ≡ codes "told" }\n{\n    let docket_id = self.told;\n}\n',
}


def tree(root):
    return {p.relative_to(root).as_posix(): p.read_bytes() for p in sorted(root.rglob("*")) if p.is_file()}


def renames(folder):
    today, older = Path(folder) / "today", Path(folder) / "older"
    shutil.copytree(HOME / "crates", today / "crates", ignore=shutil.ignore_patterns("out", "target"))
    shutil.copytree(HOME / "docs", today / "docs")
    shutil.copy(HOME / "README.md", today)
    rename = Program(sys.executable)
    before = tree(today)
    status, out, error = rename.run([str(HOME / "tools/rename.py"), str(today)], b"")
    yield "nothing is left to turn", (status, out, error) == (0, b"0 words turned\n", b"") and tree(today) == before
    for name, text in OLDER.items():
        path = older / "crates" / name
        path.parent.mkdir(parents=True, exist_ok=True)
        path.write_text(text, encoding="utf8")
    status, _, error = rename.run([str(HOME / "tools/rename.py"), str(older)], b"")
    turned = {name: data.decode() for name, data in tree(older / "crates").items()}
    yield "older names are turned", (status, error, turned) == (0, b"", TURNED)
    status, out, error = rename.run([str(HOME / "tools/rename.py"), folder], b"")
    yield "no crates", (status, out) == (1, b"") and error.startswith(b"rename.py: there is no folder crates in ")


def main():
    if len(sys.argv) != 1:
        print(__doc__)
        return 2
    passed = failed = 0
    with tempfile.TemporaryDirectory() as folder:
        for what, right in all_results(folder):
            passed += right
            failed += not right
            if not right:
                print(f"wrong: {what}")
    print(f"seed {SEED}")
    print(f"{passed} passed, {failed} failed")
    return 1 if failed else 0


if __name__ == "__main__":
    sys.exit(main())
