"""Makes steps for the program `branch` from readable lines, one step each:

    python3 tools/steps.py < tests/samples/branch.txt | crates/branch/out/branch

    post 0 add 7         seat 0 posts a job with its code
    post 1 strike 0.1    seat 1 posts a strike of the letter named
    collect 0            seat 0 collects its parked docket, to send it
    take 1 0             seat 1 takes the letter at a place of its queue
    show 1               seat 1 shows the first letter that is ready

Lines of blanks and lines that begin with # are passed over. Blanks before, between and after the words do not count, nor how a
line ends (LF or CR LF). A seat may be any number from 0 to 255: the room says no to one that it does not have. At a bad line
nothing is written, and the error names the line.
"""

import struct
import sys

sys.dont_write_bytecode = True
from shared import BadLine, bytes_of_lines, number, shown, struck_name, turn_lines

USAGE = "usage: steps.py < LINES > STEPS (it takes no arguments)"


def add_of(word):
    return struct.pack("<BxI", 1, number(word, "a job's code", 0, 2**32 - 1))


def strike_of(word):
    return struct.pack("<BBH", 2, *struck_name(word))


JOBS = {"add": add_of, "strike": strike_of}


def post_of(kind, value):
    if kind not in JOBS:
        raise BadLine(f"after a post's seat comes add or strike, not {shown(kind)}")
    return JOBS[kind](value)


def place_of(word):
    return struct.pack("<H", number(word, "a place", 0, 65535))


def nothing():
    return b""


# For each call its byte, its form, and what makes the bytes of the words after the seat.
CALLS = {
    "post": (1, "post SEAT add CODE, or post SEAT strike POSTER.NUMBER", 2, post_of),
    "collect": (2, "collect SEAT", 0, nothing),
    "take": (3, "take SEAT PLACE", 1, place_of),
    "show": (4, "show SEAT", 0, nothing),
}


def step_of_line(line):
    call, *words = line.split()
    if call not in CALLS:
        raise BadLine(f"a line begins with post, collect, take or show, not {shown(call)}")
    byte, form, count, values_of = CALLS[call]
    if len(words) != count + 1:
        raise BadLine(f"the form is: {form}")
    seat = number(words[0], "a seat", 0, 255)
    return (bytes([byte, seat]) + values_of(*words[1:])).ljust(8, b"\0")


def steps_of_lines(lines):
    return bytes_of_lines(lines, step_of_line)


if __name__ == "__main__":
    turn_lines(USAGE, step_of_line)
