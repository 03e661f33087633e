"""What the tools share: input read whole and output written whole, one line for what goes wrong, and readable lines."""

import os
import re
import sys
from pathlib import Path

LONGEST_SHOWN = 40  # characters of a word that a message shows
AT_ONCE = 1 << 20  # bytes that are asked for at a time


class BadLine(Exception):
    """A readable line that is none of its tool's."""


def shown(word):
    """A word as a message shows it: in quotes, cut short, and with all but plain characters escaped."""
    return ascii(word if len(word) <= LONGEST_SHOWN else word[:LONGEST_SHOWN] + "...")


# Input and output.


def fail(why):
    """Ends the tool with status 1 and one line on standard error."""
    sys.exit(f"{Path(sys.argv[0]).name}: {why}")


def read_all(file):
    """All that a file has, or standard input, which is 0. A read that fails is no end of it."""
    parts = []
    while part := os.read(file, AT_ONCE):
        parts.append(part)
    return b"".join(parts)


def read_input():
    try:
        return read_all(0)
    except OSError as error:
        fail(f"the input cannot be read: {error.strerror}")


def read_file(name):
    try:
        file = os.open(name, os.O_RDONLY)
        try:
            return read_all(file)
        finally:
            os.close(file)
    except OSError as error:
        fail(f"{shown(name)} cannot be read: {error.strerror}")


def write_output(data):
    """Writes all of the data to standard output; a write may take a part of what it is given. Nothing, too, is written once, so
    that a closed output is told."""
    rest = memoryview(data)
    try:
        while True:
            rest = rest[os.write(1, rest) :]
            if not rest:
                return
    except OSError as error:
        fail(f"the output cannot be written: {error.strerror}")


# Readable lines.


def number(word, what, low, high):
    if not (re.fullmatch(r"0|[1-9][0-9]{0,9}", word) and low <= int(word) <= high):
        raise BadLine(f"{what} must be a number from {low} to {high}, not {shown(word)}")
    return int(word)


def struck_name(word):
    """The poster and the number of a letter that is struck."""
    poster, point, own_number = word.partition(".")
    if not point:
        raise BadLine(f"the form of a struck letter is POSTER.NUMBER, not {shown(word)}")
    return number(poster, "a poster", 0, 15), number(own_number, "a struck letter's number", 1, 65535)


def bytes_of_lines(lines, bytes_of):
    """What the lines come to, by what one of them comes to. Lines of blanks and lines that begin with # are passed over."""
    parts = []
    for count, line in enumerate(lines, 1):
        if line.strip() and not line.lstrip().startswith("#"):
            try:
                parts.append(bytes_of(line.removesuffix("\r")))
            except BadLine as error:
                raise BadLine(f"line {count}: {error}") from None
    return b"".join(parts)


def turn_lines(usage, bytes_of):
    """A tool that turns the readable lines of its input to bytes. At a bad line nothing is written, and it says which it is."""
    if len(sys.argv) > 1:
        sys.exit(usage)
    text = read_input().decode("utf-8", errors="surrogateescape")
    try:
        made = bytes_of_lines(text.split("\n"), bytes_of)
    except BadLine as error:
        fail(error)
    write_output(made)
