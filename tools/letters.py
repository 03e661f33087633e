"""Makes a file of letter records from readable lines, one letter each:

    python3 tools/letters.py < jobs.txt > jobs.letters

    text 0 1,0,0 hello world     a text, up to the end of the line
    add 0 1,0,0 7                a job added, with its code
    strike 1 1,1,0 0.1           a job struck: the struck letter's name

After the kind come the poster and the stamp; entries left out at the stamp's
end are 0. Lines of blanks and lines that begin with # are passed over. Blanks
before, between and after the words do not count, nor how a line ends (LF or
CR LF); but a text begins after one blank behind the stamp, and all blanks of
its own count. A file that `listing` can list has texts only, or adds and
strikes only. At a bad line nothing is written, and the error names the line.
"""

import re
import sys
from pathlib import Path

sys.dont_write_bytecode = True
sys.path.append(str(Path(__file__).resolve().parent.parent / "tests"))
from record_model import LONGEST_TEXT, SEATS, Add, Letter, Strike, Text, record_of
from shared import BadLine, bytes_of_lines, number, shown, struck_name, turn_lines

USAGE = "usage: letters.py < LINES > RECORDS (it takes no arguments)"


def stamp_of(words):
    entries = [number(word, "a stamp's entry", 0, 65535) for word in words.split(",")]
    if len(entries) > SEATS:
        raise BadLine(f"a stamp has at most {SEATS} entries")
    return tuple(entries + [0] * (SEATS - len(entries)))


def text_of(characters):
    if len(characters) > LONGEST_TEXT:
        raise BadLine(f"a text has at most {LONGEST_TEXT} characters, this one has {len(characters)}")
    for character in characters:
        if not " " <= character <= "~":
            raise BadLine(f"a text's characters are the printable ones of ASCII, not {shown(character)}")
    return Text(characters.encode("ascii"))


def add_of(word):
    return Add(number(word, "a job's code", 0, 2**32 - 1))


def strike_of(word):
    return Strike(*struck_name(word))


# For each kind what its body is called, and what makes one.
BODIES = {
    "text": ("TEXT", text_of),
    "add": ("CODE", add_of),
    "strike": ("POSTER.NUMBER", strike_of),
}


def parts_of(line):
    """The words of a line. The last one of a text is all that stands behind the one blank after the stamp, if only nothing."""
    words = line.split(maxsplit=2)
    if words[0] != "text" or len(words) < 3:
        return line.split()
    return words[:2] + (re.split(r"\s", words[2], maxsplit=1) + [""])[:2]


def letter_of_line(line):
    kind, *words = parts_of(line)
    if kind not in BODIES:
        raise BadLine(f"a line begins with text, add or strike, not {shown(kind)}")
    called, body_of = BODIES[kind]
    if len(words) != 3:
        raise BadLine(f"the form is: {kind} POSTER STAMP {called}")
    poster, stamp, body = words
    letter = Letter(stamp_of(stamp), number(poster, "a poster", 0, SEATS - 1), body_of(body))
    if letter.number == 0:
        raise BadLine(f"the stamp's entry at the poster, seat {letter.poster}, must not be 0")
    return letter


def record_of_line(line):
    return record_of(letter_of_line(line))


def records_of_lines(lines):
    return bytes_of_lines(lines, record_of_line)


if __name__ == "__main__":
    turn_lines(USAGE, record_of_line)
