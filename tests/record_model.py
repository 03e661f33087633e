"""A model of letter records (docs/RECORDS.md) and of what the program
`listing` prints for a file of them (docs/PROGRAMS.md)."""

from dataclasses import dataclass

RECORD_SIZE = 96
SEATS = 16
POSTER, KIND, LENGTH, ZERO, BODY = 32, 33, 34, 35, 36  # where the parts begin
LONGEST_TEXT = 60
KIND_CODES = {"text": 1, "job": 2}
BODY_LENGTHS = {"text": range(0, LONGEST_TEXT + 1), "job": (4, 5)}
ADD_LENGTH, ADD_MARK = 5, 1
STRIKE_LENGTH, STRIKE_MARK = 4, 2


@dataclass(frozen=True)
class Text:
    characters: bytes


@dataclass(frozen=True)
class Add:
    code: int


@dataclass(frozen=True)
class Strike:
    poster: int
    number: int


@dataclass(frozen=True)
class Letter:
    stamp: tuple  # sixteen numbers, one for each seat
    poster: int
    body: Text | Add | Strike

    @property
    def number(self):
        return self.stamp[self.poster]


@dataclass(frozen=True)
class Fault:
    index: int
    byte: int


# Writing


def low_first(number, size):
    return number.to_bytes(size, "little")


def body_bytes(body):
    match body:
        case Text(characters):
            return characters
        case Add(code):
            return bytes([ADD_MARK]) + low_first(code, 4)
        case Strike(poster, number):
            return bytes([STRIKE_MARK, poster]) + low_first(number, 2)


def kind_of(body):
    return "text" if isinstance(body, Text) else "job"


def record_of(letter):
    stamp = b"".join(low_first(entry, 2) for entry in letter.stamp)
    body = body_bytes(letter.body)
    head = bytes([letter.poster, KIND_CODES[kind_of(letter.body)], len(body), 0])
    record = (stamp + head + body).ljust(RECORD_SIZE, b"\0")
    assert len(record) == RECORD_SIZE and first_wrong_byte(record, kind_of(letter.body)) is None
    return record


# Checking: each check answers the byte that it names, or None where it passes.
# A check may rely on the ones before it.


def number_at(record, place, size):
    return int.from_bytes(record[place : place + size], "little")


def wrong_poster(record, kind):
    return POSTER if record[POSTER] >= SEATS else None


def wrong_own_number(record, kind):
    place = 2 * record[POSTER]
    return place if number_at(record, place, 2) == 0 else None


def wrong_kind(record, kind):
    return KIND if record[KIND] != KIND_CODES[kind] else None


def wrong_length(record, kind):
    return LENGTH if record[LENGTH] not in BODY_LENGTHS[kind] else None


def wrong_zero(record, kind):
    return ZERO if record[ZERO] != 0 else None


def wrong_body(record, kind):
    return wrong_text(record) if kind == "text" else wrong_job(record)


def wrong_text(record):
    places = range(BODY, BODY + record[LENGTH])
    return next((at for at in places if not 32 <= record[at] <= 126), None)


def wrong_job(record):
    if record[LENGTH] == ADD_LENGTH:
        return BODY if record[BODY] != ADD_MARK else None
    if record[BODY] != STRIKE_MARK:
        return BODY
    if record[BODY + 1] >= SEATS:
        return BODY + 1
    if number_at(record, BODY + 2, 2) == 0:
        return BODY + 2
    return None


def wrong_padding(record, kind):
    places = range(BODY + record[LENGTH], RECORD_SIZE)
    return next((at for at in places if record[at] != 0), None)


CHECKS = (wrong_poster, wrong_own_number, wrong_kind, wrong_length, wrong_zero, wrong_body, wrong_padding)


def first_wrong_byte(record, kind):
    """The byte that the first failing check names, or None for a good record."""
    for check in CHECKS:
        wrong = check(record, kind)
        if wrong is not None:
            return wrong
    return None


# Reading


def letter_of(record):
    """The letter of a good record."""
    stamp = tuple(number_at(record, 2 * seat, 2) for seat in range(SEATS))
    return Letter(stamp, record[POSTER], body_of(record))


def body_of(record):
    if record[KIND] == KIND_CODES["text"]:
        return Text(bytes(record[BODY : BODY + record[LENGTH]]))
    if record[LENGTH] == ADD_LENGTH:
        return Add(number_at(record, BODY + 1, 4))
    return Strike(record[BODY + 1], number_at(record, BODY + 2, 2))


def read_file(data, kind):
    """The letters up to the first fault, and that fault or None."""
    letters = []
    for index, start in enumerate(range(0, len(data), RECORD_SIZE)):
        record = data[start : start + RECORD_SIZE]
        short = len(record) < RECORD_SIZE
        wrong = len(record) if short else first_wrong_byte(record, kind)
        if wrong is not None:
            return letters, Fault(index, wrong)
        letters.append(letter_of(record))
    return letters, None


# Listing


def body_words(body):
    match body:
        case Text(characters):
            return b"text " + characters
        case Add(code):
            return b"add %d" % code
        case Strike(poster, number):
            return b"strike %d.%d" % (poster, number)


def line_of(index, letter):
    stamp = b",".join(b"%d" % entry for entry in letter.stamp)
    return b"%d %d.%d %b %b\n" % (index, letter.poster, letter.number, stamp, body_words(letter.body))


def listing(data, kind):
    """All that `listing` prints on standard output for a file of this kind."""
    letters, fault = read_file(data, kind)
    lines = [line_of(index, letter) for index, letter in enumerate(letters)]
    if fault:
        lines.append(b"%d bad %d\n" % (fault.index, fault.byte))
    lines.append(b"%d letters\n" % len(letters))
    return b"".join(lines)
