"""Random letter records and damages to them, for comparisons with the model.
About half of all values are edge values."""

from record_model import KIND, LENGTH, POSTER, ZERO, BODY, Add, Letter, Strike, Text, record_of


def pick(rng, edges, low, high):
    return rng.choice(edges) if rng.random() < 0.5 else rng.randint(low, high)


def poster(rng):
    return pick(rng, (0, 15), 0, 15)


def number(rng):
    return pick(rng, (1, 255, 256, 65535), 1, 65535)


def text(rng, length=None):
    length = pick(rng, (0, 1, 59, 60), 0, 60) if length is None else length
    alphabet = rng.choice((range(32, 127), (32, 126), (32,), b" ab~"))
    characters = bytearray(rng.choices(alphabet, k=length))
    if length and rng.random() < 0.3:
        characters[rng.choice((0, -1))] = 32
    return Text(bytes(characters))


def short_text(rng):
    """A text that leaves padding."""
    return text(rng, pick(rng, (0, 1, 58, 59), 0, 59))


def add(rng):
    return Add(pick(rng, (0, 1, 255, 256, 2**16, 2**31, 2**32 - 1), 0, 2**32 - 1))


def strike(rng):
    return Strike(poster(rng), number(rng))


SHAPES = {"text": (text,), "job": (add, strike)}


def record(rng, kind, body=None):
    stamp = [pick(rng, (0, 1, 255, 256, 65535), 0, 65535) for _ in range(16)]
    own = poster(rng)
    stamp[own] = number(rng)
    return bytearray(record_of(Letter(tuple(stamp), own, body or rng.choice(SHAPES[kind])(rng))))


def file(rng, kind, most=8, least=0):
    return b"".join(record(rng, kind) for _ in range(rng.randint(least, most)))


def file_around(rng, kind, middle):
    """A file that has this record at a random place."""
    return file(rng, kind, 4) + bytes(middle) + file(rng, kind, 3)


# Damages: each changes one place of a record. Not every one makes it wrong.


def set_poster(rng, record):
    record[POSTER] = pick(rng, (16, 17, 128, 255), 16, 255)


def zero_own_number(rng, record):
    place = 2 * (record[POSTER] % 16)
    record[place : place + 2] = b"\0\0"


def set_kind(rng, record):
    record[KIND] = pick(rng, (0, 1, 2, 3, 255), 0, 255)


def set_length(rng, record):
    record[LENGTH] = pick(rng, (0, 3, 4, 5, 6, 59, 60, 61, 255), 0, 255)


def set_zero(rng, record):
    record[ZERO] = pick(rng, (1, 128, 255), 1, 255)


def set_body(rng, record):
    place = BODY + rng.randrange(min(max(record[LENGTH], 1), 60))
    record[place] = pick(rng, (0, 1, 2, 3, 31, 32, 126, 127, 255), 0, 255)


def set_struck_poster(rng, record):
    record[BODY + 1] = pick(rng, (15, 16, 17, 255), 0, 255)


def set_struck_number(rng, record):
    record[BODY + 2 : BODY + 4] = rng.choice((b"\0\0", b"\0\0", b"\0\1", b"\1\0"))


def set_first_padding(rng, record):
    record[min(BODY + record[LENGTH], 95)] = pick(rng, (1, 32, 255), 1, 255)


def set_last_padding(rng, record):
    record[95] = pick(rng, (1, 32, 255), 1, 255)


def set_any(rng, record):
    record[rng.randrange(96)] = rng.randint(0, 255)


DAMAGES = (set_poster, zero_own_number, set_kind, set_length, set_zero, set_body, set_struck_poster,
           set_struck_number, set_first_padding, set_last_padding, set_any)


def damage(rng, record, places):
    for change in rng.sample(DAMAGES, places):
        change(rng, record)
    return record
