"""A model of the calls one by one, written from docs/RULES.md, docs/RECORDS.md and docs/REFUSALS.md.

A room is brought its letter tables at each call: lists of letters of any length, with any letters in them. Carriers have the
memory that is lent to them. So what a call leaves is known place by place. A call that is refused raises `Refused`, with the
numbers of all of its checks that fail."""

from record_model import RECORD_SIZE, Fault, Letter, Strike, Text, letter_of, read_file, record_of
from sheet_model import ROWS_TO_A_PAGE

SEATS = 16  # the most that a room or a carrier has
MOST_LETTERS = 256  # seats times quota, at most
ROW_SIZE = RECORD_SIZE + 2  # of a spool: a record and a mask
MOST_WAITING = 2**32 - 1  # that a carrier counts

# The checks of each call in their order. compare_calls.py holds this to docs/REFUSALS.md.
ORDERS = {
    "draft": (1,),
    "enrol": (2, 3),
    "open": (4, 5, 6, 7),
    "run": (5, 4, 5, 6, 7),
    "post": (5, 8, 10, 9),
    "send": (5, 6, 12, 19, 11),
    "park": (12,),
    "collect": (8, 13),
    "take": (5, 6, 8, 14),
    "show": (5, 8, 15),
    "draw up": (5, 8, 17),
    "close": (16,),
    "log": (5, 8),
    "pages": (8,),
    "enter": (18,),
    "put": (8, 11),
    "draw": (8, 14),
    "lines": (6, 5),
    "spool": (6, 5),
    "pair": (6,),
    "text": (20,),
    "name": (20,),
    "strike": (20,),
    "letter": (20,),
    "record": (20,),
    "reader": (20,),
    "put and draw": (8, 11, 8, 14),
    "over lines": (6, 5, 8, 14),
    "load": (20, 5),
    "save": (5,),
    "draw up a list": (17,),
}


class Refused(Exception):
    """A no: the call, the numbers of the checks that fail, in their order, and the fault of a record. The first number is
    the answer."""

    def __init__(self, call, failing, fault=None):
        super().__init__(call, failing, fault)
        self.call = call
        self.number = failing[0]
        self.failing = failing
        self.fault = fault


def settle(call, *checks, fault=None):
    """Refuses the call where one of its checks, a number and whether it fails, does."""
    assert tuple(number for number, _ in checks) == ORDERS[call]
    failing = [number for number, fails in checks if fails]
    if failing:
        raise Refused(call, failing, fault)


# Values, which a call may need before it is made

MAKINGS = ("text", "name", "strike", "letter")


def make_text(characters):
    settle("text", (20, len(characters) > 60 or any(not 32 <= byte <= 126 for byte in characters)))
    return Text(characters)


def make_name(poster, number, call="name"):
    settle(call, (20, poster >= SEATS or number == 0))
    return poster, number


def make_strike(poster, number):
    return Strike(*make_name(poster, number, "strike"))


def make_letter(poster, stamp, body):
    settle("letter", (20, poster >= SEATS or stamp[poster] == 0))
    return Letter(tuple(stamp), poster, body)


def name_of(letter):
    return letter.poster, letter.number


# Carriers


class Carrier:
    """What all carriers share; each kind has `waiting`, `fits`, `add` and `remove` of its own."""

    def waits(self, seat):
        return min(len(self.waiting(seat)), MOST_WAITING)

    def put(self, letter):
        settle("put", (8, letter.poster >= self.seats), (11, not self.fits(letter.poster)))
        self.add(letter)

    def draw(self, seat, place):
        settle("draw", (8, seat >= self.seats), (14, place >= self.waits(seat)))
        return self.remove(seat, place)


def no_seats_for_a_carrier(seats):
    return seats == 0 or seats > SEATS


def check_lines(places, seats, size):
    """Lines with queues of `size` places, over a table with so many places."""
    settle("lines", (6, no_seats_for_a_carrier(seats)), (5, size == 0 or places < seats * size))


class Lines(Carrier):
    """Queues side by side in a lent table of letters."""

    def __init__(self, table, seats, size):
        self.table = table
        self.seats = seats
        self.size = size
        self.counts = [0] * seats

    def waiting(self, seat):
        if seat >= self.seats:
            return []
        return self.table[seat * self.size :][: self.counts[seat]]

    def fits(self, poster):
        others = [count for seat, count in enumerate(self.counts) if seat != poster]
        return poster < self.seats and all(count < self.size for count in others)

    def add(self, letter):
        for seat, count in enumerate(self.counts):
            if seat != letter.poster:
                self.table[seat * self.size + count] = letter
                self.counts[seat] += 1

    def remove(self, seat, place):
        start = seat * self.size
        letter = take_out(self.table, start + place, start + self.counts[seat])
        self.counts[seat] -= 1
        return letter


def take_out(table, at, end):
    """Takes out the letter at a place: those behind it, up to the end, move down, and the last of them stays as well."""
    letter = table[at]
    table[at : end - 1] = table[at + 1 : end]
    return letter


def check_spool(size, seats):
    """A spool over a buffer of `size` bytes."""
    settle("spool", (6, no_seats_for_a_carrier(seats)), (5, size < ROW_SIZE))


class Spool(Carrier):
    """Rows of bytes in a lent buffer: a record, and a mask of the seats that have yet to draw it."""

    def __init__(self, buffer, seats):
        self.buffer = buffer
        self.seats = seats
        self.rows = 0

    def record(self, row):
        return self.buffer[ROW_SIZE * row :][:RECORD_SIZE]

    def mask(self, row):
        return int.from_bytes(self.buffer[ROW_SIZE * row :][RECORD_SIZE:ROW_SIZE], "little")

    def rows_of(self, seat):
        """The rows that the seat has yet to draw."""
        return [row for row in range(self.rows) if self.mask(row) >> seat & 1]

    def waiting(self, seat):
        return [letter_of(self.record(row)) for row in self.rows_of(seat)]

    def fits(self, poster):
        return poster < self.seats and ROW_SIZE * (self.rows + 1) <= len(self.buffer)

    def add(self, letter):
        mask = 2**self.seats - 1 - 2**letter.poster
        if mask:
            at = ROW_SIZE * self.rows
            self.buffer[at : at + ROW_SIZE] = record_of(letter) + mask.to_bytes(2, "little")
            self.rows += 1

    def remove(self, seat, place):
        row = self.rows_of(seat)[place]
        letter = letter_of(self.record(row))
        mask = self.mask(row) - 2**seat
        if mask:
            at = ROW_SIZE * row
            self.buffer[at + RECORD_SIZE : at + ROW_SIZE] = mask.to_bytes(2, "little")
        else:
            self.remove_row(row)
        return letter

    def remove_row(self, row):
        """The rows behind it close up; what stands from there to the end of the buffer stays."""
        at, end = ROW_SIZE * row, ROW_SIZE * self.rows
        self.buffer[at : end - ROW_SIZE] = self.buffer[at + ROW_SIZE : end]
        self.rows -= 1


def check_pair(first, second):
    settle("pair", (6, first.seats != second.seats))


class Pair(Carrier):
    """Two carriers as one."""

    def __init__(self, first, second):
        self.first = first
        self.second = second
        self.seats = first.seats

    def waiting(self, seat):
        return self.first.waiting(seat) + self.second.waiting(seat)

    def fits(self, poster):
        return self.first.fits(poster) and self.second.fits(poster)

    def add(self, letter):
        self.first.add(letter)
        self.second.add(letter)

    def remove(self, seat, place):
        ahead = self.first.waits(seat)
        if place < ahead:
            return self.first.remove(seat, place)
        return self.second.remove(seat, place - ahead)


def put_and_draw(carrier, letter, seat):
    """Puts the letter, and draws what then waits first for the seat."""
    poster = letter.poster
    settle("put and draw", (8, poster >= carrier.seats), (11, not carrier.fits(poster)), (8, seat >= carrier.seats),
           (14, carrier.waits(seat) == 0 and seat == poster))
    carrier.put(letter)
    return carrier.draw(seat, 0)


def over_lines(table, seats, size, letter, seat):
    """The same over lines that are made of the table."""
    poster = letter.poster
    short = size == 0 or len(table) < seats * size
    settle("over lines", (6, no_seats_for_a_carrier(seats)), (5, short), (8, poster >= seats or seat >= seats),
           (14, poster == seat))
    return put_and_draw(Lines(table, seats, size), letter, seat)


# Rooms


class Draft:
    """A room before it opens."""

    def __init__(self, number, quota):
        settle("draft", (1, quota == 0 or quota > MOST_LETTERS))
        self.number = number
        self.quota = quota
        self.names = []

    def enrol(self, name):
        """Answers the seat."""
        seat = len(self.names)
        too_many = seat == SEATS or (seat + 1) * self.quota > MOST_LETTERS
        settle("enrol", (2, name == 0 or name in self.names), (3, too_many))
        self.names.append(name)
        return seat

    def opening_checks(self, logs, holds, carrier):
        seats = len(self.names)
        short = min(len(logs), len(holds)) < seats * seats * self.quota
        waiting = any(carrier.waits(seat) for seat in range(carrier.seats))
        return (4, seats == 0), (5, short), (6, carrier.seats != seats), (7, waiting)

    def check_open(self, logs, holds, carrier):
        settle("open", *self.opening_checks(logs, holds, carrier))

    def check_run(self, logs, holds, carrier, steps, replies):
        """Whether a list of so many steps can be run, with so many places for replies."""
        settle("run", (5, replies < steps), *self.opening_checks(logs, holds, carrier))


class Seat:
    """What a room keeps for a seat. Its letters stand in the tables."""

    def __init__(self):
        self.clock = [0] * SEATS
        self.held = 0
        self.docket = "clear"


class Room:
    """An open room, or a closed one. A docket is a room's number, a seat and a letter's number."""

    def __init__(self, draft):
        self.number = draft.number
        self.quota = draft.quota
        self.count = len(draft.names)
        self.places = self.count * self.quota  # of each seat in either table
        self.seats = [Seat() for _ in range(self.count)]

    def box(self, seat):
        """The seat, or None where the room has no such seat."""
        return self.seats[seat] if seat < self.count else None

    def short(self, logs, holds):
        """Whether a letter table has too few places."""
        return min(len(logs), len(holds)) < self.count * self.places

    def log_of(self, seat, logs):
        """The letters of a seat's log. A table that is too short may have fewer of them."""
        return logs[seat * self.places :][: sum(self.seats[seat].clock)]

    def hold_of(self, seat, holds):
        return holds[seat * self.places :][: self.seats[seat].held]

    def add_to_log(self, seat, logs, letter):
        """The clock is raised for the letter afterwards."""
        logs[seat * self.places + sum(self.seats[seat].clock)] = letter

    def docket_of(self, seat):
        """The docket of the seat's newest letter."""
        return self.number, seat, self.seats[seat].clock[seat]

    # The steps

    def post(self, logs, holds, seat, body):
        """Answers the docket."""
        box = self.box(seat)
        settle("post", (5, self.short(logs, holds)), (8, box is None), (10, box and box.docket != "clear"),
               (9, box and box.clock[seat] == self.quota))
        stamp = list(box.clock)
        stamp[seat] += 1
        self.add_to_log(seat, logs, Letter(tuple(stamp), seat, body))
        box.clock = stamp
        box.docket = "out"
        return self.docket_of(seat)

    def knows(self, docket):
        """Whether a docket is good."""
        seat = docket[1]
        box = self.box(seat)
        return box is not None and box.docket == "out" and docket == self.docket_of(seat)

    def letter_of(self, logs, docket):
        """The first letter with the docket's name in the seat's log, or None."""
        _, seat, number = docket
        log = self.log_of(seat, logs) if self.box(seat) else []
        return next((letter for letter in log if name_of(letter) == (seat, number)), None)

    def send(self, logs, holds, carrier, docket):
        seat = docket[1]
        letter = self.letter_of(logs, docket)
        settle("send", (5, self.short(logs, holds)), (6, carrier.seats != self.count), (12, not self.knows(docket)),
               (19, letter is None), (11, not carrier.fits(seat)))
        carrier.put(letter)
        self.seats[seat].docket = "clear"

    def park(self, docket):
        settle("park", (12, not self.knows(docket)))
        self.seats[docket[1]].docket = "parked"

    def collect(self, seat):
        """Answers the docket."""
        box = self.box(seat)
        settle("collect", (8, box is None), (13, box and box.docket != "parked"))
        box.docket = "out"
        return self.docket_of(seat)

    def take(self, logs, holds, carrier, seat, place):
        """Answers stray, repeat or held with the reason, and the letter's name."""
        settle("take", (5, self.short(logs, holds)), (6, carrier.seats != self.count),
               (8, seat >= min(self.count, carrier.seats)), (14, place >= carrier.waits(seat)))
        letter = carrier.draw(seat, place)
        how = self.stray(seat, letter) or self.repeat(seat, holds, letter) or ("held", "new")
        if how[0] == "held":
            box = self.seats[seat]
            holds[seat * self.places + box.held] = letter
            box.held += 1
        return how, name_of(letter)

    def is_of_another(self, seat, letter):
        """Whether the poster is another seat of the room."""
        return letter.poster < self.count and letter.poster != seat

    def stray(self, seat, letter):
        if not self.is_of_another(seat, letter):
            return "stray", "by its poster"
        if letter.number > self.quota:
            return "stray", "by its number"
        if self.seats[seat].held == self.places:
            return "stray", "as the hold is full"
        return None

    def repeat(self, seat, holds, letter):
        if self.seats[seat].clock[letter.poster] >= letter.number:
            return "repeat", "by the clock"
        if any(name_of(held) == name_of(letter) for held in self.hold_of(seat, holds)):
            return "repeat", "by the hold"
        return None

    def is_ready(self, seat, letter):
        clock = self.seats[seat].clock
        if not self.is_of_another(seat, letter) or letter.number > self.quota:
            return False
        others = [at for at in range(SEATS) if at != letter.poster]
        return letter.number == clock[letter.poster] + 1 and all(letter.stamp[at] <= clock[at] for at in others)

    def first_ready(self, seat, holds):
        """The place in the hold, or None."""
        hold = self.hold_of(seat, holds)
        return next((at for at, letter in enumerate(hold) if self.is_ready(seat, letter)), None)

    def show(self, logs, holds, seat):
        """Answers the letter's name."""
        box = self.box(seat)
        at = self.first_ready(seat, holds) if box else None
        settle("show", (5, self.short(logs, holds)), (8, box is None), (15, box and at is None))
        start = seat * self.places
        letter = take_out(holds, start + at, start + box.held)
        box.held -= 1
        self.add_to_log(seat, logs, letter)
        box.clock[letter.poster] = letter.number
        return name_of(letter)

    def check_close(self):
        settle("close", (16, any(box.docket != "clear" for box in self.seats)))

    # Reading, on an open and on a closed room

    def log(self, logs, holds, seat):
        settle("log", (5, self.short(logs, holds)), (8, seat >= self.count))
        return self.log_of(seat, logs)

    def pages(self, seat):
        settle("pages", (8, seat >= self.count))
        return page_count(sum(self.seats[seat].clock))

    def draw_up(self, logs, holds, seat, sheet):
        settle("draw up", (5, self.short(logs, holds)), (8, seat >= self.count), (17, sheet.places < self.places))
        sheet.draw_up(self.log_of(seat, logs))


# Sheets and files


def page_count(rows):
    return -(-rows // ROWS_TO_A_PAGE)


def enter(sheet, letter):
    settle("enter", (18, sheet.entered == sheet.places))
    sheet.enter(letter)


def draw_up_list(sheet, log):
    settle("draw up a list", (17, len(log) > sheet.places))
    sheet.draw_up(log)


def read_record(data, kind):
    """The letter of the record at the front, which is read by itself."""
    letters, fault = read_file(data[:RECORD_SIZE], kind) if data else ([], Fault(0, 0))
    settle("record", (20, fault is not None), fault=fault)
    return letters[0]


def load(data, kind, table):
    """Puts the letters of a file at the front of the table, and answers how many there are."""
    letters, fault = read_file(data, kind)
    records = -(-len(data) // RECORD_SIZE)
    settle("load", (20, fault is not None), (5, len(table) < records), fault=fault)
    table[:records] = letters
    return records


def save(letters, buffer):
    """Writes the records to the front of the buffer, and answers how many bytes they are."""
    data = b"".join(map(record_of, letters))
    settle("save", (5, len(buffer) < len(data)))
    buffer[: len(data)] = data
    return len(data)
