"""What `rooms_check calls` reads, and what it prints by the model in calls_model.py.

It reads scripts one after another. A script is a setting of 32 bytes and then its calls, 64 bytes each; `Setting` and
`Call` pack them. Numbers of several bytes have the low byte first, and what a call does not name does not count.

A script works with three carriers, two rooms, two sets of a log table and a hold table, a file of 4096 bytes, a sheet and
the lent parts of a letter. Every letter at the start is the blank one, every byte 0. A room is nothing at first, then a
draft, open and closed. Each room has two hands, which hold one docket of the room each; a send and a park name the room
that owns the hand. A set is brought with so many letters from the front of either table.

A script prints `script`, then what each call came to: its answer, or `refused` and the number, or `unfit` where the types
allow no such call now, as a post to a draft. Further lines tell what cannot be seen in the answer; sums stand for tables,
files and lent memory. Where a carrier of the setting is refused, nothing else is printed. At the end a line for each
carrier has the sums of what was lent to it."""

import struct
from collections import Counter
from dataclasses import dataclass
from functools import lru_cache

import calls_model as model
from record_model import Add, Letter, Strike, Text, body_words, read_file
from sheet_model import JobList, Timeline

FILE_SIZE = 4096
MOST_STEPS = 8  # of a run that is checked
MOST_READS = 50
LINES, SPOOL, PAIR = 1, 2, 3
MAKES = {LINES: "lines", SPOOL: "spool", PAIR: "pair"}
TEXT, JOB = 1, 2

(DRAFT, ENROL, OPEN, CHECK_OPEN, POST, SEND, PARK, COLLECT, TAKE, SHOW, DRAW_UP, LOG, PAGES, CLOSE, LOOK, WRITE_LOG,
 WRITE_HOLD, PUT, DRAW, MAKE_TEXT, MAKE_NAME, MAKE_STRIKE, MAKE_LETTER, CHECK_LINES, CHECK_SPOOL, CHECK_PAIR, SAVE, LOAD,
 WRITE_BYTE, READ_RECORD, READ_ALL, PUT_AND_DRAW, OVER_LINES, CHECK_RUN, DRAW_UP_LIST, ENTER, CLEAR,
 SHEET) = range(1, 39)


@dataclass(frozen=True)
class Carriage:
    """How one of the three carriers is made."""

    seats: int
    other_seats: int  # of the spool of a pair
    size: int  # places of a queue
    letters: int  # that are lent to lines
    bytes: int  # that are lent to a spool

    def packed(self):
        return struct.pack("<BBHHH", self.seats, self.other_seats, self.size, self.letters, self.bytes)


@dataclass(frozen=True)
class Setting:
    body: int
    make: int
    places: int  # of each letter table
    carriages: tuple

    def packed(self, calls):
        head = struct.pack("<BBHHH", self.body, self.make, calls, self.places, 0)
        return head + b"".join(carriage.packed() for carriage in self.carriages)


@dataclass(frozen=True)
class Call:
    call: int
    room: int = 0
    set: int = 0
    carrier: int = 0
    hand: int = 0
    owner: int = 0  # the room whose hand it is, at a send or a park
    seat: int = 0
    logs: int = 65535  # how many letters of each table are brought; all, where there are not so many
    holds: int = 65535
    wide: int = 0  # a place, a room's number, a name or the places of a queue
    number: int = 0  # a quota, or how many bytes of the file
    poster: int = 0
    kind: int = 1  # of a job: 1 an add, any other a strike
    code: int = 0
    struck: int = 0  # the poster of the letter that is struck
    first: int = 97  # of a text: its characters are this one and the next in turn
    struck_number: int = 0
    length: int = 0
    stamp: tuple = (0,) * 16

    def packed(self):
        return struct.pack("<7BxHHIHBBIBBHB3x16H", self.call, self.room, self.set, self.carrier, self.hand, self.owner,
                           self.seat, self.logs, self.holds, self.wide, self.number, self.poster, self.kind, self.code,
                           self.struck, self.first, self.struck_number, self.length, *self.stamp)


# Sums over what is too long to print


def rolled(numbers, start=0):
    total = start
    for number in numbers:
        total = (31 * total + number) % 2**32
    return total


@lru_cache(maxsize=2**14)
def letter_sum(letter):
    match letter.body:
        case Text(characters):
            body = [1, *characters]
        case Add(code):
            body = [2, code]
        case Strike(poster, number):
            body = [2, 2**16 * poster + number + 7]
    return rolled([*letter.stamp, letter.poster, *body])


def table_sum(letters):
    return rolled(map(letter_sum, letters))


def named(name):
    return "%d.%d" % name


def parts_line(letter):
    body = body_words(letter.body).decode("ascii")
    return f"parts {letter.poster} {','.join(map(str, letter.stamp))} {body}"


class Unfit(Exception):
    """The call is none that can be made now."""


class Script:
    """The state of a script, its lines so far, and how often what came."""

    def __init__(self, setting):
        self.setting = setting
        self.kind = "text" if setting.body == TEXT else "job"
        self.calls = []
        self.starts = []  # of the lines of each call
        self.lines = ["script"]
        self.came = Counter()
        no_body = Text(b"") if self.kind == "text" else Add(0)
        self.blank = Letter((1,) * 16, 0, no_body)
        self.parts = Letter((9,) * 16, 9, no_body)
        self.logs = [[self.blank] * setting.places for _ in range(2)]
        self.holds = [[self.blank] * setting.places for _ in range(2)]
        self.file = bytearray(FILE_SIZE)
        self.sheet = Timeline() if self.kind == "text" else JobList()
        self.rooms = [None, None]
        self.hands = [[None, None], [None, None]]
        self.carriers = []
        self.written = set()  # letters that the caller wrote into a table
        self.alive = self.make_carriers()

    def packed(self):
        return self.setting.packed(len(self.calls)) + b"".join(call.packed() for call in self.calls)

    # Carriers

    def make_carriers(self):
        """Whether none is refused."""
        try:
            for carriage in self.setting.carriages:
                self.carriers.append(self.make_carrier(carriage))
            return True
        except model.Refused as no:
            self.refused(no)
            return False

    def make_carrier(self, carriage):
        if self.setting.make == LINES:
            return self.make_lines(carriage)
        if self.setting.make == SPOOL:
            return self.make_spool(carriage.bytes, carriage.seats)
        lines = self.make_lines(carriage)
        spool = self.make_spool(carriage.bytes, carriage.other_seats)
        model.check_pair(lines, spool)
        return model.Pair(lines, spool)

    def make_lines(self, carriage):
        model.check_lines(carriage.letters, carriage.seats, carriage.size)
        return model.Lines([self.blank] * carriage.letters, carriage.seats, carriage.size)

    def make_spool(self, size, seats):
        model.check_spool(size, seats)
        return model.Spool(bytearray(size), seats)

    # Making a call

    def make(self, **what):
        """Makes a call, and adds what it prints."""
        call = Call(**what)
        self.calls.append(call)
        self.starts.append(len(self.lines))
        if not self.alive:
            return
        self.came["calls"] += 1
        no = None
        try:
            self.lines.extend(self.answer(call).split("\n"))
        except model.Refused as refused:
            no = refused
            self.refused(no, call)
        except Unfit:
            self.lines.append("unfit")
            self.came["unfit"] += 1
            return
        if no is None or no.call not in model.MAKINGS:  # where there is no body or letter to bring, the call is not made
            self.lines.extend(self.lines_behind(call, no))

    def answer(self, call):
        if call.call not in ANSWERS:
            raise Unfit
        return ANSWERS[call.call](self, call)

    def count(self, *what):
        self.came[what] += 1

    def refused(self, no, call=None):
        fault = f" {no.fault.index} {no.fault.byte}" if no.fault and no.number == 20 else ""
        self.lines.append(f"refused {no.number}{fault}")
        asked = no.call
        if call and call.call in READINGS and isinstance(self.rooms[call.room], Closed):
            asked = f"closed {asked}"
        self.count("refused", asked, no.number)
        for other in no.failing[1:]:
            self.count("before", asked, no.number, other)

    def lines_behind(self, call, no):
        if call.call in (DRAW_UP, DRAW_UP_LIST):
            yield from sheet_lines(self.sheet)
        if call.call in (DRAW, READ_RECORD, PUT_AND_DRAW, OVER_LINES):
            yield parts_line(self.parts)
        if call.call == LOAD or call.call == OVER_LINES and no:
            yield self.set_line(call)
        if call.call == SAVE:
            yield f"file {rolled(self.file)}"
        if call.call == LOOK:
            yield carrier_line(self.carriers[call.carrier])

    def set_line(self, call):
        return f"set {table_sum(self.logs[call.set])} {table_sum(self.holds[call.set])}"

    def end(self):
        """What is printed after the calls."""
        if self.alive:
            self.lines.extend(map(lent_line, self.carriers))

    # What a call brings

    def characters(self, call):
        return bytes(min(call.first + at % 2, 255) for at in range(call.length))

    def body(self, call):
        if self.kind == "text":
            return model.make_text(self.characters(call))
        return Add(call.code) if call.kind == 1 else model.make_strike(call.struck, call.struck_number)

    def letter(self, call):
        return model.make_letter(call.poster, call.stamp, self.body(call))

    def room(self, call, *states):
        """The room of a call, which must be in one of the states."""
        room = self.rooms[call.room]
        if not isinstance(room, states):
            raise Unfit
        return room

    def open_room(self, call):
        return self.room(call, Open).inside

    def read_room(self, call):
        return self.room(call, Open, Closed).inside

    def carrier(self, call):
        return self.carriers[call.carrier]

    def with_tables(self, call, work):
        """Does the work with the tables that the call brings, from the front of the set's."""
        logs, holds = self.logs[call.set][: call.logs], self.holds[call.set][: call.holds]
        answer = work(logs, holds)
        self.count_lengths(call, logs, holds)
        self.logs[call.set][: len(logs)] = logs
        self.holds[call.set][: len(holds)] = holds
        return answer

    def count_lengths(self, call, logs, holds):
        """Of tables that suffice for an open or a closed room."""
        room = self.rooms[call.room]
        if isinstance(room, (Open, Closed)) and call.call in OF_ROOMS:
            least = room.inside.count * room.inside.places
            for table, length in (("log", len(logs)), ("hold", len(holds))):
                self.count(f"a {table} table", "longer than it must be" if length > least else "just long enough")

    def free_hand(self, call):
        if self.hands[call.room][call.hand] is not None:
            raise Unfit

    def docket(self, call):
        """The docket of the owner's hand."""
        docket = self.hands[call.owner][call.hand]
        if docket is None:
            raise Unfit
        if call.owner != call.room and self.rooms[call.owner].inside.number == self.open_room(call).number:
            raise Unfit
        return docket

    def hand_over(self, call, docket):
        self.hands[call.room][call.hand] = docket
        return "docket %d %d %d" % docket

    # The calls on rooms

    def draft(self, call):
        if isinstance(self.rooms[call.room], Open):
            raise Unfit
        self.rooms[call.room] = model.Draft(call.wide, call.number)
        return "done"

    def enrol(self, call):
        return f"seat {self.room(call, model.Draft).enrol(call.wide)}"

    def check_open(self, call):
        draft = self.room(call, model.Draft)
        self.with_tables(call, lambda logs, holds: draft.check_open(logs, holds, self.carrier(call)))
        return "done"

    def open(self, call):
        self.check_open(call)
        self.rooms[call.room] = Open(model.Room(self.rooms[call.room]))
        return "done"

    def check_run(self, call):
        draft = self.room(call, model.Draft)
        steps, replies = min(call.number, MOST_STEPS), min(call.struck_number, MOST_STEPS)
        self.with_tables(call, lambda logs, holds: draft.check_run(logs, holds, self.carrier(call), steps, replies))
        return "done"

    def post(self, call):
        body = self.body(call)
        room = self.open_room(call)
        self.free_hand(call)
        docket = self.with_tables(call, lambda logs, holds: room.post(logs, holds, call.seat, body))
        return self.hand_over(call, docket)

    def collect(self, call):
        room = self.open_room(call)
        self.free_hand(call)
        return self.hand_over(call, room.collect(call.seat))

    def send(self, call):
        room, docket = self.open_room(call), self.docket(call)
        self.count_foreign("send", call, docket)
        self.with_tables(call, lambda logs, holds: self.send_letter(room, logs, holds, call, docket))
        self.hands[call.owner][call.hand] = None
        return "done"

    def send_letter(self, room, logs, holds, call, docket):
        room.send(logs, holds, self.carrier(call), docket)
        self.count("sent", MAKES[self.setting.make], self.kind)
        named = [letter for letter in room.log_of(docket[1], logs) if model.name_of(letter) == docket[1:]]
        if len(set(named)) > 1:
            self.count("sent the first of several with one name")
        if named[0] in self.written:
            self.count("sent a letter that was written")

    def park(self, call):
        room, docket = self.open_room(call), self.docket(call)
        self.count_foreign("park", call, docket)
        room.park(docket)
        self.hands[call.owner][call.hand] = None
        return "done"

    def count_foreign(self, what, call, docket):
        if call.owner != call.room:
            self.count("a docket of the other room", what)

    def take(self, call):
        room = self.open_room(call)
        (how, why), name = self.with_tables(
            call, lambda logs, holds: room.take(logs, holds, self.carrier(call), call.seat, call.wide))
        self.count("taken", how, why)
        self.count("taken over", MAKES[self.setting.make], self.kind)
        return f"{how} {named(name)}"

    def show(self, call):
        room = self.open_room(call)
        name = self.with_tables(call, lambda logs, holds: room.show(logs, holds, call.seat))
        shown = room.log_of(call.seat, self.logs[call.set])[-1]
        self.count("shown", "a letter that was written" if shown in self.written else "a letter that was taken")
        return f"shown {named(name)}"

    def close(self, call):
        room = self.open_room(call)
        room.check_close()
        self.rooms[call.room] = Closed(room)
        return "done"

    # Reading

    def count_reading(self, call, what):
        self.count("read", "closed" if isinstance(self.rooms[call.room], Closed) else "open", what)

    def draw_up(self, call):
        room = self.read_room(call)
        self.with_tables(call, lambda logs, holds: room.draw_up(logs, holds, call.seat, self.sheet))
        self.count_reading(call, "drawn up")
        return "done"

    def log(self, call):
        room = self.read_room(call)
        log = self.with_tables(call, lambda logs, holds: room.log(logs, holds, call.seat))
        self.count_reading(call, "log")
        return " ".join(["log", *(named(model.name_of(letter)) for letter in log), "sum", str(table_sum(log))])

    def pages(self, call):
        room = self.read_room(call)
        pages = room.pages(call.seat)
        self.count_reading(call, "pages")
        self.count("pages of rows", sum(room.seats[call.seat].clock), pages)
        return f"pages {pages}"

    def look(self, call):
        return self.set_line(call)

    # The calls on tables, carriers and values

    def write(self, call, table):
        letter = self.letter(call)
        if call.wide >= len(table):
            raise Unfit
        table[call.wide] = letter
        self.written.add(letter)
        return "done"

    def write_log(self, call):
        return self.write(call, self.logs[call.set])

    def write_hold(self, call):
        return self.write(call, self.holds[call.set])

    def put(self, call):
        self.carrier(call).put(self.letter(call))
        return "done"

    def draw(self, call):
        self.parts = self.carrier(call).draw(call.seat, call.wide)
        return "done"

    def put_and_draw(self, call):
        self.parts = model.put_and_draw(self.carrier(call), self.letter(call), call.seat)
        return "done"

    def over_lines(self, call):
        letter = self.letter(call)
        self.parts = self.with_tables(
            call, lambda logs, _: model.over_lines(logs, call.struck, call.wide, letter, call.seat))
        return "done"

    def make_text(self, call):
        model.make_text(self.characters(call))
        return "done"

    def make_name(self, call):
        return f"name {named(model.make_name(call.struck, call.struck_number))}"

    def make_strike(self, call):
        model.make_strike(call.struck, call.struck_number)
        return "done"

    def make_letter(self, call):
        letter = self.letter(call)
        return f"letter {named(model.name_of(letter))} sum {letter_sum(letter)}"

    def check_lines(self, call):
        self.with_tables(call, lambda logs, _: model.check_lines(len(logs), call.seat, call.wide))
        return "done"

    def check_spool(self, call):
        model.check_spool(min(call.number, FILE_SIZE), call.seat)
        return "done"

    def check_pair(self, call):
        model.check_pair(self.carrier(call), self.carriers[(call.carrier + 1) % 3])
        return "done"

    # Files and sheets

    def front(self, call):
        """The front of the file."""
        return self.file[: call.number]

    def save(self, call):
        front = self.front(call)
        size = self.with_tables(call, lambda logs, _: model.save(logs, front))
        self.file[: len(front)] = front
        if size:
            self.count("saved", self.kind)
        return f"bytes {size}"

    def load(self, call):
        count = self.with_tables(call, lambda logs, _: model.load(self.front(call), self.kind, logs))
        self.count("loaded", self.kind)
        return f"letters {count}"

    def write_byte(self, call):
        if call.number >= FILE_SIZE:
            raise Unfit
        self.file[call.number] = call.first
        return "done"

    def read_record(self, call):
        self.parts = model.read_record(self.front(call), self.kind)
        return "done"

    def read_all(self, call):
        letters, fault = read_file(self.front(call), self.kind)
        lines = []
        for index, letter in enumerate(letters):
            self.parts = letter
            lines += [f"read {index}", parts_line(letter)]
        if fault:
            self.count("refused", "reader", 20)
            lines += [f"refused 20 {fault.index} {fault.byte}", parts_line(self.parts)]
        else:
            lines.append("end")
        return "\n".join(lines)

    def draw_up_list(self, call):
        self.with_tables(call, lambda logs, _: model.draw_up_list(self.sheet, logs))
        self.count("sheet of letters", self.kind, self.sheet.entered)
        return "done"

    def enter(self, call):
        model.enter(self.sheet, self.letter(call))
        return "done"

    def clear(self, call):
        self.sheet.clear()
        return "done"

    def print_sheet(self, call):
        return "\n".join(sheet_lines(self.sheet))


@dataclass(frozen=True)
class Open:
    inside: model.Room


@dataclass(frozen=True)
class Closed:
    inside: model.Room


READINGS = (DRAW_UP, LOG, PAGES)
OF_ROOMS = (POST, SEND, TAKE, SHOW, DRAW_UP, LOG)  # the calls that bring tables to a room

ANSWERS = {
    DRAFT: Script.draft, ENROL: Script.enrol, OPEN: Script.open, CHECK_OPEN: Script.check_open, POST: Script.post,
    SEND: Script.send, PARK: Script.park, COLLECT: Script.collect, TAKE: Script.take, SHOW: Script.show,
    DRAW_UP: Script.draw_up, LOG: Script.log, PAGES: Script.pages, CLOSE: Script.close, LOOK: Script.look,
    WRITE_LOG: Script.write_log, WRITE_HOLD: Script.write_hold, PUT: Script.put, DRAW: Script.draw,
    MAKE_TEXT: Script.make_text, MAKE_NAME: Script.make_name, MAKE_STRIKE: Script.make_strike,
    MAKE_LETTER: Script.make_letter, CHECK_LINES: Script.check_lines, CHECK_SPOOL: Script.check_spool,
    CHECK_PAIR: Script.check_pair, SAVE: Script.save, LOAD: Script.load, WRITE_BYTE: Script.write_byte,
    READ_RECORD: Script.read_record, READ_ALL: Script.read_all, PUT_AND_DRAW: Script.put_and_draw,
    OVER_LINES: Script.over_lines, CHECK_RUN: Script.check_run, DRAW_UP_LIST: Script.draw_up_list, ENTER: Script.enter,
    CLEAR: Script.clear, SHEET: Script.print_sheet,
}


def sheet_lines(sheet):
    """What the program prints of a timeline or a job list."""
    if isinstance(sheet, JobList):
        yield f"sheet {sheet.entered}"
        for name, code in sorted(sheet.contents.items()):
            yield f"job {named(name)} {code}"
        return
    yield f"sheet {sheet.entered} pages {model.page_count(len(sheet.contents))}"
    for rank, poster, number, characters in sheet.contents:
        yield f"row {rank} {poster}.{number} {characters.decode('ascii')}"


def carrier_line(carrier):
    waits = " ".join(str(carrier.waits(seat)) for seat in range(17))
    fits = " ".join(str(int(carrier.fits(seat))) for seat in range(17))
    return f"carrier {carrier.seats} waits {waits} fits {fits}"


def lent_line(carrier):
    """The memory that was lent to a carrier."""
    match carrier:
        case model.Lines():
            return f"lent {table_sum(carrier.table)}"
        case model.Spool():
            return f"lent {rolled(carrier.buffer)}"
    return f"lent {table_sum(carrier.first.table)} {rolled(carrier.second.buffer)}"
