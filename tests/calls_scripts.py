"""Scripts for `rooms_check calls`: each maker of SCRIPTS answers a script of single calls, with what it must print."""

from itertools import product

import calls_program as calls
import random_letters as some
from calls_program import Carriage, Closed, Open, Script, Setting
from record_model import RECORD_SIZE

ALL = 65535  # letters of a table: more than there are


# What scripts are made of


class Maker(Script):
    """A script that is being made, with its random choices."""

    def __init__(self, rng, seats, places, body=None, make=None):
        """Three carriers for these numbers of seats."""
        carriages = tuple(any_carriage(rng, count) for count in seats)
        super().__init__(Setting(body or rng.choice([calls.TEXT, calls.JOB]),
                                 make or rng.choice([calls.LINES, calls.SPOOL, calls.PAIR]), places, carriages))
        self.rng = rng
        number = rng.choice([0, 7, 2**31])
        self.numbers = number, number + 2 ** rng.randrange(31)  # of the rooms: they differ in one bit

    def inside(self, room):
        """The open or closed room, or None."""
        return self.rooms[room].inside if isinstance(self.rooms[room], (Open, Closed)) else None

    # Steps that are made together

    def open_up(self, room, seats, quota, carrier=0):
        """Opens a room with the set of its own number."""
        self.draft_and_enrol(room, seats, quota)
        self.make(call=calls.OPEN, room=room, set=room, carrier=carrier)

    def draft_and_enrol(self, room, seats, quota):
        self.make(call=calls.DRAFT, room=room, wide=self.numbers[room], number=quota)
        for name in self.rng.sample(range(1, 2**32), seats):
            self.make(call=calls.ENROL, room=room, wide=name)

    def empty(self, carrier):
        """Draws all that waits."""
        for seat in range(self.carriers[carrier].seats):
            while self.carriers[carrier].waits(seat):
                self.make(call=calls.DRAW, carrier=carrier, seat=seat, wide=0)

    def fill(self, carrier, poster):
        """Puts letters until no more fits."""
        while self.carriers[carrier].fits(poster) and self.carriers[carrier].seats > 1:
            self.make(call=calls.PUT, carrier=carrier, **self.letter_of(poster=poster))

    def post_and_send(self, room, seat, carrier=0):
        self.make(call=calls.POST, room=room, set=room, seat=seat, **self.some_body())
        self.make(call=calls.SEND, room=room, owner=room, set=room, carrier=carrier)
        self.put_away(room)

    def put_away(self, room, hand=0):
        """Parks the docket of a hand that is full."""
        if self.hands[room][hand]:
            self.make(call=calls.PARK, room=room, owner=room, hand=hand)

    # Fields of calls

    def some_body(self):
        rng = self.rng
        if rng.random() < 0.3:
            struck, number = some.poster(rng), some.number(rng)
            return {"kind": 2, "struck": struck, "struck_number": number, "first": 32 + struck, "length": number % 61}
        return {"kind": 1, "code": some.add(rng).code, "first": rng.randrange(32, 126), "length": rng.randrange(61)}

    def letter_of(self, poster=None, number=None, entries=None):
        """The fields of a letter: what is not told is any."""
        rng = self.rng
        poster = some.poster(rng) if poster is None else poster
        stamp = [some.pick(rng, (0, 1, 2, 65535), 0, 4) for _ in range(16)] if entries is None else list(entries)
        stamp[poster] = some.pick(rng, (1, 2, 3), 1, 65535) if number is None else number
        return {"poster": poster, "stamp": tuple(stamp), **self.some_body()}

    def any_letter(self):
        """The fields of a letter, or of what cannot be one."""
        fields = self.letter_of()
        if self.rng.random() < 0.05:
            fields["poster"] = self.rng.choice([16, 255])
        if self.rng.random() < 0.05:
            fields["stamp"] = (0,) * 16
        if self.rng.random() < 0.05:
            fields.update(kind=2, struck=16, first=127, length=1)
        return fields

    def near_letter(self, seat, room):
        """The fields of a letter that is ready at the seat of an open room, or all but ready."""
        rng, inside = self.rng, self.inside(room)
        clock = inside.seats[seat].clock
        others = [poster for poster in range(inside.count) if poster != seat] or [0]
        poster = rng.choice(others)
        stamp = [rng.randrange(entry + 1) for entry in clock]
        stamp[poster] = clock[poster] + 1
        if rng.random() < 0.5:
            slip = rng.randrange(16)
            stamp[slip] = clock[slip] + rng.choice([1, 1, 2])
            poster = rng.choice([poster, poster, seat, inside.count % 16, slip])
        return self.letter_of(poster=poster, number=stamp[poster] or 1, entries=stamp)

    def some_tables(self, room):
        """How many letters of each table are brought: mostly enough."""
        least = self.least(room)
        lengths = [least, least + 1, ALL, max(least - 1, 0), self.rng.randrange(least + 1)]
        logs, holds = self.rng.choices(lengths, [2, 1, 2, 1, 1], k=2)
        return {"logs": logs, "holds": holds}

    def least(self, room):
        """How many letters each table must have."""
        inside = self.inside(room)
        return inside.count * inside.places if inside else 4

    def each_tables(self, room):
        """Enough in both tables, and too little in one or both."""
        least = self.least(room)
        few = max(least - 1, 0)
        return [{"logs": logs, "holds": holds} for logs, holds in
                ((least, least), (ALL, ALL), (few, least), (ALL, few), (0, ALL), (few, few))]

    def some_seat(self, room):
        inside = self.inside(room)
        seats = range(inside.count if inside else 2)
        return self.rng.choice([*seats, *seats, len(seats), 16, 255])

    def shuffled(self, *choices, most=40):
        """Combinations of one from each list."""
        every = list(product(*choices))
        return self.rng.sample(every, min(most, len(every)))


def any_carriage(rng, seats):
    size = rng.choice([1, 2, 3, 4])
    letters = seats * size + rng.choice([0, 0, 1, 5])
    return Carriage(seats, seats, size, letters, 98 * rng.randrange(1, 6) + rng.randrange(98))


def small_room(rng, least=1):
    """Seats, at least so many, and a quota."""
    rooms = (1, 1), (1, 3), (2, 1), (2, 2), (2, 4), (3, 1), (3, 3), (4, 2), (5, 1)
    return rng.choice([room for room in rooms if room[0] >= least])


def needed(seats, quota):
    return seats * seats * quota


# Makers of scripts. Each shows one call, or a few that go together, with every two of its checks that can both fail.


def opening(rng):
    """A draft is opened with tables of every length, and with carriers that serve other seats or on which letters wait."""
    seats, quota = small_room(rng)
    other = rng.choice([count for count in (1, 2, 3, 16) if count != seats])
    s = Maker(rng, (seats, other, other), needed(seats, quota) + rng.randrange(3))
    s.make(call=calls.DRAFT, wide=1, number=quota)
    try_to_open(s, quota, 0, 8)
    for name in range(1, seats + 1):
        s.make(call=calls.ENROL, wide=name)
    try_to_open(s, quota, seats, 10)
    for carrier in (0, 1):
        s.make(call=calls.PUT, carrier=carrier, **s.letter_of(poster=0))
    try_to_open(s, quota, seats, 20)
    s.make(call=calls.OPEN, logs=needed(seats, quota))
    s.empty(0)
    s.make(call=calls.OPEN, logs=needed(seats, quota), holds=needed(seats, quota))
    s.make(call=calls.LOOK)
    return s


def try_to_open(s, quota, seats, most):
    least = needed(seats, quota)
    lengths = (0, max(least - 1, 0), least, ALL)
    every = ((calls.CHECK_OPEN, calls.CHECK_RUN), lengths, lengths, range(3), range(4))
    for call, logs, holds, carrier, replies in s.shuffled(*every, most=most):
        s.make(call=call, logs=logs, holds=holds, carrier=carrier, number=2, struck_number=replies)


def waiting_before_seats(rng):
    """A draft without seats, and carriers on which letters wait."""
    s = Maker(rng, (2, 3, 1), 4)
    for carrier in (0, 1):
        s.make(call=calls.PUT, carrier=carrier, **s.letter_of(poster=1))
    s.make(call=calls.DRAFT, wide=1, number=rng.choice([1, 256]))
    try_to_open(s, 1, 0, 20)
    s.draft_and_enrol(1, 2, 1)
    try_to_open(s, 1, 2, 20)
    return s


def enrolling(rng):
    """Drafts of every quota, and names that are enrolled, none, or too many."""
    s = Maker(rng, (1, 2, 16), 4)
    for quota in rng.sample([0, 257, 65535, 1, 2, 15, 16, 17, 128, 256], 5):
        s.make(call=calls.DRAFT, room=rng.randrange(2), wide=rng.randrange(2**32), number=quota)
        for room, name in s.shuffled((0, 1), (0, 1, 2, 256, 2**32 - 1), most=6):
            s.make(call=calls.ENROL, room=room, wide=name)
    quota = rng.choice([1, 16, 17, 64, 200])
    s.make(call=calls.DRAFT, wide=5, number=quota)
    for name in range(1, 19):
        s.make(call=calls.ENROL, wide=name)
        if rng.random() < 0.4:
            s.make(call=calls.ENROL, wide=rng.choice([0, 1, name]))
    return s


def posting(rng):
    """Posts at seats that are clear, out, parked or spent, and at seats that are none, with tables of every length."""
    seats, quota = small_room(rng, 2)
    s = Maker(rng, (seats, seats, 1), needed(seats, quota) + rng.randrange(3))
    s.open_up(0, seats, quota)
    for seat in range(seats):
        for _ in range(rng.choice([0, quota - 1, quota])):
            s.post_and_send(0, seat)
            s.empty(0)
    out = rng.randrange(seats)
    s.make(call=calls.POST, seat=out, hand=1, **s.some_body())
    for seat, tables in s.shuffled((*range(seats), seats, 255), s.each_tables(0)):
        s.make(call=calls.POST, seat=seat, **tables, **s.some_body())
        s.put_away(0)
    for seat in range(seats):
        s.make(call=calls.LOG, seat=seat)
    s.make(call=calls.LOOK)
    return s


def posting_the_last(rng):
    """The docket of the last letter that the quota allows is out or parked."""
    seats, quota = rng.choice([(2, 1), (2, 2), (3, 1)])
    s = Maker(rng, (seats, seats, 1), needed(seats, quota))
    s.open_up(0, seats, quota)
    for _ in range(quota - 1):
        s.post_and_send(0, 1)
        s.empty(0)
    s.make(call=calls.POST, seat=1, hand=1, **s.some_body())
    for tables in s.each_tables(0):
        s.make(call=calls.POST, seat=1, **tables, **s.some_body())
    s.put_away(0, 1)
    for tables in s.each_tables(0):
        s.make(call=calls.POST, seat=1, **tables, **s.some_body())
    s.make(call=calls.CLOSE)
    return s


def sending(rng):
    """Sends with the docket of this room or of the other, from a log that has the letter or lacks it, over a carrier on
    which it fits, one that is full and one for other seats."""
    seats, quota = small_room(rng, 2)
    s = Maker(rng, (seats, seats, rng.choice([1, seats - 1, seats + 1])), needed(seats, quota))
    for room in (0, 1):
        s.open_up(room, seats, quota)
    seat = rng.randrange(seats)
    other = rng.randrange(1, seats)
    s.fill(1, seat)
    s.make(call=calls.POST, seat=seat, **s.some_body())
    s.make(call=calls.POST, room=1, set=1, seat=other, **s.some_body())
    spoil_log(s, 1, seat)
    everything = ((0, 1), (0, 1), range(3), s.each_tables(0))
    for owner, tables_set, carrier, tables in s.shuffled(*everything, most=50):
        if sent_by_chance(s, owner, tables_set, carrier, tables):
            continue
        s.make(call=calls.SEND, owner=owner, set=tables_set, carrier=carrier, **tables)
    s.make(call=calls.PARK, owner=1)
    s.make(call=calls.SEND)
    s.make(call=calls.LOOK)
    s.make(call=calls.SEND, room=1, owner=1, set=1)
    return s


def sent_by_chance(s, owner, tables_set, carrier, tables):
    """Whether a send would go well: it is kept for the end."""
    return owner == 0 and tables_set == 0 and carrier == 0 and min(tables.values()) >= s.least(0)


def spoil_log(s, tables_set, seat):
    """Writes letters of other names over a seat's log in a set, as room 0 would find it there."""
    inside = s.inside(0)
    for at in range(sum(inside.seats[seat].clock)):
        poster = s.rng.choice([seat, (seat + 1) % 16])
        number = inside.seats[seat].clock[seat] + s.rng.choice([1, 256])
        s.make(call=calls.WRITE_LOG, set=tables_set, wide=seat * inside.places + at, **s.letter_of(poster, number))


def namesakes(rng):
    """A log in which the docket's letter stands among others of its name, or of parts of it: the first is sent."""
    seats, quota = rng.choice([(2, 4), (3, 3), (1, 5)])
    s = Maker(rng, (seats, seats, 1), needed(seats, quota))
    s.open_up(0, seats, quota)
    seat = rng.randrange(seats)
    for _ in range(quota - 1):
        s.post_and_send(0, seat)
        s.empty(0)
    s.make(call=calls.POST, seat=seat, **s.some_body())
    number = s.inside(0).seats[seat].clock[seat]
    for _ in range(rng.randrange(1, 4)):
        at = seat * s.inside(0).places + rng.randrange(quota + 1)
        poster = rng.choice([seat, seat, (seat + 1) % 16])
        if at < s.setting.places:
            fields = s.letter_of(poster, rng.choice([number, number, number + 1, number + 256]))
            s.make(call=calls.WRITE_LOG, wide=at, **fields)
    s.make(call=calls.SEND)
    s.make(call=calls.LOOK)
    for taker in range(seats):
        s.make(call=calls.DRAW, seat=taker)
    return s


def parking(rng):
    """Dockets parked at their room and at the other, collected, and what a post and a close answer meanwhile."""
    seats, quota = small_room(rng)
    s = Maker(rng, (seats, seats, 3), needed(seats, quota))
    for room in (0, 1):
        s.open_up(room, seats, quota)
    for _ in range(rng.randrange(8, 25)):
        room, hand, seat = rng.randrange(2), rng.randrange(2), s.some_seat(0)
        call = rng.choice([calls.POST, calls.PARK, calls.PARK, calls.COLLECT, calls.COLLECT, calls.SEND, calls.CLOSE])
        owner = rng.choice([room, room, 1 - room])
        s.make(call=call, room=room, set=room, hand=hand, owner=owner, seat=seat, **s.some_body())
    return s


def taking(rng):
    """Takes of letters that are strays, repeats or new, from every seat and place, with tables of every length, while the
    hold's letters are changed under it."""
    seats, quota = rng.choice([(2, 1), (2, 2), (2, 2), (3, 1), (3, 2), (4, 1)])
    s = Maker(rng, (seats, rng.choice([1, seats - 1, seats + 1]), seats), needed(seats, quota) + rng.randrange(2))
    s.open_up(0, seats, quota)
    taker = rng.randrange(seats)
    poster = (taker + 1) % seats
    s.make(call=calls.PUT, carrier=1, **s.letter_of(poster=0))
    for _ in range(rng.randrange(10, 26)):
        number = rng.choice([1, 1, quota, quota, quota + 1, quota + 256])
        s.make(call=calls.PUT, **s.letter_of(rng.choice([poster, rng.randrange(seats)]), number))
        if rng.random() < 0.3:
            place = rng.choice([0, 1, 2**16, 2**32 - 1])
            s.make(call=calls.TAKE, seat=s.some_seat(0), wide=place, carrier=rng.randrange(3), **s.some_tables(0))
        s.make(call=calls.TAKE, seat=rng.choice([taker, taker, rng.randrange(seats)]))
        spoil_hold(s, taker, 0.5)
        if rng.random() < 0.3:
            s.make(call=calls.SHOW, seat=taker)
    s.make(call=calls.LOOK)
    return s


def spoil_hold(s, seat, often):
    """Writes another letter over the last that is held."""
    inside = s.inside(0)
    held = inside.seats[seat].held
    if held and s.rng.random() < often:
        fields = s.near_letter(seat, 0) if s.rng.random() < 0.5 else s.letter_of()
        s.make(call=calls.WRITE_HOLD, wide=seat * inside.places + s.rng.randrange(held), **fields)


def refused_takes(rng):
    """Every two checks of a take that both fail, and of a show."""
    seats, quota = small_room(rng, 2)
    s = Maker(rng, (seats, rng.choice([1, seats + 1, 16]), seats), needed(seats, quota))
    s.open_up(0, seats, quota)
    for carrier in (0, 1):
        s.make(call=calls.PUT, carrier=carrier, **s.letter_of(poster=0, number=1))
    seat_choices = (0, seats - 1, seats, 16, 255)
    for seat, place, carrier, tables in s.shuffled(seat_choices, (0, 1, 2**32 - 1), range(3), s.each_tables(0)):
        s.make(call=calls.TAKE, seat=seat, wide=place, carrier=carrier, **tables)
    for seat, tables in s.shuffled(seat_choices, s.each_tables(0)):
        s.make(call=calls.SHOW, seat=seat, **tables)
    s.make(call=calls.LOOK)
    return s


def showing(rng):
    """Shows from holds that the caller has written letters into: ready ones, and such as are all but ready."""
    seats, quota = rng.choice([(2, 2), (2, 4), (3, 2), (3, 4), (4, 3), (16, 1)])
    s = Maker(rng, (seats, seats, 1), needed(seats, quota))
    s.open_up(0, seats, quota)
    seat = rng.randrange(seats)
    others = [poster for poster in range(seats) if poster != seat]
    for _ in range(rng.randrange(1, 2 * quota + 2)):
        s.make(call=calls.PUT, **s.letter_of(poster=rng.choice(others), number=rng.randrange(1, quota + 1)))
        s.make(call=calls.TAKE, seat=seat)
        s.empty(0)
    for _ in range(rng.randrange(4, 16)):
        spoil_hold(s, seat, 0.8)
        s.make(call=calls.SHOW, seat=seat, **s.some_tables(0))
        if rng.random() < 0.2:
            s.make(call=calls.LOOK)
    s.make(call=calls.LOG, seat=seat)
    s.make(call=calls.LOOK)
    return s


def crowding(rng):
    """A room as large as there can be."""
    s = Maker(rng, (16, 15, 16), needed(16, 16))
    s.open_up(0, 16, 16)
    for _ in range(30):
        seat = rng.randrange(16)
        fields = {"seat": seat, "logs": rng.choice([4096, 4096, ALL, 4095]), "holds": rng.choice([4096, 4096, ALL, 4095])}
        s.make(call=calls.POST, **fields, **s.some_body())
        s.make(call=calls.SEND, carrier=rng.choice([0, 0, 1, 2]))
        s.put_away(0)
        taker = rng.choice([count for count in range(16) if s.carriers[0].waits(count)] or [0])
        s.make(call=calls.TAKE, **{**fields, "seat": taker})
        s.make(call=calls.SHOW, **{**fields, "seat": taker})
    for seat in (0, 7, 15, 16):
        s.make(call=calls.DRAW_UP, seat=seat)
    s.make(call=calls.LOOK)
    return s


def drawing_up(rng):
    """Logs on sheets, of rooms whose logs may grow longer than a sheet has places; open and then closed."""
    seats, quota = rng.choice([(1, 128), (1, 129), (1, 256), (2, 64), (2, 65), (3, 3), (2, 4)])
    s = Maker(rng, (seats, 2, 3), needed(seats, quota) + rng.randrange(2), make=rng.choice([calls.LINES, calls.PAIR]))
    s.open_up(0, seats, quota)
    for _ in range(rng.randrange(6)):
        s.post_and_send(0, rng.randrange(seats))
        s.empty(0)
    for closing in range(2):
        every = ((calls.DRAW_UP, calls.LOG, calls.PAGES), (*range(seats), seats, 255), s.each_tables(0))
        for call, seat, tables in s.shuffled(*every, most=24):
            s.make(call=call, seat=seat, **tables)
        s.make(call=calls.WRITE_LOG, wide=rng.randrange(seats * quota), **s.letter_of())
        for seat in range(seats if closing == 0 else 0):
            s.make(call=calls.COLLECT, seat=seat)
            s.empty(0)
            s.make(call=calls.SEND)
        s.make(call=calls.CLOSE)
    return s


def paging(rng):
    """A log that grows past a page, with its page counts."""
    quota = rng.choice([25, 41, 60, 256])
    s = Maker(rng, (1, 2, 2), needed(1, quota))
    s.open_up(0, 1, quota)
    for _ in range(rng.choice([20, 21, 22, 41, 42])):
        s.make(call=calls.PAGES)
        s.post_and_send(0, 0)
    s.make(call=calls.PAGES)
    s.make(call=calls.LOG)
    s.make(call=calls.DRAW_UP)
    s.make(call=calls.CLOSE)
    for call in (calls.PAGES, calls.LOG, calls.DRAW_UP):
        s.make(call=call)
    return s


def filling_a_sheet(rng):
    """A sheet that is filled, and letters too many; lists that are longer than it has places."""
    body = rng.choice([calls.TEXT, calls.JOB])
    places = 256 if body == calls.TEXT else 128
    s = Maker(rng, (1, 2, 3), places + 2, body=body)
    for at in rng.sample(range(places + 2), 12):
        s.make(call=calls.WRITE_LOG, wide=at, **s.letter_of(poster=rng.randrange(3), number=rng.randrange(1, 4)))
    for length in rng.sample([0, 1, 20, 21, places - 1, places, places + 1, ALL], 5):
        s.make(call=calls.DRAW_UP_LIST, logs=length)
    s.make(call=calls.DRAW_UP_LIST, logs=rng.choice([places, places - 1]))
    for _ in range(3):
        s.make(call=calls.ENTER, **s.any_letter())
    s.make(call=calls.SHEET)
    s.make(call=calls.CLEAR)
    for _ in range(rng.randrange(10)):
        s.make(call=calls.ENTER, **s.letter_of(poster=rng.randrange(2), number=rng.randrange(1, 4)))
        s.make(call=calls.SHEET)
    return s


def files(rng):
    """Tables saved and loaded, and files that are damaged in between."""
    places = rng.choice([1, 3, 8, 42, 43])
    s = Maker(rng, (1, 2, 3), places)
    for at in rng.sample(range(places), min(places, 6)):
        s.make(call=calls.WRITE_LOG, set=0, wide=at, **s.letter_of())
    size = 96 * places
    sizes = (0, 1, 95, 96, size - 1, size, size + 1, 4096, 65535)
    for logs, number in s.shuffled((0, 1, places, ALL), sizes, most=8):
        s.make(call=calls.SAVE, logs=logs, number=number)
    s.make(call=calls.SAVE, number=ALL)
    for _ in range(rng.randrange(6)):
        read_file(s, sizes)
        damage_file(s, min(places, 42))
    read_file(s, sizes)
    return s


def read_file(s, sizes):
    readers = (calls.LOAD, calls.LOAD, calls.READ_RECORD, calls.READ_ALL)
    for call, logs, number in s.shuffled(readers, (0, 1, ALL), sizes, most=5):
        s.make(call=call, set=1, logs=logs, number=number)


def damage_file(s, records):
    start = RECORD_SIZE * s.rng.randrange(records)
    record = s.file[start : start + RECORD_SIZE]
    damaged = some.damage(s.rng, bytearray(record), 1)
    for at, byte in enumerate(damaged):
        if byte != record[at]:
            s.make(call=calls.WRITE_BYTE, number=start + at, first=byte)


def values(rng):
    """Texts, names, strikes, letters and carriers of any numbers."""
    s = Maker(rng, [rng.choice([1, 2, 2, 3]) for _ in range(3)], 20)
    makers = (calls.MAKE_TEXT, calls.MAKE_NAME, calls.MAKE_STRIKE, calls.MAKE_LETTER, calls.POST)
    for _ in range(25):
        s.make(call=rng.choice(makers), struck=some.pick(rng, (15, 16, 255), 0, 20), struck_number=rng.choice([0, 1, 65535]),
               first=some.pick(rng, (31, 32, 125, 126, 127), 0, 255), length=some.pick(rng, (0, 1, 60, 61), 0, 255),
               poster=some.pick(rng, (15, 16), 0, 20), stamp=tuple(rng.choice([0, 1, 65535]) for _ in range(16)),
               kind=rng.randrange(3), code=some.add(rng).code)
    for _ in range(12):
        seats, size = rng.choice([0, 1, 4, 5, 16, 17, 255]), rng.choice([0, 1, 4, 5, 2**31, 2**32 - 1])
        s.make(call=calls.CHECK_LINES, seat=seats, wide=size, logs=rng.choice([0, 1, 16, 20]))
        s.make(call=calls.CHECK_SPOOL, seat=rng.choice([0, 1, 16, 17, 255]), number=rng.choice([0, 97, 98, 4096, 65535]))
        s.make(call=calls.CHECK_PAIR, carrier=rng.randrange(3))
    return s


def putting(rng):
    """Puts and draws on carriers, one by one and in turn."""
    s = Maker(rng, [rng.choice([1, 2, 3, 5, 16]) for _ in range(3)], rng.choice([4, 20]))
    for _ in range(rng.randrange(20, 40)):
        carrier = rng.randrange(3)
        seats = s.carriers[carrier].seats
        seat = rng.choice([rng.randrange(seats), seats, rng.randrange(16), 255])
        fields = s.letter_of(rng.choice([rng.randrange(seats), rng.randrange(16), min(seat, 15)]))
        call = rng.choice([calls.PUT, calls.PUT, calls.DRAW, calls.DRAW, calls.PUT_AND_DRAW, calls.OVER_LINES, calls.LOOK])
        fields["struck"] = rng.choice([0, 1, 2, 3, 4, 17])
        s.make(call=call, carrier=carrier, seat=seat, wide=rng.choice([0, 0, 1, 2, 3, 2**32 - 1]),
               logs=rng.choice([0, 3, 4, 8, ALL]), **fields)
    carrier = rng.randrange(3)
    seats = s.carriers[carrier].seats
    poster = rng.randrange(seats)
    s.fill(carrier, poster)
    for seat in (poster, (poster + 1) % seats, seats, 255):
        s.make(call=calls.PUT_AND_DRAW, carrier=carrier, seat=seat, **s.letter_of(poster=poster))
    for carrier in range(3):
        s.make(call=calls.LOOK, carrier=carrier)
    return s


def refused_carriers(rng):
    """A carrier that cannot be made: nothing else is done."""
    seats = rng.choice([0, 1, 3, 16, 17, 255])
    carriages = [any_carriage(rng, 2) for _ in range(3)]
    letters = rng.choice([0, seats, max(2 * seats - 1, 0)])
    carriages[rng.randrange(3)] = Carriage(seats, rng.choice([seats, seats, 2, 0, 17]), rng.choice([0, 1, 2]), letters,
                                           rng.choice([0, 97, 98, 196]))
    body, make = rng.choice([calls.TEXT, calls.JOB]), rng.choice([calls.LINES, calls.SPOOL, calls.PAIR])
    s = Script(Setting(body, make, 4, tuple(carriages)))
    s.make(call=calls.LOOK)
    return s


# Scripts of any calls


def living(rng):
    """Two rooms at work, at which most calls go well."""
    rooms = [small_room(rng), small_room(rng)]
    seats = rooms[0][0], rooms[1][0], rng.choice([1, 2, 3])
    s = Maker(rng, seats, max(needed(*room) for room in rooms) + rng.randrange(3))
    for room, (seats, quota) in enumerate(rooms):
        s.open_up(room, seats, quota, carrier=room)
    for _ in range(rng.randrange(20, 70)):
        live(s, rng.randrange(2))
    return end_of_life(s)


def live(s, room):
    """One call at a room, of which mostly nothing is wrong."""
    rng = s.rng
    brought = s.some_tables(room) if rng.random() < 0.2 else {}
    fields = {"room": room, "owner": room, "set": room, "carrier": room, "hand": rng.randrange(2)}
    fields.update(seat=s.some_seat(room), **brought)
    if rng.random() < 0.1:
        fields[rng.choice(["owner", "set", "carrier"])] = 1 - room
    if isinstance(s.rooms[room], Closed):
        s.make(call=rng.choice([calls.LOG, calls.PAGES, calls.DRAW_UP, calls.POST]), **fields)
    elif s.hands[room][fields["hand"]] and rng.random() < 0.7:
        s.make(call=rng.choice([calls.SEND, calls.SEND, calls.SEND, calls.PARK]), **fields)
    else:
        move(s, fields)


def move(s, fields):
    rng = s.rng
    call = rng.choice([*3 * [calls.POST, calls.TAKE, calls.SHOW], calls.COLLECT, calls.DRAW_UP, calls.LOG, calls.PAGES,
                       calls.LOOK, calls.WRITE_LOG, calls.WRITE_HOLD, calls.PUT, calls.CLOSE])
    if call in (calls.WRITE_LOG, calls.WRITE_HOLD, calls.PUT):
        s.make(call=call, wide=rng.randrange(s.setting.places), **fields, **s.any_letter())
    elif call == calls.POST:
        s.make(call=call, **fields, **s.some_body())
    else:
        waits = s.carriers[fields["carrier"]].waits(fields["seat"])
        s.make(call=call, wide=rng.choice([0, rng.randrange(waits + 1)]), **fields)


def end_of_life(s):
    """The rooms are closed, if they let themselves be, and read."""
    for room in (0, 1):
        for hand in (0, 1):
            if s.hands[room][hand]:
                s.make(call=calls.SEND, room=room, owner=room, set=room, carrier=room, hand=hand)
        s.make(call=calls.CLOSE, room=room)
        for call in s.rng.sample([calls.LOG, calls.PAGES, calls.DRAW_UP], 3):
            s.make(call=call, room=room, set=room, seat=s.rng.randrange(3), **s.some_tables(room))
    return s


def anything(rng):
    """Calls of any numbers."""
    s = Maker(rng, [rng.choice([1, 2, 2, 3]) for _ in range(3)], rng.choice([4, 8, 12]))
    for room in (0, 1):
        if rng.random() < 0.8:
            s.open_up(room, rng.choice([1, 2, 2]), rng.choice([1, 2]), carrier=rng.randrange(3))
    for _ in range(rng.randrange(20, 60)):
        call = rng.choice([*range(1, 39), *range(5, 11), 0, 39, 255])
        logs, holds = (rng.choice([4, 8, ALL, ALL, rng.randrange(10)]) for _ in range(2))
        s.make(call=call, room=rng.randrange(2), set=rng.randrange(2), carrier=rng.randrange(3), hand=rng.randrange(2),
               owner=rng.randrange(2), seat=rng.choice([0, 0, 1, 1, 2, 16, 255]), logs=logs, holds=holds,
               wide=rng.choice([0, 0, 1, 2, 2**32 - 1, rng.randrange(2**32)]),
               number=rng.choice([0, 1, 2, 96, 192, 256, 65535, rng.randrange(5000)]), **s.any_letter())
    return s


# Each maker, and how many scripts of it there are.
SCRIPTS = {
    opening: 250, waiting_before_seats: 100, enrolling: 150, posting: 250, posting_the_last: 100, sending: 400,
    namesakes: 150, parking: 250, taking: 500, refused_takes: 250, showing: 400, crowding: 30, drawing_up: 200, paging: 60,
    filling_a_sheet: 60, files: 300, values: 200, putting: 350, refused_carriers: 150, living: 800, anything: 700,
}
