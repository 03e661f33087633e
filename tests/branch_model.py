"""A model of rooms, lines and the program `branch`, written from docs/RULES.md, docs/REFUSALS.md and docs/PROGRAMS.md."""

SEATS = 3
QUOTA = 4
PLACES = 4  # of a queue
STEP = 8  # bytes

WORDS = {1: "post", 2: "collect", 3: "take", 4: "show"}


class Refused(Exception):
    """A no, with its number."""

    def __init__(self, number):
        super().__init__(number)
        self.number = number


class Letter:
    def __init__(self, poster, stamp, body):
        self.poster = poster
        self.stamp = tuple(stamp)
        self.body = body

    @property
    def number(self):
        return self.stamp[self.poster]

    @property
    def name(self):
        return self.poster, self.number


class Lines:
    """A queue for each seat."""

    def __init__(self, seats, places):
        self.seats = seats
        self.places = places
        self.queues = [[] for _ in range(seats)]

    def fits(self, poster):
        return all(len(queue) < self.places for seat, queue in enumerate(self.queues) if seat != poster)

    def put(self, letter):
        if letter.poster >= self.seats:
            raise Refused(8)
        if not self.fits(letter.poster):
            raise Refused(11)
        for seat, queue in enumerate(self.queues):
            if seat != letter.poster:
                queue.append(letter)

    def draw(self, seat, place):
        if seat >= self.seats:
            raise Refused(8)
        if place >= len(self.queues[seat]):
            raise Refused(14)
        return self.queues[seat].pop(place)


class Seat:
    def __init__(self, seats):
        self.clock = [0] * seats
        self.log = []
        self.hold = []
        self.docket = "clear"


class Room:
    """An open room on a carrier. A docket is a letter's name."""

    def __init__(self, seats, quota, carrier):
        self.count = seats
        self.quota = quota
        self.carrier = carrier
        self.seats = [Seat(seats) for _ in range(seats)]

    def seat(self, seat):
        if seat >= self.count:
            raise Refused(8)
        return self.seats[seat]

    def post(self, seat, body):
        box = self.seat(seat)
        if box.docket != "clear":
            raise Refused(10)
        if box.clock[seat] == self.quota:
            raise Refused(9)
        box.clock[seat] += 1
        box.log.append(Letter(seat, box.clock, body))
        box.docket = "out"
        return seat, box.clock[seat]

    def box_of(self, docket):
        """The box at which the docket is out."""
        seat, number = docket
        if seat >= self.count or self.seats[seat].docket != "out" or self.seats[seat].clock[seat] != number:
            raise Refused(12)
        return self.seats[seat]

    def send(self, docket):
        box = self.box_of(docket)
        letters = [letter for letter in box.log if letter.name == docket]
        if not letters:
            raise Refused(19)
        self.carrier.put(letters[0])
        box.docket = "clear"

    def park(self, docket):
        self.box_of(docket).docket = "parked"

    def collect(self, seat):
        box = self.seat(seat)
        if box.docket != "parked":
            raise Refused(13)
        box.docket = "out"
        return seat, box.clock[seat]

    def take(self, seat, place):
        letter = self.carrier.draw(seat, place)
        box = self.seats[seat]
        poster, number = letter.name
        if poster >= self.count or poster == seat or number > self.quota or len(box.hold) >= self.count * self.quota:
            return "stray", letter.name
        if box.clock[poster] >= number or any(held.name == letter.name for held in box.hold):
            return "repeat", letter.name
        box.hold.append(letter)
        return "held", letter.name

    def is_ready(self, seat, letter):
        clock = self.seats[seat].clock
        poster, number = letter.name
        if poster >= self.count or poster == seat or number > self.quota or number != clock[poster] + 1:
            return False
        return all(entry <= clock[at] for at, entry in enumerate(letter.stamp) if at != poster)

    def show(self, seat):
        box = self.seat(seat)
        for at, letter in enumerate(box.hold):
            if self.is_ready(seat, letter):
                del box.hold[at]
                box.log.append(letter)
                box.clock[letter.poster] = letter.number
                return letter.name
        raise Refused(15)


def named(name):
    poster, number = name
    return f"{poster}.{number}"


def body_of(step):
    """The job of a post."""
    if step[2] == 1:
        return "add", int.from_bytes(step[4:8], "little")
    if step[2] == 2:
        poster, number = step[3], int.from_bytes(step[4:6], "little")
        if poster > 15 or number == 0:
            raise Refused(20)
        return "strike", poster, number
    raise Refused(20)


class Branch:
    """The program: a room, and how often each outcome and each refusal came."""

    def __init__(self):
        self.room = Room(SEATS, QUOTA, Lines(SEATS, PLACES))
        self.counts = {}

    def count(self, what):
        self.counts[what] = self.counts.get(what, 0) + 1

    def dispatch(self, docket):
        try:
            self.room.send(docket)
            return f"sent {named(docket)}"
        except Refused as no:
            self.count(f"send refused {no.number}")
            self.room.park(docket)
            return f"parked {named(docket)}"

    def outcome(self, step):
        call, seat = step[0], step[1]
        if call == 1:
            return self.dispatch(self.room.post(seat, body_of(step)))
        if call == 2:
            return self.dispatch(self.room.collect(seat))
        if call == 3:
            what, name = self.room.take(seat, int.from_bytes(step[2:4], "little"))
            return f"{what} {named(name)}"
        return f"shown {named(self.room.show(seat))}"

    def step_line(self, step):
        word = WORDS[step[0]]
        try:
            came = self.outcome(step)
            self.count(f"{word} {came.split()[0]}")
        except Refused as no:
            came = f"refused {no.number}"
            self.count(f"{word} {came}")
        return f"{word} {step[1]} {came}"

    def run(self, data):
        """All lines for the input."""
        lines = []
        for index, at in enumerate(range(0, len(data), STEP)):
            step = data[at : at + STEP]
            if len(step) < STEP or step[0] not in WORDS:
                self.count("short step" if len(step) < STEP else "other call")
                lines.append(f"{index} bad")
                break
            lines.append(f"{index} {self.step_line(step)}")
        for seat, box in enumerate(self.room.seats):
            lines.append(" ".join(["log", str(seat)] + [named(letter.name) for letter in box.log]))
        return lines
