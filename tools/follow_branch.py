"""Follows a run of the program `branch` by its steps and the lines that it printed, for tools/picture.py.

The rules of a room give the stamps, what a held letter waits for, and what each line must be. The carrier of `branch` brings no
repeat and no stray letter; where a line tells of one, the carrier is taken to have done what the lines tell, and only the rest
is held to the rules.
"""

import re
import sys
from pathlib import Path
from types import SimpleNamespace

sys.path.insert(0, str(Path(__file__).resolve().parent.parent / "tests"))
from branch_model import QUOTA, SEATS, STEP, WORDS, Branch, Letter, Refused, Room, named
from shared import shown


class Misfit(Exception):
    """Lines that do not fit the steps."""


def name_of(word):
    """The name of a letter, as the program prints it, or None."""
    if not re.fullmatch(r"(0|[1-9][0-9]?)\.[1-9][0-9]{0,4}", word):
        return None
    poster, number = (int(part) for part in word.split("."))
    return (poster, number) if poster < 16 and number < 65536 else None


def told_by(line):
    """What came of a step, and the letter's name."""
    words = line.split(" ")
    return (words[3], name_of(words[4])) if len(words) == 5 else ("", None)


class ToldCarrier:
    """A carrier that does what the lines tell. It brings letters that were sent, and strays that no seat can have posted."""

    def __init__(self):
        self.told = ("", None)
        self.sent = {}

    def put(self, letter):
        if self.told[0] == "parked":
            raise Refused(11)
        self.sent[letter.name] = letter

    def draw(self, seat, place):
        if seat >= SEATS:
            raise Refused(8)
        what, name = self.told
        if what not in ("held", "repeat", "stray") or name is None:
            raise Refused(14)
        if name in self.sent:
            return self.sent[name]
        if name[0] < SEATS and name[1] <= QUOTA:
            raise Misfit(f"{named(name)} was taken, and was not sent before")
        return Letter(name[0], [name[1]] * 16, None)


def missing(letter, clock):
    """The names of what led to the letter and is not in the log of the seat with this clock."""
    last = [entry - (seat == letter.poster) for seat, entry in enumerate(letter.stamp)]
    return [(seat, number) for seat in range(SEATS) for number in range(clock[seat] + 1, last[seat] + 1)]


class Run:
    """A run that is followed: its steps, and what begins at one step and ends at a later one."""

    def __init__(self, carrier):
        self.branch = Branch()
        self.carrier = carrier
        if carrier:
            self.branch.room = Room(SEATS, QUOTA, carrier)
        self.steps = []
        self.bad = None  # the step at which the program read no further
        self.sent = {}  # for the name of a letter, the index of the step that sent it
        self.ways = []  # of letters, from the step that sent them to the take
        self.keeps = []  # of letters in a hold, until they are shown
        self.parks = []  # of dockets, until they are collected and sent

    @property
    def boxes(self):
        return self.branch.room.seats

    def held(self, seat):
        return [keep for keep in self.keeps if keep.seat == seat and keep.end is None]

    def missing(self, seat, letter):
        return missing(letter, self.boxes[seat].clock)

    def posted(self, name):
        return next(letter for letter in self.boxes[name[0]].log if letter.name == name)

    def waiting(self, seat):
        """The names of the letters that were sent and never taken at the seat."""
        taken = {way.name for way in self.ways if way.seat == seat}
        return [name for name in self.sent if name[0] != seat and name not in taken]

    def printed(self, step, line):
        """Makes the step, and answers the line that it prints."""
        index = len(self.steps)
        if self.carrier:
            self.carrier.told = told_by(line)
        try:
            return f"{index} {self.branch.step_line(step)}"
        except Misfit as error:
            raise Misfit(f"line {index + 1} does not fit the steps: {error}") from None

    def add(self, data, line):
        hold_to(len(self.steps), self.printed(data, line), line)
        _, call, seat, came, value = line.split(" ")
        step = SimpleNamespace(index=len(self.steps), line=line, call=call, seat=int(seat), came=came, value=value)
        step.name = None if came == "refused" else name_of(value)
        step.letter, step.waits = None, []
        self.steps.append(step)
        NOTE[came](self, step)

    def note_sent(self, step):
        step.letter = self.posted(step.name)
        self.sent[step.name] = step.index
        for park in self.parks:
            if park.name == step.name:
                park.end = step.index

    def note_parked(self, step):
        step.letter = self.posted(step.name)
        if step.call == "post":
            self.parks.append(SimpleNamespace(name=step.name, seat=step.seat, start=step.index, end=None))

    def note_taken(self, step):
        if step.name in self.sent and step.name[0] != step.seat:
            step.letter = self.posted(step.name)
            start = self.sent[step.name]
            self.ways.append(SimpleNamespace(name=step.name, seat=step.seat, start=start, end=step.index, came=step.came))

    def note_held(self, step):
        self.note_taken(step)
        names = self.missing(step.seat, step.letter)
        step.waits = [(step.name, names)]
        used = [keep.lane for keep in self.held(step.seat)]
        lane = next(lane for lane in range(len(used) + 1) if lane not in used)
        keep = SimpleNamespace(letter=step.letter, seat=step.seat, lane=lane, start=step.index, end=None)
        keep.ready = None if names else step.index
        self.keeps.append(keep)

    def note_shown(self, step):
        step.letter = self.posted(step.name)
        for keep in self.held(step.seat):
            if keep.letter.name == step.name:
                keep.end = step.index
            elif keep.ready is None and not self.missing(step.seat, keep.letter):
                keep.ready = step.index

    def note_refused(self, step):
        if step.value == "15":
            step.waits = [(keep.letter.name, self.missing(step.seat, keep.letter)) for keep in self.held(step.seat)]


NOTE = {
    "sent": Run.note_sent,
    "parked": Run.note_parked,
    "held": Run.note_held,
    "repeat": Run.note_taken,
    "stray": Run.note_taken,
    "shown": Run.note_shown,
    "refused": Run.note_refused,
}


def hold_to(index, expected, line):
    if line != expected:
        raise Misfit(f"line {index + 1} is {shown(line)}; for these steps it would be '{expected}'")


def next_line(lines, index):
    line = next(lines, None)
    if line is None:
        raise Misfit(f"line {index + 1} is missing: the lines end before the run does")
    return line


def add_steps(run, data, lines):
    """Follows the steps to their end, or to one that is bad. Answers how many lines they printed."""
    for index, at in enumerate(range(0, len(data), STEP)):
        line = next_line(lines, index)
        step = data[at : at + STEP]
        if len(step) < STEP or step[0] not in WORDS:
            hold_to(index, f"{index} bad", line)
            run.bad = SimpleNamespace(line=line, bytes=step)
            return index + 1
        run.add(step, line)
    return len(run.steps)


def follow(data, lines):
    """The run of these steps that printed these lines."""
    told = any(told_by(line)[0] in ("repeat", "stray") for line in lines)
    run, lines = Run(ToldCarrier() if told else None), iter(lines)
    count = add_steps(run, data, lines)
    for index, (seat, box) in enumerate(enumerate(run.boxes), count):
        log = " ".join(["log", str(seat)] + [named(letter.name) for letter in box.log])
        hold_to(index, log, next_line(lines, index))
    if next(lines, None) is not None:
        raise Misfit(f"line {count + SEATS + 1} is one too many: the run ends before it")
    return run
