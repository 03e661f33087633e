#!/usr/bin/env python3
"""Misuses of drafts, rooms and dockets that the check turns down, each beside a twin that it accepts.

usage: check_misuse.py

Posting to a draft does not compile; one opens it first. Letting a docket fall does not compile; one sends or parks it. Nor
does what only the crate of rooms may do: to make a docket, to change one, to take one apart, to send a letter by the numbers
of its docket, to write a room's seat. Nor does to spend a docket twice, to enrol in an open room, to work a closed one.

The crates are made in a temporary folder, over copies of the crates that they stand on. Each misuse is a function in a crate
of its own, and `rt check` must refuse it first at the line and for the item that are named here. An item of the crate of rooms
that nobody else may use is refused as private where the checker reads the sources of that crate, and as unknown where it reads
only what a check of it left on the machine; either is a refusal of that item, which the crate must have and keep to itself.
The twins do the same without the misuse. They stand in one crate, which `rt ci` must prove.
"""

import re
import shutil
import subprocess
import sys
import tempfile
from dataclasses import dataclass
from pathlib import Path

HOME = Path(__file__).resolve().parent.parent
ERROR = re.compile(r"^(?P<file>\S+\.rt):(?P<line>\d+):\d+: error\[(?P<code>[\w-]+)\]: (?P<words>.*)$", re.M)

# What the checker calls the refusal of an item that the caller may not use, of one that the type has not, of a value that may
# not be let go, and of one that was moved already.
HIDDEN = {"private-field", "private-item", "unknown-method"}
UNKNOWN = {"unknown-method"}
LET_FALL = {"linear-value-let-go"}
MOVED = {"borrow-e0382"}


@dataclass
class Function:
    """A function: what its crate uses, its parameters and result, and the lines of its body."""

    uses: list
    signature: str
    body: list

    def text(self, name):
        uses = "".join(f"use {used};\n" for used in sorted(set(self.uses)))
        body = "".join(f"    {line}\n" for line in self.body)
        return f"{uses}\npub fn {name}{self.signature} {{\n{body}}}\n"


@dataclass
class Misuse:
    """A function that must be refused at the line `wrong` of its body, for `item`, and its twin."""

    name: str
    function: Function
    wrong: int
    item: str
    codes: set
    twin: Function

    def source(self):
        return f"// A misuse.\n#![tactic(auto)]\n\n{self.function.text('misuse')}"

    def wrong_line(self):
        """Where the wrong line stands in the source, counted from 1. The body ends with the brace behind it."""
        return len(self.source().splitlines()) - len(self.function.body) + self.wrong

    def is_refused(self, status, said):
        first = ERROR.search(said)
        return (
            status == 1
            and first is not None
            and (first["file"], int(first["line"])) == ("src/lib.rt", self.wrong_line())
            and first["code"] in self.codes
            and f"`{self.item}`" in first["words"]
            and (self.codes is not HIDDEN or first["code"] == "private-field" or is_hidden(self.item))
        )


def is_hidden(item):
    """Whether the crate of rooms has functions of this name, and none that another crate may call."""
    sources = "\n".join(path.read_text() for path in sorted((HOME / "crates" / "rooms" / "src").rglob("*.rt")))
    heads = re.findall(rf"^\s*(pub(?:\(crate\))? |)fn {item}\b", sources, re.M)
    return bool(heads) and "pub " not in heads


def function(uses, signature, *body):
    return Function(uses, signature, list(body))


def signature(result, *parameters):
    """Parameters and result, laid out as the gate wants it."""
    line = f"({', '.join(parameters)}){result}"
    if len(line) < 70:
        return line
    return "(\n" + "".join(f"    {it},\n" for it in parameters) + f"){result}"


DOCKET = ["rooms::docket::Docket"]
DOCKET_ID = [*DOCKET, "seats::docket_id::DocketId"]
ROOM = ["rooms::room::Room"]
REFUSAL = ["letters::refusal::Refusal"]
LETTERS = ["letters::job::Job", "letters::letter::Letter"]
LINES = [*LETTERS, "carriers::lines::Lines"]
RETURNED = ["rooms::docket::{Docket, Returned}"]
CLOSED = ["rooms::closed::ClosedRoom"]
ENDED = ["rooms::ended::Ended", "rooms::room::Room"]
OUT = ["rooms::out_dockets::OutDockets"]

LOGS = "logs: &mut [Letter<Job>]"
HOLDS = "holds: &mut [Letter<Job>]"
READ_LOGS = "logs: &[Letter<Job>]"
READ_HOLDS = "holds: &[Letter<Job>]"
ON_LINES = "lines: &mut Lines<Job>"
POST = "room.post(logs, holds, 0, Job::Add(7))"

READ_NUMBER = function(DOCKET, "(docket: &Docket) -> u16", "docket.number()")
READ_ID = function(DOCKET_ID, "(docket: &Docket) -> DocketId", "docket.id()")
CHECK_CLOSE = function([*ROOM, *REFUSAL], "(room: &Room) -> Result<(), Refusal>", "room.check_close()")


def post_first(room):
    """The first post of a room; `room` is what of the draft it is made at."""
    return function(
        [*LINES, *DOCKET, *REFUSAL, "rooms::draft::Draft"],
        signature(" -> Result<Docket, Refusal>", "draft: Draft", LOGS, READ_HOLDS, "lines: &Lines<Job>"),
        "draft.check_open(logs, holds, lines)?;",
        f"let mut room = {room};",
        POST,
    )


def send(refused):
    """A send, and what is done with a docket that comes back."""
    return function(
        [*LINES, *RETURNED, *ROOM],
        signature(" -> Result<(), Returned>", "room: &mut Room", READ_LOGS, READ_HOLDS, ON_LINES, "docket: Docket"),
        "match room.send(logs, holds, lines, docket) {",
        "    Ok(()) => Ok(()),",
        f"    {refused}",
        "}",
    )


def park(*lines):
    return function([*RETURNED, *ROOM], "(room: &mut Room, docket: Docket) -> Result<(), Returned>", *lines)


def step(uses, result, call):
    """One step of a room on lines."""
    return function([*LINES, *ROOM, *uses], signature(result, "room: &mut Room", LOGS, HOLDS, ON_LINES), call)


def post_at(uses, room):
    return function(
        [*LETTERS, *DOCKET, *REFUSAL, *uses],
        signature(" -> Result<Docket, Refusal>", f"room: &mut {room}", LOGS, READ_HOLDS),
        POST,
    )


MISUSES = [
    Misuse("draft_posted_to", post_first("draft"), 2, "post", UNKNOWN, post_first("draft.open(logs, holds, lines)")),
    Misuse(
        "docket_let_fall",
        send("Err(_) => Ok(()),"),
        0,
        "Returned",
        LET_FALL,
        send("Err(Returned { docket, refusal: _ }) => room.park(docket),"),
    ),
    Misuse(
        "ended_let_fall",
        function(ENDED, "(room: Room, ended: Ended) -> Room", "let _end = ended;", "room"),
        0,
        "Ended",
        LET_FALL,
        function(ENDED, "(ended: Ended) -> Room", "ended.park_all()"),
    ),
    Misuse(
        "out_dockets_let_fall",
        function(ENDED, "(ended: Ended) -> Room", "let Ended { room, dockets: _ } = ended;", "room"),
        0,
        "OutDockets",
        LET_FALL,
        function(
            [*ENDED, *OUT, *DOCKET],
            "(ended: Ended) -> (Room, Option<(Docket, OutDockets)>)",
            "let Ended { room, dockets } = ended;",
            "(room, dockets.next())",
        ),
    ),
    Misuse(
        "out_dockets_made",
        function(OUT, "() -> OutDockets", "OutDockets { ids: Default::default() }"),
        0,
        "ids",
        HIDDEN,
        function(OUT, "(dockets: OutDockets) -> OutDockets", "dockets"),
    ),
    Misuse(
        "docket_made",
        function(DOCKET, "(number: u16) -> Docket", "Docket { room: 1, seat: 0, number }"),
        0,
        "room",
        HIDDEN,
        function(DOCKET, "(docket: Docket) -> Docket", "docket"),
    ),
    Misuse("docket_made_of_its_id", function(DOCKET_ID, "(docket_id: DocketId) -> Docket", "Docket::of(docket_id)"), 0, "of", HIDDEN, READ_ID),
    Misuse(
        "docket_taken_apart",
        function(DOCKET, "(docket: Docket) -> u16", "let Docket { room: _, seat: _, number } = docket;", "number"),
        0,
        "room",
        HIDDEN,
        READ_NUMBER,
    ),
    Misuse(
        "docket_turned_into_its_id",
        function(DOCKET_ID, "(docket: Docket) -> DocketId", "docket.into_id()"),
        0,
        "into_id",
        HIDDEN,
        READ_ID,
    ),
    *[
        Misuse(
            f"docket_{field}_changed",
            function(DOCKET, "(docket: &mut Docket)", f"docket.{field} = 1;"),
            0,
            field,
            HIDDEN,
            READ_NUMBER,
        )
        for field in ("room", "seat", "number")
    ],
    Misuse(
        "docket_noted_from_outside",
        function([*ROOM, "seats::seat::DocketEvent"], "(room: &mut Room)", "room.record_docket_event(0, DocketEvent::Send);"),
        0,
        "record_docket_event",
        HIDDEN,
        CHECK_CLOSE,
    ),
    Misuse(
        "seat_stored_from_outside",
        function([*ROOM, "seats::seat::Seat"], "(room: &mut Room, seat: Seat)", "room.store_seat(0, seat);"),
        0,
        "store_seat",
        HIDDEN,
        CHECK_CLOSE,
    ),
    Misuse(
        "letter_sent_by_numbers",
        step(
            [*REFUSAL, "lives::operation::Operation", "lives::response::Response", "seats::docket_id::DocketId"],
            " -> Result<Response<DocketId>, Refusal>",
            "room.step(logs, holds, lines, Operation::Send(DocketId { room: 1, seat: 0, number: 1 }))",
        ),
        0,
        "step",
        HIDDEN,
        step(
            [*DOCKET, "lives::operation::Operation", "lives::response::Response", "rooms::declined::Declined"],
            " -> Result<Response<Docket>, Declined>",
            "room.make(logs, holds, lines, Operation::Show(0))",
        ),
    ),
    Misuse(
        "seats_changed_from_outside",
        function([*ROOM, "seats::seat::Seat"], "(room: &mut Room, seat: Seat)", "room.seats = [seat; 16];"),
        0,
        "seats",
        HIDDEN,
        CHECK_CLOSE,
    ),
    Misuse(
        "docket_parked_twice",
        park("room.park(docket)?;", "room.park(docket)"),
        1,
        "docket",
        MOVED,
        park("room.park(docket)"),
    ),
    Misuse(
        "open_room_enrolled_in",
        function([*REFUSAL, *ROOM], "(room: &mut Room) -> Result<u8, Refusal>", "room.enrol(7)"),
        0,
        "enrol",
        UNKNOWN,
        function([*REFUSAL, "rooms::draft::Draft"], "(draft: &mut Draft) -> Result<u8, Refusal>", "draft.enrol(7)"),
    ),
    Misuse("closed_room_posted_to", post_at(CLOSED, "ClosedRoom"), 0, "post", UNKNOWN, post_at(ROOM, "Room")),
    Misuse(
        "room_taken_out_of_a_closed_one",
        function([*CLOSED, *ROOM], "(closed: ClosedRoom) -> Room", "let ClosedRoom { room } = closed;", "room"),
        0,
        "room",
        HIDDEN,
        function([*CLOSED, *REFUSAL], "(closed: &ClosedRoom) -> Result<u32, Refusal>", "closed.pages(0)"),
    ),
]


def crates_below(name):
    """The crate and all crates of this repository that it stands on, each with its line of crates.txt."""
    lines = (HOME / "crates.txt").read_text().splitlines()
    listed = {line.split(":")[0]: line for line in lines if line and not line.startswith("#")}
    below, todo = {}, [name]
    while todo:
        crate = todo.pop()
        # What is not listed, arrayvec, is a library of the toolchain.
        if crate in listed and crate not in below:
            below[crate] = listed[crate]
            todo += listed[crate].split(":")[1].split()
    return below


def write_crates(folder, crates):
    """Writes crates, each with its files, and the list of all that stand in the folder."""
    below = crates_below("rooms")
    for name, files in crates.items():
        source = folder / "crates" / name / "src"
        source.mkdir(parents=True)
        for file, text in files.items():
            (source / file).write_text(text)
    listed = [f"{name}: {' '.join(below)}" for name in crates]
    (folder / "crates.txt").write_text("\n".join([*below.values(), *listed]) + "\n")


def prepare(folder):
    """Copies the crates below. Their edits are tried elsewhere."""
    for name in crates_below("rooms"):
        shutil.copytree(HOME / "crates" / name, folder / "crates" / name, ignore=shutil.ignore_patterns("out", "must-fail"))
    (folder / ".git").mkdir()


def said_by(words, place):
    done = subprocess.run(["rt", *words], cwd=place, stdout=subprocess.PIPE, stderr=subprocess.STDOUT, text=True)
    return done.returncode, done.stdout


def report(name, good, line, said):
    print(f"{'ok' if good else 'FAILED'}: {name}: {line}", flush=True)
    if not good:
        print(said)
    return good


def check_twins(folder):
    """Whether all twins are proved, each in a module of its own."""
    files = {f"{misuse.name}.rt": f"// A twin.\n{misuse.twin.text('twin')}" for misuse in MISUSES}
    modules = "".join(f"pub mod {misuse.name};\n" for misuse in sorted(MISUSES, key=lambda it: it.name))
    write_crates(folder, {"twins": {"lib.rt": f"// The twins.\n#![tactic(auto)]\n\n{modules}", **files}})
    said_by(["fmt"], folder / "crates" / "twins")
    status, said = said_by(["ci"], folder)
    # in this run, or in an earlier one of the same files
    proved = status == 0 and re.search(r"^rt: twins (?:proved$|is kept:)", said, re.M) is not None
    good = report("twins", proved, "proved" if proved else "not proved", said)
    shutil.rmtree(folder / "crates" / "twins")
    return [good] * len(MISUSES)


def check_misuses(folder):
    """Whether each misuse is refused where it must be."""
    write_crates(folder, {misuse.name: {"lib.rt": misuse.source()} for misuse in MISUSES})
    results = []
    for misuse in MISUSES:
        status, said = said_by(["check"], folder / "crates" / misuse.name)
        first = ERROR.search(said)
        results.append(report(misuse.name, misuse.is_refused(status, said), first[0] if first else "no error", said))
    return results


def main():
    if len(sys.argv) != 1:
        print(__doc__)
        return 2
    with tempfile.TemporaryDirectory() as place:
        folder = Path(place).resolve()
        prepare(folder)
        results = [*check_twins(folder), *check_misuses(folder)]
    failed = results.count(False)
    print(f"{len(results) - failed} passed, {failed} failed")
    return 1 if failed else 0


if __name__ == "__main__":
    sys.exit(main())
