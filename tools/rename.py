#!/usr/bin/env python3
"""Turns the older names of this repository into those of today, in a checkout or in a branch that was begun on the older ones.

usage: python3 tools/rename.py [ROOT]

The lists below say what is turned. It works on the text alone: crates/, and in README.md and docs/ what stands between
backticks. History stays as it is (docs/history). A second run finds nothing. `rt fmt` lays the files out afterwards, and
`rt check` proves them. It prints how many words were turned, and what is to be looked at: names of today that stood there
before, and places that bind a word that was turned.

SPECS    definitions of specs/: `crate.Module: old new, old new`. A definition is turned where it stands and in every file that
         imports it from there, and no other word of its spelling is.
MODULES  files of specs/: `crate.Module new`
CODE     words of the code, in every file of the crates named: `crates: old new, old new`, also as parts of the names that the
         checker makes of them (`loop-desk-smaller`)
PATHS    files and folders of src/ and proofs/: `old new`
COMMENTS words of comments, in the crates named
"""

import re
import sys
from pathlib import Path

SPECS = """
letters.Refusals: told as_answer, reason reason_of
letters.Names: name name_from
letters.Jobs: Said JobContent, said content_of_job
letters.Lists: Apart NoPair
letters.Logs: Once NoDuplicates, Ordered CausallyOrdered
letters.Forms: Lawful LawfulForm
letters.Listed: listed written_out, items elements_from
letters.Same: same_letter equal_letters, same_id equal_ids, same_text equal_texts
letters.Texts: long padded_length, passed passing_check
letters.TextsLemmas: long length_of_text
records.Faults: told_fault fault_as_answer
records.Files: told_load load_as_answer, saved buffer_with_file
records.Naming: Named NamedByte
records.Reading: LeftBy PartsAfter
records.Readers: Found Finding, found finding_of, left rest_of_file, ahead bytes_ahead
carriers.Meaning: Kept UnchangedIfRefused, Lawful LawfulMeaning
spool.SpoolLaws: no_rows no_rows_wait
spool.Decoding: letter_parts are_letter_parts
sheets.Sheets: Lawful LawfulKind, answered acceptance, left_by meaning_left
sheets.JobLists sheet_kinds.JobLists: Listed JobListMeaning, listed_by job_list_of
sheets.Timelines sheet_kinds.Timelines: Shown TimelineMeaning, shown_by timeline_of
causality.History: told map_letters
causality.Logs: Stands HasLetter
causality.Worlds: Opened InitialWorld
causality.Steps: Step WorldStep, Refuses WorldRefusal, Posts WorldPost, Sends WorldSend, Parks WorldPark, Collects WorldCollect, Takes WorldTake, Shows WorldShow
causality.Runs: Deed StepLabel, deed label_of, deeds labels_of, taken take_label
causality.Sample: sample_deeds sample_labels
causality.Theorems: InOrder WorldInOrder, Genuine WorldGenuine, Settled WorldQuiescent, Complete WorldComplete
seats.Keeping: Kept SeatInvariant, Sound RoomInvariant
seats.Seats: moved docket_after, docketed with_docket_event, clocked with_clock_entry, raised with_clock_raised, released with_one_held_less, holding with_one_held_more
seats.Rooms: closed table_closed_up
seats.Takings: taken_text take_text, named kind_and_name
seats.Outcomes: answered answer_if, follows answer_then, after after_answer, first first_passing, slip_of newest_docket, good_slip good_docket, slip_letter docket_letter, posted_seat seat_with_post, posted_room room_with_post, shown_seat seat_with_show, Taking TakeKind, taking kind_of_take, taken_as take_as_answer, taken_room take_room, taken_holds take_holds, Takes TakeAccepted, NothingTaken TakeRefused, Take TakeLeaves
lives.Traces: dockets answer_with_docket, does answer_when_done, takes answer_with_take, shows answer_with_show, replied answer_of_response, Made TraceStep, made step_with_answer, traced trace_after, posting posting_of, happened events_after, with_post postings_with_post, with_step postings_after, sent_by sent_after, sent names_sent
lives.Worked: Moment Configuration, moment configuration_of, Opened InitialConfiguration, Step RoomStep, Leads Execution, Worked Reachable, WorksOn StaysReachable
lives.Keeps: InOrder RoomInOrder, Genuine RoomGenuine, Settled RoomQuiescent, Complete RoomComplete, Agree SheetsAgree, DrawnAlike SeatsAgree, Keeps Guarantees, AlwaysKeeps AlwaysGuaranteed, KeptAt GuaranteedAt, KeepsThroughout GuaranteedThroughout
rooms.Asked: move_of operation_of, answer_as response_as_answer, brought docket_brought, returned docket_returned, to_return docket_to_return
rooms.Calls: Carried CarrierStep
rooms.Serving: CarriedThrough CarrierSteps
rooms.States: slip id_of, spent docket_as_answer
rooms.Drafts: draft_state state_of_draft, drafted state_of_new_draft, enrolled draft_with_name, opened opening_state, quiet no_letter_waits, has has_number
rooms.Handing: handed docket_and_others, parked_at seat_after_parking
rooms.Reading: closed_state state_of_closed
listing.Lines: bad_line fault_line, step_line record_line
branch.Desks: standing configuration_at
branch.Keeping: KeptOn GuaranteedBetween
branch.Runs: next_index next_step_index
branch.Steps: Brought StepContent, call_brought content_of_call, step_brought content_of_step, job_brought job_of_post
branch.Turns: Follows CallsMade, Turn StepEffect
cases.Cases: agree same_answer
"""

MODULES = """
letters.Listed ListedLemmas
letters.Same SameLemmas
carriers.LineLaws LineLemmas
carriers.Resting RestingLemmas
pair.PairLaws PairLemmas
spool.SpoolLaws SpoolLemmas
spool.MaskLaws MaskLemmas
sheets.Beside BesideLemmas
sheets.Filters FilterLemmas
sheets.JobSwaps JobSwapLemmas
sheets.Rows RowLemmas
sheet_kinds.Beside BesideLemmas
sheet_kinds.Filters FilterLemmas
sheet_kinds.JobSwaps JobSwapLemmas
sheet_kinds.Rows RowLemmas
causality.Logs LetterLists
causality.Steps WorldSteps
seats.Keeping Invariants
seats.Takings TakeTexts
lives.Worked Reachability
lives.Keeps Guarantees
rooms.Reading RoomReading
listing.Lines ListingLines
branch.Lines StepLines
branch.Runs StepRuns
branch.Steps ProgramSteps
branch.Turns StepEffects
branch.Desks Sessions
branch.Keeping Program
"""

CODE = """
*: Slip DocketId, into_slip into_id, post_slip post_for_id, collect_slip collect_for_id, send_slip send_by_id, park_slip park_by_id
*: seats::slip seats::docket_id, declared.slip.DocketId declared.docket_id.DocketId, mod~slip mod~docket_id
*: slips ids, .slip( .id(, fn~slip( fn~id(, slip docket_id
*: seats::taken::Taken seats::take_outcome::TakeOutcome, declared.taken.Taken declared.take_outcome.TakeOutcome
*: Taken::Stray TakeOutcome::Stray, Taken::Repeat TakeOutcome::Repeat, Taken::Held TakeOutcome::Held
*: Taken(Taken) Taken(TakeOutcome), Result<Taken Result<TakeOutcome
seats: as~taken as~take_outcomes, taken.Stray take_outcomes.Stray, taken.Repeat take_outcomes.Repeat, taken.Held take_outcomes.Held
seats: enum~Taken enum~TakeOutcome, for~Taken for~TakeOutcome, {Taken} {TakeOutcome}, :~Taken~→ :~TakeOutcome~→, mod~taken mod~take_outcome
rooms: ->~Taken~ ->~TakeOutcome~
rooms: ->~Taken$ ->~TakeOutcome$
*: lives::moves::Move lives::operation::Operation, declared.moves.Move declared.operation.Operation, mod~moves mod~operation
*: as~moves as~operations, moves.Post operations.Post, moves.Send operations.Send, moves.Park operations.Park
*: moves.Collect operations.Collect, moves.Take operations.Take, moves.Show operations.Show, Move Operation
lives rooms branch: move operation
*: lives::reply::Reply lives::response::Response, declared.reply.Reply declared.response.Response, Reply Response
lives rooms rooms_check: replies responses, reply response
branch bench rooms_check: Desk Session, desk session
sheets sheet_kinds: Placed OrderedRow
*: spool::tape spool::row_buffer
spool: Tape RowBuffer, tape row_buffer
rooms: tell store_seat, check_visit check_tables_and_seat, knows has_docket_out, newest newest_docket, keep hold_or_discard
rooms: note_docket record_docket_event, may_carry check_carrier
lives rooms branch rooms_check: worked reachable, works stays_reachable, keeps guarantees, leads path
causality lives: settled quiescent
rooms_check: read_moves read_operations, read_move read_operation, print_replies print_responses, print_reply print_response
rooms_check: no_replies no_responses, tell print_refusal
sheets_check: text_said text_of, job_said job_of
seats lives: told_seat written_seat
lives: told-moment written
*: worked_rooms_keep guarantees_hold
"""

PATHS = """
seats/src/slip.rt seats/src/docket_id.rt
seats/src/taken.rt seats/src/take_outcome.rt
lives/src/moves.rt lives/src/operation.rt
lives/src/reply.rt lives/src/response.rt
lives/proofs/laws/worked_rooms_keep lives/proofs/laws/guarantees_hold
rooms/proofs/room/Room/post_slip rooms/proofs/room/Room/post_for_id
spool/src/tape.rt spool/src/row_buffer.rt
spool/proofs/tape/Tape spool/proofs/tape/RowBuffer
spool/proofs/tape spool/proofs/row_buffer
branch/src/desk.rt branch/src/session.rt
branch/src/desk branch/src/session
branch/proofs/desk/Desk branch/proofs/desk/Session
branch/proofs/desk branch/proofs/session
"""

COMMENTS = """
branch bench rooms_check: desk session, desks sessions
lives rooms rooms_check: reply response, replies responses
"""

# What a definition is turned by where a word of its spelling has two senses in one file: the one that calls it.
ONLY = {
    ("rooms.States", "slip"): r"slip(?= (?:docket|self|d|result|p\.0)(?![\w']))|slip(?= c\.)|(?<=told )slip|(?<=as_answer )slip|(?<=answer_of_response )slip|(?<=ap )slip|(?<=[{ ])slip(?=[,}])"
    r"|(?<=pub )slip(?= :)",
}

# Text of files that hold code in strings.
PROGRAMS = ["tests/check_misuse.py"]

LETTER = r"[A-Za-z0-9_'\u2080-\u2099]"
GHOST = re.compile(r"\b(?:ensures|requires|ghost)\b")


def pairs(text):
    return [tuple(pair.split()) for pair in text.split(", ")]


def lines_of(text):
    return [line.split(": ", 1) for line in text.strip().splitlines()]


def spec_entries():
    """(crate, module, old, new) of each definition."""
    return [
        (*place.split("."), *pair)
        for places, names in lines_of(SPECS)
        for place in places.split()
        for pair in pairs(names)
    ]


def module_entries():
    return [(*place.split("."), new) for place, new in (line.split() for line in MODULES.strip().splitlines())]


def code_entries():
    """(crates or None, pattern, new) of each word of the code."""
    out = []
    for crates, names in lines_of(CODE):
        for old, new in pairs(names):
            old, new = old.replace("~", " "), new.replace("~", " ").removesuffix("$")
            end = ""
            if old.endswith("$"):
                old, end = old[:-1], "$"
            before = rf"(?<!{LETTER})" if re.match(r"\w", old) else ""
            after = rf"(?!{LETTER})" if re.search(r"\w$", old) else ""
            pattern = re.compile(before + re.escape(old) + after + end, re.M)
            out.append((None if crates == "*" else set(crates.split()), pattern, new))
    return out


def split_text(text, mark):
    """Pieces (kind, text) of a file: code, string, comment."""
    token = re.compile(r'"(?:[^"\\\n]|\\.)*"|(?<![^\s])' + re.escape(mark) + r"[^\n]*" if mark == "--" else r'"(?:[^"\\\n]|\\.)*"|' + re.escape(mark) + r"[^\n]*")
    at, out = 0, []
    for found in token.finditer(text):
        if found.start() > at:
            out.append(["code", text[at : found.start()]])
        out.append(["string" if found[0].startswith('"') else "comment", found[0]])
        at = found.end()
    if at < len(text):
        out.append(["code", text[at:]])
    return out


def ghost_spans(text):
    """The spans of a .rt file that speak of definitions: imports, clauses, ghost members. Strings count as what they stand in."""
    spans, at = [], 0
    while found := GHOST.search(text, at):
        start = found.start()
        brace, semi = text.find("{", start), text.find(";", start)
        if brace < 0 and semi < 0:
            break
        if brace < 0 or 0 <= semi < brace:
            spans.append((start, semi))
            at = semi + 1
            continue
        depth, i = 0, brace
        while i < len(text):
            depth += {"{": 1, "}": -1}.get(text[i], 0)
            i += 1
            if depth == 0:
                break
        spans.append((start, i))
        at = i
    return spans


class File:
    def __init__(self, path, root):
        self.path = path
        self.crate = path.relative_to(root / "crates").parts[0]
        self.text = path.read_text(encoding="utf8")
        self.antt = path.suffix == ".antt"
        self.mark = "--" if self.antt else "//"
        parts = path.relative_to(root / "crates" / self.crate).parts
        self.module = parts[1][:-5] if self.antt and parts[0] == "specs" and len(parts) == 2 else None

    def imports(self):
        """The definitions that the file brings in: {(crate, module, name)}, and the modules that it names by another name."""
        names, aliases = set(), {}
        for crate, module, listed in re.findall(r"use Rattle\.(\w+)\.specs\.(\w+)\.\{([^}]*)\}", self.text):
            names |= {(crate, module, name.strip().split(" as ")[0]) for name in listed.split(",")}
        for crate, module, alias in re.findall(r"use Rattle\.(\w+)\.specs\.(\w+) as (\w+)", self.text):
            aliases[alias] = (crate, module)
        return names, aliases


def turn_specs(file, entries, notes):
    names, aliases = file.imports()
    todo = []
    for crate, module, old, new in entries:
        own = file.module == module and file.crate == crate
        if own or (crate, module, old) in names:
            todo.append((old, new, own, ONLY.get((f"{crate}.{module}", old))))
        for alias, place in aliases.items():
            if place == (crate, module):
                todo.append((f"{alias}.{old}", f"{alias}.{new}", False, None))
    if not todo:
        return 0
    count = 0
    spans = None if file.antt else ghost_spans(file.text)
    pieces, at = split_text(file.text, file.mark), 0
    table = {old: (new, own, only) for old, new, own, only in todo}
    plain = [re.escape(old) for old, (_, _, only) in table.items() if not only]
    one = re.compile(rf"(?<![\w'.\-≢≡≤])(?:{'|'.join(sorted(plain, key=len, reverse=True))})(?![\w'\-])") if plain else None
    offset = 0
    result = []
    for kind, text in pieces:
        start = offset
        offset += len(text)
        if kind == "comment":
            result.append(text)
            continue
        if kind == "string":
            result.append(text)
            continue

        def swap(found):
            nonlocal count
            word = found[0]
            new, own, _ = table[word]
            where = start + found.start()
            if spans is not None and not any(a <= where < b for a, b in spans):
                return word
            head = file.text[file.text.rfind("\n", 0, where) + 1 : where]
            tail = file.text[where + len(word) : file.text.find("\n", where)]
            use = re.match(r"\s*(?:ghost |pub )*use ", head)
            # a field, or its value in a record
            if not use and re.search(r"(?:[{;]|^)\s*$", head) and re.match(r" =", tail) and (not own or re.search(r"[{;]\s*$", head) or tail.rstrip().endswith(";")):
                return word
            if re.match(r"\s*(?:pub )?$", head) and re.match(r" :", tail) and not own:
                return word
            if own and re.match(r"    pub $|  pub $|    $", head) and re.match(r" :", tail) and in_record(file.text, where):
                return word
            if re.search(r"(?:λ|let|[({])\s*$", head) and re.match(r"(?: :|\.| =)", tail) and not use:
                notes.append(f"{file.path}: binds {word}: {head.strip()[-30:]}{word}{tail[:30]}")
            count += 1
            return new

        if one:
            text = one.sub(swap, text)
        for old, (new, own, only) in table.items():
            if only:
                def swap_only(found, new=new):
                    nonlocal count
                    where = start + found.start()
                    if spans is not None and not any(a <= where < b for a, b in spans):
                        return found[0]
                    count += 1
                    return new
                text = re.sub(rf"(?<![\w'.\-])(?:{only})(?![\w'\-])", swap_only, text)
        result.append(text)
    file.text = sort_imports(file.text, "".join(result))
    return count


def in_order(names):
    """Operators first, then what begins with a capital, then the rest."""
    return sorted(names, key=lambda name: (name[0].isascii(), name))


def sort_imports(old, new):
    """The names of an import stand in the order in which they stood, where that was one."""
    listed = re.compile(r"(.*use [^{]*\{)([^}]*)(\}.*)")
    lines = new.split("\n")
    for at, line in enumerate(old.split("\n")):
        was, now = listed.fullmatch(line), listed.fullmatch(lines[at])
        if was and now and line != lines[at] and in_order(was[2].split(", ")) == was[2].split(", "):
            lines[at] = now[1] + ", ".join(in_order(now[2].split(", "))) + now[3]
    return "\n".join(lines)


def in_record(text, where):
    """Whether a place lies in the body of a record or data."""
    at = text.rfind("\n", 0, where) + 1
    indent = len(text[at:where]) - len(text[at:where].lstrip())
    for line in reversed(text[:at].splitlines()):
        if line.strip() and not line.strip().startswith("--") and len(line) - len(line.lstrip()) < indent:
            return bool(re.match(r"\s*(?:pub )?(?:record|data) ", line)) or line.rstrip().endswith("where") and "record" in line
    return False


def turn_code(text, crate, entries, mark):
    count = 0
    out = []
    for kind, piece in split_text(text, mark) if mark else [["code", text]]:
        if kind == "code":
            for crates, pattern, new in entries:
                if crates is None or crate in crates:
                    piece, n = pattern.subn(new, piece)
                    count += n
        out.append(piece)
    return "".join(out), count


def turn_comments(text, crate, mark):
    out = []
    for kind, piece in split_text(text, mark):
        if kind == "comment":
            for crates, names in lines_of(COMMENTS):
                if crate in crates.split():
                    for old, new in pairs(names):
                        piece = re.sub(rf"\b{old}\b", new, piece)
        out.append(piece)
    return "".join(out)


def turn_ticks(text, table):
    """What stands between backticks, word by word."""
    word = re.compile(rf"(?<![\w'])(?:{'|'.join(sorted(map(re.escape, table), key=len, reverse=True))})(?![\w'])")
    return re.sub(r"`[^`\n]+`", lambda tick: word.sub(lambda found: table[found[0]], tick[0]), text)


def tick_table(specs, code):
    """Names that are turned into one name alone."""
    news = {}
    for _, _, old, new in specs:
        news.setdefault(old, set()).add(new)
    table = {old: new.pop() for old, new in news.items() if len(new) == 1}
    for _, names in lines_of(CODE):
        for old, new in pairs(names):
            if re.fullmatch(r"[\w:]+", old) and old not in ("slip", "move", "tell", "keep", "knows", "reply", "replies", "newest", "tape", "desk"):
                table.setdefault(old, new)
    for old in ("name", "first", "after", "brought", "returned", "saved", "listed", "items", "named", "sent", "made", "left", "found", "ahead", "opened", "takes", "shows", "does", "slip", "long", "passed", "closed", "agree", "taken", "dockets", "next_index", "no_rows", "bad_line", "step_line", "same_letter"):
        table.pop(old, None)
    return table


def moved(path, root, modules):
    """The path of a file after its folders and its module are turned."""
    name = path.relative_to(root / "crates").as_posix()
    for line in PATHS.strip().splitlines():
        old, new = line.split()
        if name == old or name.startswith(old + "/"):
            name = new + name[len(old) :]
    for crate, module, new in modules:
        if name == f"{crate}/specs/{module}.antt":
            name = f"{crate}/specs/{new}.antt"
    return root / "crates" / name


def turn_modules(text, file, modules):
    listed = file.path.parent.name == "specs" and file.path.name == "Lib.antt"
    for owner, module, new in modules:
        text = re.sub(rf"Rattle\.{owner}\.specs\.{module}(?![\w'])", f"Rattle.{owner}.specs.{new}", text)
        if listed and file.crate == owner:
            text = re.sub(rf"(?m)^pub mod {module}$", f"pub mod {new}", text)
    return text


def turn_goals(text):
    """The names that a proof gives to its own folder."""
    for line in PATHS.strip().splitlines():
        old, new = (part.replace("/", ".") for part in line.split())
        if ".proofs." in old:
            text = re.sub(rf"Rattle\.{re.escape(old)}(?![\w'])", f"Rattle.{new}", text)
    return text


def main():
    if len(sys.argv) > 2:
        sys.exit("usage: python3 tools/rename.py [ROOT]")
    root = Path(sys.argv[1] if len(sys.argv) > 1 else ".").resolve()
    if not (root / "crates").is_dir():
        sys.exit(f"rename.py: there is no folder crates in {root}")
    specs, modules, code = spec_entries(), module_entries(), code_entries()
    notes, count = [], 0
    paths = sorted(p for p in root.glob("crates/*/**/*") if p.suffix in (".rt", ".antt", ".edit") and "out" not in p.relative_to(root).parts and p.is_file())
    files = [File(p, root) for p in paths]
    known = "\n".join(file.text for file in files)
    for new in sorted({new for *_, new in specs} | {new for _, names in lines_of(CODE) for _, new in pairs(names) if new.isidentifier()}):
        if re.search(rf"(?<![\w'.]){re.escape(new)}(?![\w'])", known):
            notes.append(f"{new} is there already")
    for file in files:
        old_text = file.text
        if file.path.suffix == ".edit":
            head, *rest = file.text.split("\n")
            for line in PATHS.strip().splitlines():
                was, now = line.split()
                own, _, inner = was.partition("/")
                if own == file.crate:
                    head = re.sub(rf"^file: {re.escape(inner)}(?=/|$)", f"file: {now.partition('/')[2]}", head)
            body, n = turn_code("\n".join(rest), file.crate, code, None)
            file.text, count = head + "\n" + body, count + n
        else:
            count += turn_specs(file, specs, notes)
            file.text = turn_goals(turn_modules(file.text, file, modules))
            file.text, n = turn_code(file.text, file.crate, code, file.mark)
            file.text, count = turn_comments(file.text, file.crate, file.mark), count + n
        if file.text != old_text:
            file.path.write_text(file.text, encoding="utf8")
        new_path = moved(file.path, root, modules)
        if new_path != file.path:
            new_path.parent.mkdir(parents=True, exist_ok=True)
            file.path.rename(new_path)
    table = tick_table(specs, code)
    for path in [root / "README.md", *sorted((root / "docs").glob("*.md")), *paths]:
        path = moved(path, root, modules) if path.suffix in (".rt", ".antt") else path
        if path.suffix == ".edit" or not path.exists() or path.name in ("PORT.md", "DESIGN-PASS.md", "CHANGES.md"):
            continue
        text = path.read_text(encoding="utf8")
        if path.suffix == ".md":
            new_text = turn_ticks(text, table)
        else:
            mark = "--" if path.suffix == ".antt" else "//"
            new_text = "".join(turn_ticks(piece, table) if kind == "comment" else piece for kind, piece in split_text(text, mark))
        if new_text != text:
            path.write_text(new_text, encoding="utf8")
    for name in PROGRAMS:
        path = root / name
        if path.exists():
            text, n = turn_code(path.read_text(encoding="utf8"), None, [e for e in code if e[0] is None], None)
            path.write_text(text, encoding="utf8")
            count += n
    for folder in sorted(root.glob("crates/*/*/**/"), reverse=True):
        if folder.is_dir() and not any(folder.iterdir()):
            folder.rmdir()
    print(f"{count} words turned")
    if count:
        print("".join(f"{note}\n" for note in sorted(set(notes))), end="")


if __name__ == "__main__":
    main()
