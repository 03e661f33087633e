"""Draws a run of the program `branch` as a picture (SVG):

    python3 tools/picture.py STEPS LINES > run.svg

STEPS is the file of steps that `branch` read, LINES the file of the lines that it printed; one of the two may be `-`, the
standard input. Each seat is a line, with time from top to bottom. docs/PROGRAMS.md says how to read the marks. Where the lines
do not fit the steps, nothing is drawn, and the error names the line.
"""

import bisect
import math
import sys
from xml.sax.saxutils import escape

sys.dont_write_bytecode = True
from follow_branch import SEATS, STEP, Misfit, follow, named
from shared import fail, read_file, read_input, write_output

USAGE = "usage: picture.py STEPS LINES > run.svg (one of the two may be -, the standard input)"

LINES_X = 16  # of the printed lines
NOWHERE_X = 212  # of a step at a seat that the room does not have
FIRST_X = 312  # of seat 0
APART = 224  # from seat to seat
WIDTH = FIRST_X + (SEATS - 1) * APART + 268
LANE = 9  # from one held letter to the next
ROW = 38  # the least height of a step
TEXT = 15  # from one line of text to the next
CLEAR = 15  # from a mark to a letter that passes it
LEGEND_Y = 52
LEGEND_ROW = 24
LEGEND_COLUMN = 244
LEGEND_COLUMNS = 4

# Blue is posting, amber waiting, green showing, red a no, grey thrown away; each mark has a shape of its own besides.
STYLE = """
text { font-family: "DejaVu Sans", Verdana, Arial, sans-serif; font-size: 12px; fill: #222;
  paint-order: stroke; stroke: #fff; stroke-width: 4px; stroke-linejoin: round; }
.head { font-size: 15px; font-weight: bold; }
.seat, .main { font-weight: bold; }
.less { font-weight: normal; fill: #555; }
.why { fill: #8a4b00; }
.no { fill: #b00020; }
.line { font-family: "DejaVu Sans Mono", Consolas, monospace; font-size: 11px; fill: #444; }
path { fill: none; stroke-width: 2; }
.axis { stroke: #999; }
.guide { stroke: #e6e6e6; stroke-width: 1; }
.arrow { stroke: #47576b; stroke-width: 1.4; marker-end: url(#tip); }
.repeat .arrow, .stray .arrow { stroke-dasharray: 2 3; }
.tip { fill: #47576b; }
.waits { stroke: #d98200; stroke-width: 3; stroke-dasharray: 5 4; }
.ready { stroke: #1a7f37; stroke-width: 3; }
.band { stroke: #a9cdf5; stroke-width: 8; }
.posting { fill: #0b5cad; stroke: #0b5cad; stroke-width: 2; }
.parking { fill: #fff; stroke: #0b5cad; stroke-width: 2; }
.pause { stroke: #0b5cad; }
.inner { fill: #fff; stroke: none; }
.holding { fill: #ffd591; stroke: #a35c00; stroke-width: 2; }
.thrown { fill: #eee; stroke: #666; stroke-width: 2; }
.twice { stroke: #666; }
.showing { fill: #1a7f37; stroke: #1a7f37; }
.cross { stroke: #b00020; stroke-width: 3; }
"""

TIP = (
    '<marker id="tip" viewBox="0 0 10 10" refX="8" refY="5" markerWidth="9" markerHeight="9" markerUnits="userSpaceOnUse" '
    'orient="auto"><path class="tip" d="M0 1l9 4l-9 4z"/></marker>'
)

# Why a step was refused, by its number.
REASONS = {
    "8": "no such seat",
    "9": "the quota is spent",
    "10": "a docket is parked",
    "13": "no docket is parked",
    "14": "no letter at this place",
    "15": "none is ready",
    "20": "a bad form",
}


# Words.


def reason(step):
    return "nothing is held" if step.value == "15" and not step.waits else REASONS[step.value]


def job(letter):
    kind, *values = letter.body
    return f"{kind} {values[0] if kind == 'add' else named(values)}"


def stamp(letter):
    return "stamp " + ",".join(str(entry) for entry in letter.stamp)


def listed(names):
    """Names in order, three or more of one poster as the first to the last."""
    parts = []
    for poster in range(SEATS):
        own = [named(name) for name in names if name[0] == poster]
        parts += own if len(own) < 3 else [f"{own[0]} to {own[-1]}"]
    return ", ".join(parts)


def waits_for(names):
    return f"waits for {listed(names)}" if names else "is ready"


def words_of(step):
    """The lines of text beside a mark: words, their style, and what is written smaller behind them."""
    if step.came == "refused":
        waits = [(f"{named(name)} {waits_for(names)}", "why", "") for name, names in step.waits]
        return [(f"refused {step.value}, {reason(step)}", "no", "")] + waits
    if step.call == "post":
        words = [(f"{step.value} {job(step.letter)}", "main", stamp(step.letter))]
        return words + [("parked, no place on the carrier", "why", "")] * (step.came == "parked")
    if step.call == "collect":
        return [(f"{step.value} {'collected, sent' if step.came == 'sent' else 'stays parked'}", "main", "")]
    waits = [(waits_for(names), "why", "") for _, names in step.waits if names]
    return [(f"{step.came} {step.value}", "main", "")] + waits


def title_of(step):
    """What is said where the pointer rests on a mark."""
    parts = [f"step {step.line}"]
    if step.letter:
        parts.append(f"{named(step.letter.name)} is {job(step.letter)}, {stamp(step.letter)}")
    if step.came == "refused":
        parts.append(reason(step))
    return "; ".join(parts + [f"{named(name)} {waits_for(names)}" for name, names in step.waits])


# Pieces.


def num(value):
    return f"{value:.1f}".removesuffix(".0")


def text(x, y, words, style, less=""):
    behind = f' <tspan class="less">{escape(less)}</tspan>' if less else ""
    return f'<text class="{style}" x="{x}" y="{y}">{escape(words)}{behind}</text>'


def path(style, d):
    return f'<path class="{style}" d="{d}"/>'


def circle(style, x, y):
    return f'<circle class="{style}" cx="{x}" cy="{y}" r="7"/>'


def square(style, x, y):
    return f'<rect class="{style}" x="{x - 6}" y="{y - 6}" width="12" height="12"/>'


def titled(style, title, *pieces):
    return f'<g class="{style}"><title>{escape(title)}</title>{"".join(pieces)}</g>'


# Shapes of the marks.


def sent_shape(x, y):
    return circle("posting", x, y)


def parked_shape(x, y):
    return circle("parking", x, y) + path("pause", f"M{x - 2.5} {y - 3.5}v7M{x + 2.5} {y - 3.5}v7")


def collected_shape(x, y):
    return circle("posting", x, y) + path("inner", f"M{x - 2.5} {y - 4}l7 4l-7 4z")


def held_shape(x, y):
    return square("holding", x, y)


def repeat_shape(x, y):
    return square("thrown", x, y) + path("twice", f"M{x - 3} {y - 2}h6m-6 4h6")


def stray_shape(x, y):
    return path("thrown", f"M{x} {y - 8}l8 14h-16z")


def shown_shape(x, y):
    return path("showing", f"M{x} {y - 8}l8 8l-8 8l-8 -8z")


def refused_shape(x, y):
    return path("cross", f"M{x - 6} {y - 6}l12 12m0 -12l-12 12")


def bad_shape(x, y):
    return path("cross", f"M{x - 10} {y - 3}h20m0 6h-20")


def line_shape(style):
    return lambda x, y: path(style, f"M{x - 12} {y}h24")


# For each sort of mark its shape, and what the legend says of it.
SORTS = {
    "post sent": (sent_shape, "posted and sent"),
    "post parked": (parked_shape, "posted, the docket parked"),
    "collect sent": (collected_shape, "collected and sent"),
    "collect parked": (parked_shape, "collected, parked again"),
    "take held": (held_shape, "taken and held"),
    "take repeat": (repeat_shape, "taken, a repeat: thrown away"),
    "take stray": (stray_shape, "taken, a stray: thrown away"),
    "show shown": (shown_shape, "shown"),
    "refused": (refused_shape, "refused, with the number"),
    "bad": (bad_shape, "bad: read no further"),
}


def sort_of(step):
    return "refused" if step.came == "refused" else f"{step.call} {step.came}"


# Where the steps stand.


def seat_x(seat):
    return FIRST_X + APART * seat if seat < SEATS else NOWHERE_X


def heights(run, top):
    """The y of each step, the bad one too, and the y below them."""
    ys, y = [], top + ROW
    for step in run.steps:
        ys.append(y)
        y += max(ROW, TEXT * len(words_of(step)) + 14)
    return (ys + [y], y + ROW) if run.bad else (ys, y)


# What is drawn for the steps.


def printed(line, y, x):
    """The printed line, with a faint rule to the mark."""
    return path("guide", f"M{NOWHERE_X - 12} {y}H{x}") + text(LINES_X, y + 4, line, "line")


def mark(step, y):
    x = seat_x(step.seat)
    # A letter leaves downwards and comes from above: the words stand where it does not pass.
    base = y + {"sent": -4, "parked": -4, "held": 11, "repeat": 11, "stray": 11}.get(step.came, 4)
    words = [text(x + 14, base + TEXT * at, *line) for at, line in enumerate(words_of(step))]
    return titled(f"step {step.call} {step.came}", title_of(step), SORTS[sort_of(step)][0](x, y), *words)


def bad_mark(bad, y):
    count, end = len(bad.bytes), seat_x(SEATS - 1) + 60
    why = f"{count} of the {STEP} bytes of a step" if count < STEP else f"no call has the number {bad.bytes[0]}"
    rules = path("cross", f"M{NOWHERE_X} {y - 3}H{end}M{NOWHERE_X} {y + 3}H{end}")
    return titled("step bad", f"step {bad.line}; {why}", rules, text(NOWHERE_X, y - 10, f"bad: {why}", "no"))


def passing_y(middle, marks):
    """The y at which a letter passes the seat between, clear of the mark that is next to its straight way."""
    near = bisect.bisect(marks, middle - CLEAR)
    return marks[near] + CLEAR if near < len(marks) and marks[near] < middle + CLEAR else middle


def way_arrow(way, ys, marks):
    """From where a letter was sent to where it was taken. It stops short of both marks."""
    x, y, to_x, to_y = seat_x(way.name[0]), ys[way.start], seat_x(way.seat), ys[way.end]
    length = math.hypot(to_x - x, to_y - y)
    dx, dy = (to_x - x) / length, (to_y - y) / length
    bend = "L"
    if abs(way.name[0] - way.seat) == 2:
        middle = (y + to_y) / 2
        bend = f"Q{seat_x(1)} {num(2 * passing_y(middle, marks) - middle)} "
    line = f"M{num(x + 8 * dx)} {num(y + 8 * dy)}{bend}{num(to_x - 11 * dx)} {num(to_y - 11 * dy)}"
    title = f"{named(way.name)}, sent at step {way.start}, taken by seat {way.seat} at step {way.end}"
    return titled(f"way {way.came}", title, path("arrow", line))


def keep_bar(keep, ys, foot):
    """A held letter, at the left of its seat: broken while it waits for others, whole while it is ready."""
    x, y = seat_x(keep.seat), ys[keep.start]
    lane = x - 16 - LANE * keep.lane
    shown = None if keep.end is None else ys[keep.end]
    begin = f"M{x - 7} {y}Q{lane} {y} {lane} {y + 12}"
    end = f"V{foot}" if shown is None else f"V{shown - 12}Q{lane} {shown} {x - 12} {shown}"
    if keep.ready is None:
        bars = [path("waits", begin + end)]
    elif keep.ready == keep.start:
        bars = [path("ready", begin + end)]
    else:
        bars = [path("waits", f"{begin}V{ys[keep.ready]}"), path("ready", f"M{lane} {ys[keep.ready]}{end}")]
    until = "to the end" if keep.end is None else f"to step {keep.end}"
    since = "never ready" if keep.ready is None else f"ready from step {keep.ready} on"
    return titled("keep", f"{named(keep.letter.name)}, held from step {keep.start} {until}, {since}", *bars)


def park_band(park, ys, foot):
    """A parked docket, on the line of its seat."""
    end = foot if park.end is None else ys[park.end]
    until = "to the end" if park.end is None else f"to step {park.end}"
    title = f"the docket of {named(park.name)}, parked from step {park.start} {until}"
    return titled("park", title, path("band", f"M{seat_x(park.seat)} {ys[park.start]}V{end}"))


# What is drawn around them.


def legend_items(run):
    """The shapes that this picture has, each with what it means."""
    sorts = {sort_of(step) for step in run.steps} | ({"bad"} if run.bad else set())
    lines = [
        ("arrow", "the way of a letter", run.ways),
        ("waits", "held, waits for what led to it", [keep for keep in run.keeps if keep.ready != keep.start]),
        ("ready", "held, ready to be shown", [keep for keep in run.keeps if keep.ready is not None]),
        ("band", "a parked docket", run.parks),
    ]
    items = [item for sort, item in SORTS.items() if sort in sorts]
    return items + [(line_shape(style), words) for style, words, drawn in lines if drawn]


def legend(items):
    pieces = []
    for at, (shape, words) in enumerate(items):
        x = LINES_X + 14 + LEGEND_COLUMN * (at % LEGEND_COLUMNS)
        y = LEGEND_Y + LEGEND_ROW * (at // LEGEND_COLUMNS)
        pieces.append(shape(x, y) + text(x + 20, y + 4, words, "legend"))
    return pieces


def seat_line(seat, top, foot):
    x = seat_x(seat)
    return text(x - 20, top - 8, f"seat {seat}", "seat") + path("axis", f"M{x} {top}V{foot}")


def end_words(run, seat):
    """What a seat has at the end of the run."""
    log = [named(letter.name) for letter in run.boxes[seat].log]
    rows = [" ".join(log[at : at + 6]) for at in range(0, len(log), 6)] or ["is empty"]
    words = [(f"log {rows[0]}", "main")] + [(row, "main") for row in rows[1:]]
    for keep in run.held(seat):
        words.append((f"{named(keep.letter.name)} held, {waits_for(run.missing(seat, keep.letter))}", "why"))
    words += [(f"{named(park.name)} parked", "why") for park in run.parks if park.seat == seat and park.end is None]
    waiting = sorted(run.waiting(seat))
    return words + ([(f"not taken: {listed(waiting)}", "why")] if waiting else [])


def ends(run, y):
    """The words at the end of each seat's line, and how high they are."""
    columns = [end_words(run, seat) for seat in range(SEATS)]
    pieces = [text(LINES_X, y + 26, "at the end", "line")]
    for seat, words in enumerate(columns):
        pieces += [text(seat_x(seat) - 20, y + 26 + TEXT * at, *line) for at, line in enumerate(words)]
    return pieces, 26 + TEXT * max(len(words) for words in columns)


def layers(run, top, ys, foot):
    """All between the legend and the foot; what is drawn later lies above."""
    marks = [ys[step.index] for step in run.steps if step.seat == 1]
    pieces = [printed(step.line, ys[step.index], seat_x(step.seat)) for step in run.steps]
    pieces += [printed(run.bad.line, ys[-1], NOWHERE_X)] if run.bad else []
    pieces += [seat_line(seat, top, foot) for seat in range(SEATS)]
    pieces += [park_band(park, ys, foot) for park in run.parks]
    pieces += [keep_bar(keep, ys, foot) for keep in run.keeps]
    pieces += [way_arrow(way, ys, marks) for way in run.ways]
    pieces += [mark(step, ys[step.index]) for step in run.steps]
    return pieces + ([bad_mark(run.bad, ys[-1])] if run.bad else [])


def picture(run):
    """The whole picture, as text."""
    count = len(run.steps)
    head = f"A run of branch: {count} {'step' if count == 1 else 'steps'}" + (", and then a bad one" if run.bad else "")
    items = legend_items(run)
    top = LEGEND_Y + LEGEND_ROW * math.ceil(len(items) / LEGEND_COLUMNS) + 30
    ys, foot = heights(run, top)
    last, below = ends(run, foot)
    size = f'width="{WIDTH}" height="{foot + below + 12}"'
    pieces = [
        f'<svg xmlns="http://www.w3.org/2000/svg" {size} viewBox="0 0 {WIDTH} {foot + below + 12}" role="img">',
        f"<title>{head}</title>",
        f"<style>{STYLE}</style>",
        f"<defs>{TIP}</defs>",
        f'<rect {size} fill="#fff"/>',
        text(LINES_X, 26, head, "head"),
    ]
    return "\n".join(pieces + legend(items) + layers(run, top, ys, foot) + last + ["</svg>", ""])


# Files.


def lines_of(data):
    try:
        lines = data.decode("ascii").split("\n")
    except UnicodeDecodeError:
        raise Misfit("the lines are no lines of branch: they have bytes that are not ASCII") from None
    return lines[:-1] if lines[-1] == "" else lines


def main():
    names = sys.argv[1:]
    if len(names) != 2 or names == ["-", "-"]:
        sys.exit(USAGE)
    steps, lines = (read_input() if name == "-" else read_file(name) for name in names)
    try:
        drawn = picture(follow(steps, lines_of(lines)))
    except Misfit as error:
        fail(error)
    write_output(drawn.encode("ascii"))


if __name__ == "__main__":
    main()
