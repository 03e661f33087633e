"""A model of the timeline and the job list (docs/RULES.md, Sheets), and of
what the program `sheets_check` prints of them."""

from record_model import Add, Strike

ROWS_TO_A_PAGE = 20
LOG_TOO_LONG, SHEET_FULL = 17, 18


class Sheet:
    """What both kinds share; `places` and `put` are each kind's own."""

    def __init__(self):
        self.clear()

    def clear(self):
        self.entered = 0
        self.contents = self.nothing()

    def enter(self, letter):
        """Answers the number of the refusal, or None."""
        if self.entered == self.places:
            return SHEET_FULL
        self.entered += 1
        self.put(letter)
        return None

    def draw_up(self, log):
        if len(log) > self.places:
            return LOG_TOO_LONG
        self.clear()
        for letter in log:
            self.enter(letter)
        return None

    def enter_all(self, log):
        """Answers what entering the last letter answers."""
        answer = None
        for letter in log:
            answer = self.enter(letter)
        return answer


class Timeline(Sheet):
    places = 256
    nothing = list

    def put(self, letter):
        rank = sum(letter.stamp)
        row = (rank, letter.poster, letter.number, letter.body.characters)
        later = (i for i, other in enumerate(self.contents)
                 if other[0] > rank or (other[0] == rank and other[1] > letter.poster))
        self.contents.insert(next(later, len(self.contents)), row)

    def lines(self):
        pages = -(-len(self.contents) // ROWS_TO_A_PAGE)
        yield b"timeline %d %d" % (self.entered, pages)
        for row in self.contents:
            yield b"%d %d.%d %s" % row

    def more_lines(self, log):
        return ()


class JobList(Sheet):
    places = 128
    nothing = dict

    def put(self, letter):
        match letter.body:
            case Add(code):
                self.contents[letter.poster, letter.number] = code
            case Strike(poster, number):
                if letter.stamp[poster] >= number:
                    self.contents.pop((poster, number), None)

    def lines(self):
        yield b"jobs %d" % self.entered
        for (poster, number), code in sorted(self.contents.items()):
            yield b"%d.%d %d" % (poster, number, code)

    def more_lines(self, log):
        """The code of the job that has each letter's name."""
        for letter in log:
            code = self.contents.get((letter.poster, letter.number))
            yield b"code none" if code is None else b"code %d" % code
