"""Lays a story out in bands, like staves of music, and draws them. Needs Python 3.8."""

from dataclasses import dataclass, field
from math import ceil

import words
from drawing import SMALL, WORD, Drawing
from story import ADD, DEL, MOD

#: How many records are drawn, and how many rows of callers and descriptors a band has.
MOST_RECORDS, MOST_ROWS = 400, 60
#: Heights of the rows, the least distance of two records, and of two texts of a row.
NUMBERS, CLOCK, CALLER, FD, BETWEEN = 20, 26, 36, 26, 32
STEP, SPACE, MARGIN = 30, 12, 16


def meets(begin, end, first, last):
    """Whether a span reaches into these records; None is before all of them, or behind."""
    return (begin is None or begin <= last) and (end is None or end >= first)


class TooMuch(Exception):
    """There is more than a picture can show."""


@dataclass
class Band:
    """The records from `first` to `last`, with the place of each."""

    first: int
    last: int
    xs: dict
    right: float = 0
    callers: list = field(default_factory=list)
    fds: list = field(default_factory=list)
    ys: dict = field(default_factory=dict)

    def x(self, at, left):
        """The place of a record; the edges of the band stand for the records before and behind it."""
        if at is None or at < self.first:
            return left
        return self.right if at > self.last else self.xs[at]


class Picture:
    """The picture of the records from `first` to `last`, which count from 0, of so many in all."""

    def __init__(self, story, first, last, width, count):
        self.story, self.first, self.last, self.count = story, first, last, count
        self.lives = self.played()
        self.waits = [it for it in story.waits if meets(it.began, it.ended, first, last)]
        self.registrations = [it for it in story.registrations if meets(it.added, it.gone, first, last)]
        self.has_processes = len({it.pid for it in self.lives}) > 1
        callers = {it.caller for it in story.records[first : last + 1]} | {it.caller for it in self.waits}
        labels = [f"caller {it}" for it in callers] + [self.label(it) for it in self.lives]
        self.unit = words.unit_of(self.times())
        self.left = ceil(MARGIN + max(map(len, labels)) * WORD + 18)
        self.width, self.drawing, self.used = width, Drawing(), set()
        self.bands = self.lay_out()

    def played(self):
        """The descriptors that play a part in the records drawn, by process and number."""
        found = []
        for at in range(self.first, self.last + 1):
            scene = self.story.scenes[at]
            found += scene.touched + scene.reported
        used = {id(it) for it in found}
        lives = [it for it in self.story.lives if id(it) in used or self.is_named(it)]
        return sorted(lives, key=lambda it: (it.pid, it.fd))

    def times(self):
        """All times that are drawn: those of the clock, and those of calls and answers."""
        drawn = range(self.first, self.last + 1)
        moments = [self.story.scenes[at].now for at in [max(self.first - 1, 0), *drawn]]
        return moments + [it for at in drawn for it in words.times_of(self.story.records[at])]

    def is_named(self, life):
        """Whether a record drawn opens or closes it: what fork copies and exit closes is left out until it is used."""
        ends = [(life.opened, "fork"), (life.closed, "exit")]
        return any(self.is_inside(at) and self.story.records[at].call["op"] != op for at, op in ends)

    def is_inside(self, at):
        return at is not None and self.first <= at <= self.last

    def label(self, life):
        return f"p{life.pid} " * self.has_processes + f"{life.fd} {life.description.kind}"

    # Laying out.

    def texts(self, at):
        """The texts of a record: the row of each, how far it reaches to the right."""
        record, scene = self.story.records[at], self.story.scenes[at]
        found = [(f"caller {record.caller}", len(self.word(record)) * WORD)]
        if record.tick is not None:
            found.append(("clock", len(self.moment(at)) * SMALL))
        if scene.link and scene.link.act != DEL:
            target = scene.link.target
            found.append(((target.pid, target.fd), len(self.mask(scene.link)) * SMALL + 8))
        return found

    def word(self, record):
        return words.word(record, self.unit)

    def moment(self, at):
        return words.moment(self.story.scenes[at].now, self.unit)

    def mask(self, link):
        return words.clipped(words.mask(link.mask))

    def lay_out(self):
        """Puts each record as far left as the texts in its rows allow, and begins a band when one is full."""
        bands, ends, limit = [], {}, self.width - MARGIN
        for at in range(self.first, self.last + 1):
            texts = self.texts(at)
            band = bands[-1] if bands else None
            x = self.place(band, at, texts, ends)
            if band is None or (band.xs and x + max(it for _, it in texts) > limit):
                ends = {"clock": self.left + len(self.moment(at)) * SMALL}
                band = Band(at, at, {})
                bands.append(band)
                x = self.place(band, at, texts, ends)
                limit = max(limit, x + max(it for _, it in texts))
            band.xs[at], band.last = x, at
            for row, length in texts:
                ends[row] = x + length
        self.width = limit + MARGIN
        for band in bands:
            band.right = limit if band is not bands[-1] else max([*ends.values(), x + STEP])
            self.rows_of(band)
        return bands

    def place(self, band, at, texts, ends):
        step = max(STEP, len(str(self.last + 1)) * SMALL + 8)
        x = band.xs[band.last] + step if band and band.xs else self.left + STEP / 2
        return ceil(max([x, *(ends.get(row, 0) + SPACE for row, _ in texts)]))

    def rows_of(self, band):
        """Which callers and descriptors a band has, and how high each row is."""
        inside = range(band.first, band.last + 1)
        callers = {self.story.records[at].caller for at in inside}
        callers |= {it.caller for it in self.waits if meets(it.began, it.ended, band.first, band.last)}
        band.callers = sorted(callers)
        seen = [it for it in self.lives if meets(it.opened, it.closed, band.first, band.last)]
        band.fds = sorted({(it.pid, it.fd) for it in seen})
        rows = len(band.callers) + len(band.fds)
        if rows > MOST_ROWS:
            raise TooMuch(f"{rows} callers and descriptors at once are too many for a picture, which has {MOST_ROWS}")

    # Drawing.

    def draw(self):
        y = MARGIN
        for band in self.bands:
            y = self.draw_band(band, y) + BETWEEN
        # A short picture is as wide as the legend looks well in, if that is allowed.
        width = self.width if len(self.bands) > 1 else max(self.bands[0].right + MARGIN, min(620, self.width))
        height = self.draw_legend(y - 4, width)
        lines = f"lines {self.first + 1} to {self.last + 1} of {self.count}"
        return self.drawing.svg(width, height, f"A history: {lines}")

    def draw_band(self, band, y):
        band.ys["clock"] = y + NUMBERS + CLOCK - 8
        y += NUMBERS + CLOCK
        for caller in band.callers:
            band.ys[f"caller {caller}"] = y + CALLER - 10
            y += CALLER
        y += 8
        for row in band.fds:
            band.ys[row] = y + FD - 8
            y += FD
        self.draw_clock(band)
        for row in band.callers:
            self.draw_caller(band, row)
        self.draw_threads(band)
        for life in self.lives:
            self.draw_life(band, life)
        for wait in self.waits:
            self.draw_wait(band, wait)
        for at in band.xs:
            self.draw_record(band, at)
        return y

    def sign(self, text):
        """Puts a sign into the legend."""
        self.used.add(text)

    def draw_clock(self, band):
        y = band.ys["clock"]
        self.drawing.text(MARGIN, y + 4, "clock", "muted")
        self.drawing.line(self.left, y, band.right, y, "line")
        before = self.story.scenes[band.first - 1].now if band.first else 0
        self.drawing.text(self.left, y - 6, words.moment(before, self.unit), "small muted")
        for at, x in band.xs.items():
            self.drawing.text(x, y - CLOCK + 5, str(at + 1), "small muted", "middle")

    def draw_caller(self, band, caller):
        y = band.ys[f"caller {caller}"]
        self.drawing.text(MARGIN, y + 4, f"caller {caller}")
        self.drawing.line(self.left, y, band.right, y, "thin hair")

    def draw_threads(self, band):
        """A fine line from each record to the descriptors that it touches, or to the clock."""
        for at, x in band.xs.items():
            record, scene = self.story.records[at], self.story.scenes[at]
            y = band.ys[f"caller {record.caller}"]
            if record.tick is not None:
                self.drawing.line(x, y, x, band.ys["clock"], "thin hair")
            lives = scene.touched + scene.reported + self.opened_or_closed(at)
            if lives:
                self.drawing.line(x, y, x, max(band.ys[it.pid, it.fd] for it in lives), "thin hair")

    def opened_or_closed(self, at):
        return [it for it in self.lives if at in (it.opened, it.closed)]

    def draw_life(self, band, life):
        opened, closed = life.opened, life.closed
        if not meets(opened, closed, band.first, band.last):
            return
        y, left = band.ys[life.pid, life.fd], self.left
        begin, end = band.x(opened, left), band.right if closed is None else band.x(closed, left)
        title = f"{self.label(life)}: " + self.span(life.opened, life.closed, "opened", "closed")
        for it in self.registrations:
            if (it.fd, it.target) == (life.fd, life.description):
                x1, x2 = max(begin, band.x(it.added, left)), min(end, self.end_of(band, it.gone))
                if x1 < x2:
                    self.sign("watched")
                    self.drawing.rect(x1, y - 5, x2 - x1, 10, "watched", title)
        self.drawing.line(begin, y, end, y, "link" if life.description.kind == "instance" else "line", title)
        self.label_life(band, life, y)
        if opened in band.xs:
            self.drawing.line(begin, y - 5, begin, y + 5, "ink", title)
        if closed in band.xs:
            self.sign("closed")
            self.drawing.cross(end, y, 4, "ink", title)

    def end_of(self, band, at):
        return band.right if at is None else band.x(at, self.left)

    def label_life(self, band, life, y):
        """The first descriptor of this number in the band gives the row its name."""
        same = [it for it in self.lives if (it.pid, it.fd) == (life.pid, life.fd)]
        same = [it for it in same if it.closed is None or it.closed >= band.first]
        if life is same[0]:
            self.drawing.text(MARGIN, y + 4, self.label(life))

    def span(self, first, last, begin, end):
        before = f"{begin} by line {first + 1}" if first is not None else "there from the beginning"
        return f"{before}, {end} by line {last + 1}" if last is not None else before

    def draw_wait(self, band, wait):
        if not meets(wait.began, wait.ended, band.first, band.last):
            return
        y, begin, end = band.ys[f"caller {wait.caller}"], band.x(wait.began, self.left), self.end_of(band, wait.ended)
        title = f"caller {wait.caller} is parked at {wait.ep}: " + self.span(wait.began, wait.ended, "begun", "ended")
        self.sign("parked")
        self.drawing.rect(begin, y - 5, end - begin, 10, "parked", title)
        self.draw_marks(band, wait, y, end)
        if wait.due in band.xs:
            self.sign("deadline")
            x = band.xs[wait.due]
            self.drawing.line(x, y - 4, x, y + 10, "ink", f"line {wait.due + 1} reaches the deadline")

    def draw_marks(self, band, wait, y, end):
        """From when on the caller was perhaps marked, and from when on for sure."""
        spans = [(wait.marked_from, "perhaps", "perhaps marked"), (wait.marked_by, "marked", "marked")]
        for since, kind, text in spans:
            if since is not None and since <= band.last and not (kind == "perhaps" and since == wait.marked_by):
                self.sign(text)
                x = band.x(since, self.left)
                self.drawing.rect(x, y - 5, end - x, 10, kind, f"{text} since line {since + 1}")

    def draw_record(self, band, at):
        record, scene, x = self.story.records[at], self.story.scenes[at], band.xs[at]
        y, title = band.ys[f"caller {record.caller}"], f"line {record.line}: {record.text}"
        kind = "error" if record.answer[0] == "err" else "ink"
        for it in scene.touched:
            self.drawing.circle(x, band.ys[it.pid, it.fd], 2.5, kind, title)
        for it in scene.reported:
            self.sign("reported")
            self.drawing.circle(x, band.ys[it.pid, it.fd], 4.5, "hollow link", title)
        if scene.link:
            self.draw_link(band, scene.link, x, title)
        if record.tick is not None:
            self.drawing.line(x, band.ys["clock"] - 4, x, band.ys["clock"] + 4, "ink", title)
            self.drawing.text(x, band.ys["clock"] - 6, self.moment(at), "small")
        is_waiting = record.answer[0] in ("still", "parked")
        self.sign("parks, or stays parked" if is_waiting else "refused" if kind == "error" else "event")
        self.drawing.circle(x, y, 4, "hollow ink" if is_waiting else kind, title)
        self.drawing.text(x - 4, y - 11, self.word(record), "error" if kind == "error" else "", title=title)

    def draw_link(self, band, link, x, title):
        above, below = band.ys[link.instance.pid, link.instance.fd], band.ys[link.target.pid, link.target.fd]
        kind = {ADD: "link", MOD: "link dash"}.get(link.act, "muted")
        self.sign({ADD: "add", MOD: "mod"}.get(link.act, "del"))
        self.drawing.line(x, above, x, below, kind, title)
        self.drawing.circle(x, above, 3, "link", title)
        if link.act == DEL:
            self.drawing.cross(x, below, 4, "muted", title)
        else:
            self.drawing.circle(x, below, 3, "link", title)
            self.drawing.text(x + 6, below - 8, self.mask(link), "small link", title=title)

    def draw_legend(self, y, width):
        """The signs that were used and what they mean; returns the height of the picture."""
        x = MARGIN
        for text, sign in LEGEND.items():
            if text in self.used:
                length = 20 + len(text) * SMALL + 18
                if x + length > width - MARGIN:
                    x, y = MARGIN, y + 18
                sign(self.drawing, x + 6, y)
                self.drawing.text(x + 20, y + 3, text, "small muted")
                x += length
        return y + 22


#: What each sign means, with what draws it.
LEGEND = {
    "event": lambda d, x, y: d.circle(x, y, 4, "ink"),
    "refused": lambda d, x, y: d.circle(x, y, 4, "error"),
    "parks, or stays parked": lambda d, x, y: d.circle(x, y, 4, "hollow ink"),
    "parked": lambda d, x, y: d.rect(x - 8, y - 5, 16, 10, "parked"),
    "perhaps marked": lambda d, x, y: d.rect(x - 8, y - 5, 16, 10, "perhaps"),
    "marked": lambda d, x, y: d.rect(x - 8, y - 5, 16, 10, "marked"),
    "deadline": lambda d, x, y: d.line(x, y - 7, x, y + 7, "ink"),
    "watched": lambda d, x, y: d.rect(x - 8, y - 5, 16, 10, "watched"),
    "reported": lambda d, x, y: d.circle(x, y, 4.5, "hollow link"),
    "add": lambda d, x, y: d.line(x - 8, y, x + 8, y, "link"),
    "mod": lambda d, x, y: d.line(x - 8, y, x + 8, y, "link dash"),
    "del": lambda d, x, y: (d.line(x - 8, y, x + 8, y, "muted"), d.cross(x, y, 4, "muted")),
    "closed": lambda d, x, y: d.cross(x, y, 4, "ink"),
}
