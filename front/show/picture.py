"""The timeline of the processors as a picture (SVG).

A picture is a list of layers, each drawn over those before it. How blocks are drawn hangs on how many there are:
few have a rectangle each, with a text that a browser shows below the pointer; of many, those narrower than a cell
are joined to cells with a shade for the time that is busy; and processors beyond a few hundred share a row.
"""
from xml.sax.saxutils import escape, quoteattr

from front.show.bars import joined_bars, shaded_bars
from front.show.colours import PALETTE, Keys, ink
from front.show.grid import Groups, nice_step, short
from front.show.text import counted, totals

_FEW_BLOCKS = 3_000
_FEW_MESSAGES = 400
_MOST_PROCESSORS = 256
_MOST_ROWS_OF_GROUPS = 128
_MOST_CELLS = 100_000
_GROUP_HEIGHTS = (5, 5)

_FONT = "font-family=\"'DejaVu Sans', Verdana, Helvetica, Arial, sans-serif\""
_TEXT, _FAINT, _IDLE, _RULE = "#222222", "#595959", "#eeeeee", "#d0d0d0"

SHADES = ["#d6e6f4", "#b7d4ea", "#94c4df", "#6aaed6", "#4a98c9", "#2e7ebc", "#1764ab", "#08306b"]
"""From a little busy to busy throughout."""


def draw(run, title, by, out):
    """Writes the picture."""
    out.write(Picture(run, title, by).text())


class Picture:
    """The measures of a picture in pixels, and its layers."""

    def __init__(self, run, title, by):
        self.run = run
        self.report = run.report
        self.title = title
        self.keys = Keys(self.report, by)
        processors = self.report.processors
        grouped = len(processors) > _MOST_PROCESSORS
        self.groups = Groups(processors, _MOST_ROWS_OF_GROUPS if grouped else _MOST_PROCESSORS)
        self.lane_of = self.report.lanes()
        self.few = len(self.report.starts) <= _FEW_BLOCKS and not grouped
        self.pitch, self.bar = _GROUP_HEIGHTS if self.groups.size > 1 else _heights(len(self.groups))
        self.names = [f"proc {self.groups.name(line)}" for line in range(len(self.groups))]
        self.left = 20 + 7 * max(map(len, self.names), default=0)
        self.width = 900 if self.few and len(self.groups) <= 40 else 1_200
        self.plot = self.width - self.left - 24
        self.top = 64
        self.bottom = self.top + self.pitch * len(self.groups)
        self.height = self.bottom + 64
        self.messages = _Messages(self) if self.few else None

    def text(self):
        layers = [self.heading, self.lanes, self.axis, self.blocks, self.crossings, self.legend]
        if not self.report.processors:
            layers = [self.heading]
        lines = [line for layer in layers for line in layer()]
        return "\n".join([*self.frame(), *lines, "</svg>", ""])

    def frame(self):
        """The beginning of the text, and a light ground, so that the picture can be read on a dark page."""
        size = f'width="{self.width}" height="{self.height}" viewBox="0 0 {self.width} {self.height}"'
        yield f'<svg xmlns="http://www.w3.org/2000/svg" {size} role="img" aria-label={_quoted(self.title)} {_FONT}>'
        yield f'<rect width="{self.width}" height="{self.height}" rx="6" fill="#ffffff"/>'

    def heading(self):
        yield f'<text x="16" y="26" font-size="15" font-weight="bold" fill="{_TEXT}">{_escaped(self.title)}</text>'
        yield f'<text x="16" y="46" font-size="12" fill="{_FAINT}">{totals(self.report)}</text>'

    def lanes(self):
        """The processors, each with a band for its idle time, and their names where there is room."""
        every = -(-13 // self.pitch)
        inset = (self.pitch - self.bar) / 2
        yield f'<g fill="{_IDLE}">'
        for line in range(len(self.groups)):
            yield _rect(self.left, self.y(line) + inset, self.plot, self.bar) + "/>"
        yield "</g>"
        yield f'<g font-size="11" text-anchor="end" fill="{_TEXT}">'
        for line in range(0, len(self.groups), every):
            middle = self.y(line) + self.pitch / 2 + 4
            yield f'<text x="{self.left - 8}" y="{_short(middle)}">{self.names[line]}</text>'
        yield "</g>"

    def axis(self):
        """Ticks from 0 to the span, with a rule at each step."""
        span = self.report.span
        last = short(span)
        step = nice_step(span, max(2, self.plot // (7 * len(last) + 40)))
        room = self.x(span) - 7 * len(last) - 12
        ticks = range(0, span, step)
        rules = "".join(f"M{_short(self.x(tick))} {self.top}V{self.bottom + 5}" for tick in [*ticks, span])
        yield f'<path d="{rules}" stroke="{_RULE}" fill="none"/>'
        yield f'<g font-size="11" text-anchor="middle" fill="{_FAINT}">'
        for tick in ticks:
            if self.x(tick) + 3.5 * len(short(tick)) < room:
                yield f'<text x="{_short(self.x(tick))}" y="{self.bottom + 18}">{short(tick)}</text>'
        yield f'<text x="{_short(self.x(span))}" y="{self.bottom + 18}" text-anchor="end">{last}</text>'
        yield f'<text x="{self.left - 8}" y="{self.bottom + 18}" text-anchor="end">ticks</text>'
        yield "</g>"

    def blocks(self):
        if self.few:
            return self.single()
        cells = min(self.plot, _MOST_CELLS // len(self.groups))
        if self.groups.size == 1:
            return joined_bars(self, cells)
        return shaded_bars(self, cells, SHADES)

    def single(self):
        """A rectangle for each block, with what is known of it, and a number where there is room."""
        report, places = self.report, self.keys.places()
        for place, colour in enumerate(PALETTE):
            blocks = [block for block, other in enumerate(places) if other == place]
            if not blocks:
                continue
            yield f'<g fill="{colour}" stroke="#ffffff" font-size="10" text-anchor="middle">'
            for block in blocks:
                yield from self.one(block, ink(colour))
            yield "</g>"

    def one(self, block, ink_on_it):
        report = self.report
        start, end = report.starts[block], report.ends[block]
        left, width = self.x(start), self.x(end) - self.x(start)
        top = self.y(self.lane_of[report.procs[block]]) + (self.pitch - self.bar) / 2
        line = ' stroke-width="0.8"' if width > 3 else ' stroke-width="0"'
        about = (
            f"row {block + 1}: chare {report.chares[block]} stmt {report.stmts[block]}, "
            f"ready {self.run.trace.readies[block]}, start {start}, end {end}"
        )
        yield _rect(left, top, max(width, 0.5), self.bar) + f"{line}><title>{about}</title></rect>"
        number = str(report.stmts[block] if self.keys.by == "chare" else report.chares[block])
        if self.bar >= 14 and width > 7 * len(number) + 4:
            place = f'x="{_short(left + width / 2)}" y="{_short(top + self.bar / 2 + 3.5)}"'
            yield f'<text {place} fill="{ink_on_it}" stroke="none" pointer-events="none">{number}</text>'

    def crossings(self):
        return self.messages.lines() if self.messages and self.messages.are_drawn else []

    def legend(self):
        """What colours, numbers and lines mean."""
        x, y = self.left, self.bottom + 46
        swatches = [(_IDLE, "idle")]
        if self.groups.size == 1:
            swatches += zip(PALETTE, self.keys.legend())
        else:
            swatches += [(SHADES[0], "a little busy"), (SHADES[-1], "busy throughout")]
        yield f'<g font-size="11" fill="{_FAINT}">'
        for colour, name in swatches:
            yield f'<rect x="{x}" y="{y - 10}" width="12" height="12" fill="{colour}" stroke="{_RULE}"/>'
            yield f'<text x="{x + 17}" y="{y}">{name}</text>'
            x += 17 + 7 * len(name) + 14
        yield f'<text x="{x}" y="{y}">{"; ".join(self.notes())}</text>'
        yield "</g>"

    def notes(self):
        if self.groups.size > 1:
            yield f"a row is {self.groups.size:,} processors"
        elif self.keys.note():
            yield self.keys.note()
        if self.groups.size == 1 and not self.few:
            yield "pale where busy in part"
        if self.few and self.bar >= 14:
            yield f"numbers are {'statements' if self.keys.by == 'chare' else 'chares'}"
        if self.messages and self.messages.are_drawn:
            yield "lines are messages"
        elif self.messages and self.messages.count:
            yield f"{counted(self.messages.count, 'message')} not drawn"

    def x(self, tick):
        """The place of a tick, exact to a hundredth of a pixel."""
        return self.left + tick * self.plot * 100 // self.report.span / 100

    def y(self, line):
        return self.top + line * self.pitch


class _Messages:
    """Thin lines from the processor that sends to the one that receives, from the tick left to the tick come."""

    def __init__(self, picture):
        self.picture = picture
        self.count = len(picture.run.trace.lefts)
        self.are_drawn = 0 < self.count <= _FEW_MESSAGES and len(picture.groups) <= 40

    def lines(self):
        picture, log = self.picture, self.picture.run.log
        homes = dict(zip(picture.report.chares, picture.report.procs))
        takers = log.takers()
        yield f'<g fill="none" stroke="{_TEXT}" stroke-opacity="0.6" stroke-width="0.9">'
        for place, (row, target) in enumerate(zip(log.senders, log.targets)):
            if target in homes:
                way = self.way(place, picture.report.procs[row - 1], homes[target])
                dashes = "" if takers[place] else ' stroke-dasharray="3 2"'
                yield f'<path d="{way}"{dashes}><title>{self.about(place)}</title></path>'
        yield "</g>"

    def way(self, place, sender, receiver):
        """A line with a small head; a message that stays on its processor takes an arc below it."""
        picture, trace = self.picture, self.picture.run.trace
        inset = (picture.pitch - picture.bar) / 2
        left, right = picture.x(trace.lefts[place]), picture.x(trace.cames[place])
        above, below = picture.lane_of[sender], picture.lane_of[receiver]
        if sender == receiver:
            base = picture.y(above) + picture.pitch - inset
            turn = f"{_short((left + right) / 2)} {_short(base + 1.6 * inset)}"
            return f"M{_short(left)} {_short(base)}Q{turn} {_short(right)} {_short(base)}"
        falls = above < below
        begin = picture.y(above) + (picture.pitch - inset if falls else inset)
        end = picture.y(below) + (inset if falls else picture.pitch - inset)
        return f"M{_short(left)} {_short(begin)}L{_short(right)} {_short(end)}{_head(left, begin, right, end)}"

    def about(self, place):
        log, trace = self.picture.run.log, self.picture.run.trace
        row = log.senders[place]
        return (
            f"row {row} send {place - log.firsts[row - 1] + 1}: to chare {log.targets[place]}, entry "
            f"{log.entries[place]} ref {log.references[place]}, {counted(log.sizes[place], 'byte')}, "
            f"left {trace.lefts[place]}, came {trace.cames[place]}"
        )


def _head(left, begin, right, end):
    """The head of an arrow that ends at (right, end)."""
    length = ((right - left) ** 2 + (end - begin) ** 2) ** 0.5 or 1
    along, across = (right - left) / length, (end - begin) / length
    strokes = ""
    for side in (-2.2, 2.2):
        x = right - 5 * along - side * across
        y = end - 5 * across + side * along
        strokes += f"M{_short(x)} {_short(y)}L{_short(right)} {_short(end)}"
    return strokes


def _heights(rows):
    """The height of a row, and of the bar in it."""
    for most, pitch, bar in ((8, 34, 20), (16, 26, 16), (40, 16, 12), (100, 9, 7)):
        if rows <= most:
            return pitch, bar
    return 5, 4


def _rect(x, y, width, height):
    """A rectangle, but for its end."""
    return f'<rect x="{_short(x)}" y="{_short(y)}" width="{_short(width)}" height="{_short(height)}"'


def _short(number):
    """A number of pixels to a hundredth."""
    return f"{number:.2f}".rstrip("0").rstrip(".")


def _readable(text):
    """A text without the characters that XML can't hold."""
    return "".join(c if c >= " " and not "\ud800" <= c <= "\udfff" and c not in "\ufffe\uffff" else "?" for c in text)


def _escaped(text):
    return escape(_readable(text))


def _quoted(text):
    return quoteattr(_readable(text))
