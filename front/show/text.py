"""The timeline of the processors on a terminal."""
from front.show.colours import TERMINAL, Keys
from front.show.grid import Groups, busy_grid, level, nice_step, percent, short

_MOST_LINES = 40

_PLAIN = {"shades": ".-+*#", "side": "|", "left": "+", "line": "-", "mark": "+", "right": "+"}
_DRAWN = {"shades": "·░▒▓█", "side": "│", "left": "└", "line": "─", "mark": "┬", "right": "┘"}


def signs(encoding, ascii_only):
    """The characters to draw with: plain ones where the others are not wanted, or the encoding lacks them."""
    try:
        "".join(_DRAWN.values()).encode(encoding or "ascii")
    except (LookupError, UnicodeEncodeError):
        return _PLAIN
    return _PLAIN if ascii_only else _DRAWN


def timeline(run, title, by, width, drawn_with, colour):
    """The lines of the drawing. With `colour` they have the sequences of a terminal of 256 colours."""
    report = run.report
    if not report.processors:
        return [title, totals(report)]
    drawing = _Drawing(report, Keys(report, by), width, drawn_with, colour)
    return [title, "", *drawing.lanes(), *drawing.axis(), "", *drawing.notes()]


class _Drawing:
    def __init__(self, report, keys, width, drawn_with, colour):
        self.report = report
        self.keys = keys
        self.signs = drawn_with
        self.groups = Groups(report.processors, _MOST_LINES)
        self.colour = colour and self.groups.size == 1
        names = [f"proc {self.groups.name(line)}" for line in range(len(self.groups))]
        self.margin = max(map(len, names))
        self.names = [name.ljust(self.margin) for name in names]
        self.cells = _cells(width - self.margin - len(" ││ 100.00 %"), report.span)

    def lanes(self):
        """A line for each processor or group: its cells, and its use."""
        grid = busy_grid(self.report, self.groups, self.cells)
        paints = self.paints() if self.colour else None
        for line, name in enumerate(self.names):
            whole = self.report.span * len(self.groups.members(line))
            shades = [self.signs["shades"][level(busy, whole, 4)] for busy in grid.line(line)]
            cells = _painted(shades, paints[line]) if paints else "".join(shades)
            use = percent(self.groups.use(line, self.report.span))
            yield f"{name} {self.signs['side']}{cells}{self.signs['side']} {use:>6} %"

    def paints(self):
        """For each cell of each processor the colour of the block that fills most of it."""
        report, cells, span = self.report, self.cells, self.report.span
        paints = [[(0, None)] * cells for _ in self.names]
        lanes = report.lanes()
        for proc, start, end, place in zip(report.procs, report.starts, report.ends, self.keys.places()):
            lane = paints[lanes[proc]]
            for cell in range(start * cells // span, -(-end * cells // span)):
                inside = min(end * cells, (cell + 1) * span) - max(start * cells, cell * span)
                if inside > lane[cell][0]:
                    lane[cell] = (inside, TERMINAL[place])
        return [[paint for _, paint in lane] for lane in paints]

    def axis(self):
        """A line with a mark at each step, and the steps in ticks below it."""
        span, cells = self.report.span, self.cells
        line, labels = [self.signs["line"]] * cells, [" "] * (cells + 1)
        last = short(span)
        step = nice_step(span, max(1, cells // (len(last) + 4)))
        for tick in range(0, span, step):
            place, label = tick * cells // span, short(tick)
            if place + len(label) < cells - len(last):
                line[place] = self.signs["mark"]
                labels[place : place + len(label)] = label
        labels[cells - len(last) + 1 :] = last
        margin = " " * (self.margin + 1)
        return [
            f"{margin}{self.signs['left']}{''.join(line)}{self.signs['right']}",
            f"{margin} {''.join(labels)}".rstrip(),
        ]

    def notes(self):
        report, shades = self.report, self.signs["shades"]
        yield totals(report)
        parts = " ".join(shades[3:0:-1])
        lines = "" if self.groups.size == 1 else f"   a line is {self.groups.size:,} processors"
        yield f"{shades[4]} busy   {parts} busy in part   {shades[0]} idle{lines}"
        if self.colour:
            legend = [_paint(shades[4], TERMINAL[place]) + f" {name}" for place, name in enumerate(self.keys.legend())]
            yield "   ".join(legend) or self.keys.note()


def totals(report):
    """How the run ended, in one line."""
    return (
        f"{report.status}, span {report.span:,}: {counted(len(report.starts), 'block')} on "
        f"{counted(len(report.processors), 'processor')}, mean use {percent(report.mean_use())} %"
    )


def counted(number, noun):
    """A number of things."""
    return f"{number:,} {noun}{'' if number == 1 else 's'}"


def _cells(most, span):
    """How many cells a line has: as many as fit, or where there are fewer ticks as many whole cells for each."""
    most = max(most, 10)
    return most // span * span if span <= most else most


def _paint(text, paint):
    return f"\x1b[38;5;{paint}m{text}\x1b[0m"


def _painted(shades, paints):
    """Cells with their colours, each run of one colour painted at once."""
    pieces, begin = [], 0
    for place in range(1, len(shades) + 1):
        if place == len(shades) or paints[place] != paints[begin]:
            piece = "".join(shades[begin:place])
            pieces.append(piece if paints[begin] is None else _paint(piece, paints[begin]))
            begin = place
    return "".join(pieces)
