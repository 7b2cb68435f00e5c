"""How busy each slice of the span is, for processors and for groups of them. All of it is whole numbers."""


class Groups:
    """Lines of a drawing, each for as many processors: one, or where there are too many a power of two."""

    def __init__(self, processors, most):
        self.size = 1
        while len(processors) > self.size * most:
            self.size *= 2
        self._processors = processors

    def __len__(self):
        return -(-len(self._processors) // self.size)

    def members(self, line):
        """The processors of a line, as the report tells them."""
        return self._processors[line * self.size : (line + 1) * self.size]

    def name(self, line):
        """The number of the processor, or of the first and the last of the line."""
        members = self.members(line)
        first, last = members[0].number, members[-1].number
        return str(first) if first == last else f"{first}-{last}"

    def use(self, line, span):
        """The mean use of the processors of a line, in hundredths of a percent, rounded down."""
        members = self.members(line)
        return 10_000 * sum(member.busy for member in members) // (span * len(members))


class Grid:
    """Busy time in cells: a line of cells for each group of processors, each cell a slice of the span.

    The slices are equal, and the span needn't be a multiple of their number. So a tick counts for as much
    as there are cells in a line, and a cell that is busy throughout holds the span, for each processor.
    """

    def __init__(self, lines, cells, span):
        self.cells = cells
        self.span = span
        self._parts = [[0] * cells for _ in range(lines)]
        self._steps = [[0] * (cells + 1) for _ in range(lines)]
        """Where whole cells begin and end to be busy."""

    def add(self, line, start, end):
        """Counts a block from its start to its end."""
        first, before = divmod(start * self.cells, self.span)
        last, inside = divmod(end * self.cells, self.span)
        parts = self._parts[line]
        if first == last:
            parts[first] += inside - before
            return
        parts[first] += self.span - before
        if inside:
            parts[last] += inside
        steps = self._steps[line]
        steps[first + 1] += 1
        steps[last] -= 1

    def line(self, line):
        """The busy time of each cell of a line."""
        busy, whole = [], 0
        for part, step in zip(self._parts[line], self._steps[line]):
            whole += step
            busy.append(part + whole * self.span)
        return busy


def level(busy, whole, levels):
    """A shade from 0 to `levels`: 0 where nothing is busy, the last where all is, and the rest between."""
    if busy == 0 or busy == whole:
        return levels if busy else 0
    return 1 + busy * (levels - 1) // whole


def busy_grid(report, groups, cells):
    """The grid of all blocks of a report."""
    grid = Grid(len(groups), cells, report.span)
    lanes = report.lanes()
    for proc, start, end in zip(report.procs, report.starts, report.ends):
        grid.add(lanes[proc] // groups.size, start, end)
    return grid


def nice_step(span, most):
    """The least of 1, 2, 5, 10, 20, 50.. that divides the span into at most `most` parts."""
    power = 1
    while True:
        for digit in (1, 2, 5):
            if span <= digit * power * most:
                return digit * power
        power *= 10


def percent(hundredths):
    """Hundredths of a percent as text."""
    return f"{hundredths // 100}.{hundredths % 100:02}"


def short(ticks):
    """A number of ticks as text that is never long."""
    return f"{ticks:,}" if ticks < 10**15 else f"{ticks:.3g}"
