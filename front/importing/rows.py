"""Rows, sends and receives on their way to a log, and the limits of a log."""
from .faults import TraceFault

MOST_LINES = 262_144
MOST_CHARES = 65_536
MOST_COST = 1 << 32
MOST_BYTES = 1 << 30
MOST_STATEMENT = 10_000


class Row:
    """A row of the log. `afters` are earlier rows of its chare, `receives` its messages, `sends` in their order.

    `cost` is in ticks. `number` (from 1) and `depth` are set when all rows are there.
    """

    __slots__ = ("chare", "statement", "cost", "afters", "receives", "sends", "line", "number", "depth")

    def __init__(self, chare, statement, line):
        self.chare = chare
        self.statement = statement
        self.cost = 1
        self.afters = []
        self.receives = []
        self.sends = []
        self.line = line
        self.number = 0
        self.depth = 0


class Send:
    """A message of a row. `offset` is in ticks; `index` is its place in the row, from 1; `time` may be None."""

    __slots__ = ("row", "index", "target", "tag", "size", "offset", "reference", "time", "line", "taken")

    def __init__(self, row, target, tag, size, time, line):
        self.row = row
        self.index = 0
        self.target = target
        self.tag = tag
        self.size = size
        self.offset = 1
        self.reference = 0
        self.time = time
        self.line = line
        self.taken = False


class Receive:
    """A message that a row takes. `tag` is None where any tag will do; `send` is set by matching."""

    __slots__ = ("row", "source", "tag", "time", "line", "send")

    def __init__(self, row, source, tag, time, line):
        self.row = row
        self.source = source
        self.tag = tag
        self.time = time
        self.line = line
        self.send = None


class Budget:
    """Counts the lines that the log will have, and refuses the one that is too many.

    `advice` answers what to do, and is asked only then.
    """

    def __init__(self, advice):
        self.used = 0
        self.advice = advice

    def spend(self, count, line):
        self.used += count
        if self.used > MOST_LINES:
            raise TraceFault(line, f"makes the log longer than {MOST_LINES} lines; {self.advice()}")


def check_size(size, line):
    if size > MOST_BYTES:
        raise TraceFault(line, f"sends {size} bytes, and a log has at most {MOST_BYTES} in one message; "
                               "trace a smaller problem, or send it in parts")


def check_cost(cost, unit, line):
    if cost > MOST_COST:
        enough = unit * -(-cost // MOST_COST)
        raise TraceFault(line, f"ends a row that costs {cost} ticks, and a log has at most {MOST_COST}; "
                               f"take longer ticks, such as --unit {enough}")


def check_ranks(ranks, line):
    if ranks > MOST_CHARES:
        raise TraceFault(line, f"has rank {ranks - 1}, and a log has at most {MOST_CHARES} chares; "
                               "trace a run of fewer ranks")
