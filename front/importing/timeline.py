"""One rank of a traced run: its rows come about as its computation, sends and receives are told in order."""
from .rows import Receive, Row, Send, check_cost, check_size

PICOSECONDS_IN_NANOSECOND = 1000


class Timeline:
    """The rows of one rank.

    A row is the code between two places where the rank may wait. Its statement is the call that opened it, or None.
    A receive ends a row that has worked or sent, and opens the next; receives with nothing between them open one
    row together.
    """

    def __init__(self, rank, unit, budget, channels):
        self.rank = rank
        self.unit = unit
        self.budget = budget
        self.channels = channels
        self.rows = []
        self.row = None
        self.work = 0
        self.offsets = []

    def compute(self, picoseconds, line):
        """The rank works for so long."""
        if picoseconds > 0:
            self._open(line)
            self.work += picoseconds

    def send(self, target, tag, size, time, line):
        """The rank sends a message to a rank. It doesn't wait for that."""
        check_size(size, line)
        self._open(line)
        self.budget.spend(1, line)
        send = Send(self.row, target, tag, size, time, line)
        self.row.sends.append(send)
        self.offsets.append(self.work)
        self.channels.sent(self.rank, send)

    def receive(self, source, tag, call, time, line):
        """The rank waits in a call for a message from a rank; `tag` is None where any will do."""
        if self.row is not None and (self.work > 0 or self.row.sends):
            self.close(line)
        self._open(line)
        self.row.statement = call
        self.budget.spend(1, line)
        receive = Receive(self.row, source, tag, time, line)
        self.row.receives.append(receive)
        self.channels.received(self.rank, receive)

    def close(self, line):
        """Ends the row, if there is one."""
        if self.row is None:
            return
        cost = self._ticks(self.work)
        check_cost(cost, self.unit, line)
        self.row.cost = cost
        for send, work in zip(self.row.sends, self.offsets):
            send.offset = min(self._ticks(work), cost)
        self.rows.append(self.row)
        self.row = None
        self.work = 0
        self.offsets = []

    def _open(self, line):
        if self.row is None:
            self.row = Row(self.rank, None, line)
            self.row.afters = self.rows[-1:]
            self.budget.spend(1 + len(self.row.afters), line)

    def _ticks(self, picoseconds):
        """So many ticks, rounded to the nearest, and at least 1."""
        length = self.unit * PICOSECONDS_IN_NANOSECOND
        return max(1, (2 * picoseconds + length) // (2 * length))
