"""Reads a schedule in the GOAL notation of LogGOPSim, line by line, into rows: one for each vertex."""
import heapq
import re

from .faults import TraceFault
from .lines import text
from .mapping import Channels
from .rows import Budget, Receive, Row, Send, check_cost, check_ranks, check_size

BLANK = re.compile(rb"//.*|/\*.*?\*/")
RANKS = re.compile(rb"num_ranks\s+(\d{1,9})\Z")
RANK = re.compile(rb"rank\s+(\d{1,9})\s*\{\Z")
CALC = re.compile(rb"calc\s+(\d{1,18})\Z")
MESSAGE = re.compile(rb"(send|recv)\s+(\d{1,18})b\s+(to|from)\s+(\S+)(?:\s+tag\s+(\S+))?\Z")
PLACE = re.compile(rb"\s+(cpu|nic)\s+(\d+)\Z")
LABEL = re.compile(rb"(\w+)\s*:\s*(.*)\Z")
REQUIRES = re.compile(rb"(\w+)\s+(i?requires)\s+(\w+)\Z")
NUMBER = re.compile(rb"\d{1,18}\Z")
DIRECTIONS = {b"send": b"to", b"recv": b"from"}
CALC_STATEMENT, SEND_STATEMENT, RECEIVE_STATEMENT = 1, 2, 3
STATEMENTS = [(CALC_STATEMENT, "calc"), (SEND_STATEMENT, "send"), (RECEIVE_STATEMENT, "recv")]


class Reader:
    """Takes the lines of a schedule one by one."""

    def __init__(self, unit):
        self.unit = unit
        self.budget = Budget(lambda: "make a schedule of fewer steps or ranks")
        self.channels = Channels()
        self.ranks = None
        self.chares = {}
        self.rank = None
        self.labels = {}
        self.required = set()
        self.rows = []
        self.cpu = None
        self.in_comment = False
        self.notes = []
        self.is_cut = False

    def read(self, lines):
        """Reads all lines. Answers the rows of each rank."""
        number = 0
        for number, line in lines:
            line = self._plain(line)
            if line:
                self._line(line, number)
        if self.in_comment or self.rank is not None or self.ranks is None:
            raise TraceFault(max(number, 1), "is the last, and the schedule isn't ended: it is cut; copy it again")
        return [self.chares.get(rank, []) for rank in range(self.ranks)]

    def summary(self):
        """What each statement of a row stands for."""
        return [f"stmt {number} {name}" for number, name in STATEMENTS]

    def _plain(self, line):
        """The line without comments and outer spaces. A comment between /* and */ may go over several lines."""
        if self.in_comment:
            _, ended, line = line.partition(b"*/")
            if not ended:
                return b""
            self.in_comment = False
        line = BLANK.sub(b" ", line)
        line, begun, _ = line.partition(b"/*")
        self.in_comment = bool(begun)
        return line.strip()

    def _line(self, line, number):
        if self.ranks is None:
            self._num_ranks(line, number)
        elif self.rank is None:
            self._rank(line, number)
        elif line == b"}":
            self._end_of_rank()
        elif match := REQUIRES.match(line):
            self._requires(*match.groups(), number)
        else:
            self._vertex(line, number)

    def _num_ranks(self, line, number):
        match = RANKS.match(line)
        if match is None or int(match.group(1)) == 0:
            raise TraceFault(number, "isn't num_ranks and a number from 1: is this file a GOAL schedule?")
        self.ranks = int(match.group(1))
        check_ranks(self.ranks, number)

    def _rank(self, line, number):
        match = RANK.match(line)
        rank = self._known_rank(match.group(1), number) if match else None
        if match is None or rank in self.chares:
            raise TraceFault(number, "isn't the beginning of a further rank, as in 'rank 0 {'")
        self.rank = rank
        self.labels, self.required, self.rows, self.cpu = {}, set(), [], None

    def _known_rank(self, word, number):
        if not NUMBER.match(word):
            raise TraceFault(number, f"names {text(word)} and no rank: wildcards aren't mapped, since a schedule "
                                     "doesn't say what they take; name the rank")
        if int(word) >= self.ranks:
            raise TraceFault(number, f"names rank {text(word)}, and there are {self.ranks}, from 0")
        return int(word)

    def _vertex(self, line, number):
        label = None
        if match := LABEL.match(line):
            label, line = match.groups()
        line = self._without_places(line, number)
        row = Row(self.rank, CALC_STATEMENT, number)
        self.budget.spend(1, number)
        if match := CALC.match(line):
            row.cost = self._ticks(int(match.group(1)))
            check_cost(row.cost, self.unit, number)
        elif (match := MESSAGE.match(line)) and DIRECTIONS[match.group(1)] == match.group(3):
            self._message(row, match, number)
        else:
            raise TraceFault(number, "is no calc, send, recv or requires; write each on a line of its own, such as "
                                     "'l1: send 8b to 1 tag 0'")
        if label is not None and self.labels.setdefault(label, row) is not row:
            raise TraceFault(number, f"has the label {text(label)} again; labels of a rank differ")
        self.rows.append(row)

    def _without_places(self, line, number):
        """The vertex without its cpu and its nic. All vertices of a rank share one cpu."""
        while match := PLACE.search(line):
            line = line[:match.start()]
            kind, which = match.groups()
            if kind == b"cpu" and which != (self.cpu or which):
                raise TraceFault(number, f"names cpu {text(which)}, and vertices before it cpu {text(self.cpu)}: "
                                         "several at a time aren't mapped; make the schedule with one cpu for a rank")
            if kind == b"cpu":
                self.cpu = which
        return line

    def _message(self, row, match, number):
        kind, size, _, partner, tag = match.groups(b"0")
        partner = self._known_rank(partner, number)
        if not NUMBER.match(tag):
            raise TraceFault(number, f"has the tag {text(tag)}, which is no number: wildcards aren't mapped, since a "
                                     "schedule doesn't say what they take; name the tag")
        size, tag = int(size), int(tag)
        self.budget.spend(1, number)
        if kind == b"send":
            check_size(size, number)
            row.statement = SEND_STATEMENT
            row.sends.append(Send(row, partner, tag, size, None, number))
        else:
            row.statement = RECEIVE_STATEMENT
            row.receives.append(Receive(row, partner, tag, None, number))

    def _requires(self, label, kind, earlier, number):
        if kind == b"irequires":
            raise TraceFault(number, "is irequires: a row can't wait for the start of another; use requires")
        for name in (label, earlier):
            if name not in self.labels:
                raise TraceFault(number, f"names {text(name)}, which no line before it has as its label")
        row, cause = self.labels[label], self.labels[earlier]
        if (label, earlier) not in self.required:
            self.required.add((label, earlier))
            self.budget.spend(1, number)
            row.afters.append(cause)

    def _end_of_rank(self):
        rows = in_order(self.rows)
        for row in rows:
            for send in row.sends:
                self.channels.sent(self.rank, send)
            for receive in row.receives:
                self.channels.received(self.rank, receive)
        self.chares[self.rank] = rows
        self.rank = None

    def _ticks(self, nanoseconds):
        """So many ticks, rounded to the nearest, and at least 1."""
        return max(1, (2 * nanoseconds + self.unit) // (2 * self.unit))


def in_order(rows):
    """The rows of a rank, each behind those that it requires, and otherwise in the order of their lines."""
    missing = {row: len(row.afters) for row in rows}
    results = {row: [] for row in rows}
    for row in rows:
        for cause in row.afters:
            results[cause].append(row)
    ready = [(row.line, row) for row in rows if missing[row] == 0]
    ordered = []
    while ready:
        _, row = heapq.heappop(ready)
        ordered.append(row)
        for result in results[row]:
            missing[result] -= 1
            if missing[result] == 0:
                heapq.heappush(ready, (result.line, result))
    if len(ordered) < len(rows):
        line = min(row.line for row in rows if missing[row] > 0)
        raise TraceFault(line, f"is a vertex of rank {rows[0].chare} that requires itself, maybe by way of others")
    return ordered
