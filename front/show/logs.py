"""The text of a log, read into columns.

The program has read the log before and found it valid, so nothing is tested here: a text that isn't one is
`Unreadable`. Both versions of the text are known. Rows, and the sends of a row, are numbered from 1; lists
count from 0, so row N stands at N - 1.
"""


class Unreadable(Exception):
    """The text isn't the log that the program has read."""


class Log:
    """The rows and sends of a log. The sends stand in the order of (row, send)."""

    def __init__(self):
        self.depths = []
        self.costs = []
        self.afters = []
        """For each row the rows of its block causes."""
        self.mails = []
        """For each row its message causes, each a pair (row, send)."""
        self.senders = []
        self.targets = []
        self.entries = []
        self.references = []
        self.sizes = []
        """For each send its length in bytes."""
        self.offsets = []
        self.firsts = []
        """For each row how many sends the rows before it have."""

    def message(self, row, send):
        """The place of a message among all, from 0."""
        return self.firsts[row - 1] + send - 1

    def takers(self):
        """For each message the rows that name it as a cause."""
        takers = [()] * len(self.senders)
        for row, mails in enumerate(self.mails, 1):
            for mail in mails:
                _append(takers, self.message(*mail), row)
        return takers


def _append(lists, place, item):
    """Puts an item behind a list of many, most of which stay empty and so are one empty tuple."""
    if lists[place]:
        lists[place].append(item)
    else:
        lists[place] = [item]


def is_log(head):
    """Whether a file that begins with these bytes is a log. A program begins with another word."""
    return head.startswith(b"bslog")


def read_log(text):
    """The log that the bytes spell."""
    lines = text.split(b"\n")
    version = {b"bslog 1": 1, b"bslog 2": 2}.get(lines[0])
    try:
        if version is None:
            raise ValueError
        return _Reader(version).read(lines)
    except (IndexError, ValueError) as fault:
        raise Unreadable from fault


class _Reader:
    """Reads the lines of a log one after the other."""

    def __init__(self, version):
        self.version = version
        self.log = Log()
        self.starts = {}
        """In a text of version 2: how many rows stand before those of each chare."""

    def read(self, lines):
        kinds = {
            b"row": self.row_1 if self.version == 1 else self.row_2,
            b"after": self.after_1 if self.version == 1 else self.after_2,
            b"mail": self.mail,
            b"send": self.send,
            b"chare": self.chare,
        }
        for line in lines[2:]:
            words = line.split()
            take = kinds.get(words[0]) if words else None
            if take:
                take(words)
        if self.version == 2:
            self.log.mails = [self.named(mails) for mails in self.log.mails]
        return self.log

    def chare(self, words):
        self.starts[int(words[1])] = len(self.log.costs)

    def row_1(self, words):
        _, _, _, depth, cost = words
        self.row(depth, cost)

    def row_2(self, words):
        _, _, depth, cost = words
        self.row(depth, cost)

    def row(self, depth, cost):
        log = self.log
        log.depths.append(int(depth))
        log.costs.append(int(cost))
        log.afters.append(())
        log.mails.append(())
        log.firsts.append(len(log.senders))

    def after_1(self, words):
        _append(self.log.afters, -1, int(words[1]))

    def after_2(self, words):
        _append(self.log.afters, -1, len(self.log.costs) - int(words[1]))

    def mail(self, words):
        _append(self.log.mails, -1, tuple(map(int, words[1:])))

    def send(self, words):
        log = self.log
        _, target, entry, reference, size, offset = words
        log.senders.append(len(log.costs))
        log.targets.append(int(target))
        log.entries.append(int(entry))
        log.references.append(int(reference))
        log.sizes.append(int(size))
        log.offsets.append(int(offset))

    def named(self, mails):
        """Message causes by row and send, where the text has (chare, place, send)."""
        return mails and [(self.starts[chare] + place, send) for chare, place, send in mails]
