"""From rows with sends and receives to the rows of a log: matches, numbers, references and depths."""
from collections import deque

from .faults import TraceFault


class Channel:
    """What goes from one rank to another: the sends and the receives, each in the order in which they came."""

    __slots__ = ("sends", "receives")

    def __init__(self):
        self.sends = []
        self.receives = []

    def match(self, source, target):
        """Gives each receive its send: of a tag the first that is left, and of any tag the first at all.

        A receive without a send is a fault, and so is a send that left after its message was received.
        """
        by_tag = {}
        for send in self.sends:
            by_tag.setdefault(send.tag, deque()).append(send)
        of_any = deque(send for send in self.sends if send.tag >= 0)
        for receive in self.receives:
            queue = of_any if receive.tag is None else by_tag.get(receive.tag, ())
            while queue and queue[0].taken:
                queue.popleft()
            if not queue:
                raise TraceFault(receive.line, f"is a receive of rank {target} from rank {source}, tag "
                                               f"{tag_text(receive.tag)}, and no such message is left to take")
            send = queue.popleft()
            if send.time is not None and send.time > receive.time:
                raise TraceFault(receive.line, f"is a receive of rank {target} from rank {source}, tag "
                                               f"{tag_text(receive.tag)}, before the message is sent in line "
                                               f"{send.line}: a wrong match")
            send.taken = True
            receive.send = send


def tag_text(tag):
    return "any" if tag is None else str(tag)


class Channels:
    """All channels between ranks."""

    def __init__(self):
        self.channels = {}

    def _at(self, source, target):
        channel = self.channels.get((source, target))
        if channel is None:
            channel = self.channels[source, target] = Channel()
        return channel

    def sent(self, source, send):
        self._at(source, send.target).sends.append(send)

    def received(self, target, receive):
        self._at(receive.source, target).receives.append(receive)

    def match(self):
        """Matches all channels, and answers the sends that nobody receives, in the order of the trace."""
        left = []
        for (source, target), channel in sorted(self.channels.items()):
            channel.match(source, target)
            left += (send for send in channel.sends if not send.taken)
        return sorted(left, key=lambda send: send.line)


def finish(chares):
    """Numbers the rows of all chares in order, and gives references, indexes and depths. Answers the rows.

    The k-th message from a source to a target, k from 0, has the reference k * (number of chares) + source, so
    no two messages to one chare share a reference.
    """
    rows = [row for chare in chares for row in chare]
    counts = {}
    for number, row in enumerate(rows, 1):
        row.number = number
        for index, send in enumerate(row.sends, 1):
            count = counts.get((row.chare, send.target), 0)
            counts[row.chare, send.target] = count + 1
            send.index = index
            send.reference = count * len(chares) + row.chare
    give_depths(rows)
    return rows


def causes(row):
    yield from row.afters
    for receive in row.receives:
        yield receive.send.row


def give_depths(rows):
    """The depth of each row is 1 more than the greatest of its causes. Rows that wait in a circle are a fault."""
    missing = [0] * (len(rows) + 1)
    results = [[] for _ in range(len(rows) + 1)]
    for row in rows:
        for cause in causes(row):
            missing[row.number] += 1
            results[cause.number].append(row)
    ready = [row for row in rows if missing[row.number] == 0]
    for row in ready:
        row.depth = 1 + max((cause.depth for cause in causes(row)), default=0)
        for result in results[row.number]:
            missing[result.number] -= 1
            if missing[result.number] == 0:
                ready.append(result)
    if len(ready) < len(rows):
        raise circle(rows)


def circle(rows):
    """The fault of rows that wait for one another, of which there are some among those without a depth."""
    row = next(row for row in rows if row.depth == 0)
    seen = {}
    while row.number not in seen:
        seen[row.number] = row
        row = next(cause for cause in causes(row) if cause.depth == 0)
    walk = list(seen.values())
    walk = walk[walk.index(row):]
    ranks = ", ".join(str(rank) for rank in sorted({row.chare for row in walk}))
    return TraceFault(min(row.line for row in walk), f"begins a wait that goes round in a circle over ranks {ranks}: "
                                                     "a wrong match, or a deadlock")
