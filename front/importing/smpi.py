"""What a Paje trace of SimGrid's SMPI says that each rank did.

SMPI 3.32 writes some links twice, and some under a wrong number. Which of them are real follows from the call in
which they stand:

- `MPI_Isend`, `MPI_Issend`, `MPI_Ssend` and `MPI_Ibsend` write each start twice, the second time when it happens.
- `MPI_Wait` writes the end of its receive a second time behind the call. `MPI_Waitany` and `MPI_Waitall` write
  those of their receives a second time before the call ends, all of them behind the real ones. Messages of
  collectives that don't block, which have tags below 0, are written once.
- `MPI_Sendrecv` writes a start before the real one and an end behind the real one, whose partners are counted
  from 0 in place of 1. Where a rank sends to itself so, there is no real one.
- `MPI_Waitany` isn't ended in the trace where it has no request to wait for.
"""
from collections import Counter

from .faults import TraceFault

ANY_TAG = -444
START_TWICE = {"PMPI_Isend", "PMPI_Issend", "PMPI_Ssend", "PMPI_Ibsend"}
END_TWICE = {"PMPI_Waitall", "PMPI_Waitany"}
BOTH_TWICE = {"PMPI_Sendrecv"}
END_BEHIND = "PMPI_Wait"
UNENDED = "PMPI_Waitany"
WORK = {"computing", "sleeping"}
LAST_CALL = "PMPI_Finalize"
UNKNOWN = ("a call that the trace doesn't show", None)
ONE_SIDED = {"PMPI_Put", "PMPI_Rput", "PMPI_Get", "PMPI_Rget", "PMPI_Accumulate", "PMPI_Raccumulate",
             "PMPI_Get_accumulate", "PMPI_Rget_accumulate", "PMPI_Fetch_and_op", "PMPI_Compare_and_swap"}


def between_ranks(tag):
    """Whether a message of this tag is the program's own, and not one that a collective is made of."""
    return tag >= 0 or tag == ANY_TAG


class Start:
    """The start of a link: a message leaves. The target is a rank, or below 0."""

    __slots__ = ("target", "tag", "size", "time", "line")

    def __init__(self, target, tag, size, time, line):
        self.target = target
        self.tag = tag
        self.size = size
        self.time = time
        self.line = line

    def do(self, timeline):
        timeline.send(self.target, self.tag, self.size, self.time, self.line)


class End:
    """The end of a link: a message is taken. The source is a rank, or below 0 where the trace doesn't say it."""

    __slots__ = ("source", "tag", "call", "time", "line")

    def __init__(self, source, tag, call, time, line):
        self.source = source
        self.tag = tag
        self.call = call
        self.time = time
        self.line = line

    def do(self, timeline):
        tag = None if self.tag == ANY_TAG else self.tag
        timeline.receive(self.source, tag, self.call, self.time, self.line)


class Work:
    """Computation of so many picoseconds."""

    __slots__ = ("length", "line")

    def __init__(self, length, line):
        self.length = length
        self.line = line

    def do(self, timeline):
        timeline.compute(self.length, self.line)


class Call:
    """A state of a rank: a call of MPI, or work. `deeds` is what is told in it, kept back where some isn't real."""

    __slots__ = ("name", "place", "time", "deeds", "taken")

    def __init__(self, name, place, time):
        self.name = name
        self.place = place
        self.time = time
        self.deeds = [] if name in START_TWICE or name in END_TWICE or name in BOTH_TWICE else None
        self.taken = 0

    def real_deeds(self, line):
        """The deeds of a call that has ended, without what is told twice."""
        starts = [deed for deed in self.deeds if type(deed) is Start]
        ends = [deed for deed in self.deeds if type(deed) is End and between_ranks(deed.tag)]
        if self.name in START_TWICE:
            dropped = self._first_of_pairs(starts, line)
        elif self.name in END_TWICE:
            dropped = self._second_half(ends, line)
        else:
            dropped = self._outer_of_exchange(starts, ends, line)
        return [deed for deed in self.deeds if deed not in dropped]

    def real_starts(self):
        """The starts that have happened in a call that hasn't ended."""
        starts = [deed for deed in self.deeds if type(deed) is Start]
        if self.name in START_TWICE:
            return starts[1::2]
        return starts[1:] if self.name in BOTH_TWICE else starts

    def _first_of_pairs(self, starts, line):
        pairs = list(zip(starts[::2], starts[1::2]))
        if len(starts) % 2 or any(one.target != two.target or one.tag != two.tag for one, two in pairs):
            raise self._unclear("starts that don't come in pairs", line)
        return set(starts[::2])

    def _second_half(self, ends, line):
        half = len(ends) // 2
        real, again = ends[:half], ends[half:]
        sources = Counter((end.source, end.tag) for end in again if end.source >= 0)
        sources.subtract(Counter((end.source, end.tag) for end in real))
        if sorted(end.tag for end in real) != sorted(end.tag for end in again) or max(sources.values(), default=0) > 0:
            raise self._unclear("ends that don't come twice", line)
        return set(again)

    def _outer_of_exchange(self, starts, ends, line):
        if len(starts) != len(ends) or len(starts) not in (1, 2):
            raise self._unclear(f"{len(starts)} starts and {len(ends)} ends", line)
        return {starts[0], ends[-1]}

    def _unclear(self, what, line):
        return TraceFault(line, f"ends {self.name[1:]} with {what}, so that it can't be told which are real; trace "
                                "with SimGrid 3.32, and start each persistent receive before it is waited for")


class Rank:
    """One rank: the calls that are open, and its timeline."""

    def __init__(self, timeline):
        self.timeline = timeline
        self.calls = []
        self.behind = 0
        self.finalized = False
        self.gone = False

    def push(self, name, place, time, line):
        if name in ONE_SIDED:
            raise TraceFault(line, f"is {name[1:]}: one-sided messages aren't mapped; use sends and receives")
        if self.calls and self.calls[-1].name == UNENDED and not (name in WORK and self.calls[-1].deeds):
            self._ended(self.calls.pop(), line)
        self.behind = 0
        self.calls.append(Call(name, place, time))

    def pop(self, time, line):
        if not self.calls:
            raise TraceFault(line, f"ends a state of rank {self.timeline.rank}, which is in none: is the trace whole?")
        call = self.calls.pop()
        if call.name not in WORK:
            self._ended(call, line)
        elif self.calls:
            self._do(Work(time - call.time, line))
        else:
            self.timeline.compute(time - call.time, line)

    def _ended(self, call, line):
        if call.deeds is not None:
            for deed in call.real_deeds(line):
                self._do(deed)
        self.finalized = self.finalized or call.name == LAST_CALL
        self.behind = call.taken if call.name == END_BEHIND else 0

    def start(self, target, tag, size, time, line):
        self._do(Start(target, tag, size, time, line))

    def end(self, source, tag, time, line):
        inside = self.calls[-1] if self.calls else None
        if self.behind > 0 and between_ranks(tag):
            self.behind -= 1
            return
        if inside is not None and inside.name == END_BEHIND and between_ranks(tag):
            inside.taken += 1
        call = (inside.name, inside.place) if inside is not None else UNKNOWN
        self._do(End(source, tag, call, time, line))

    def _do(self, deed):
        for call in self.calls:
            if call.deeds is not None:
                call.deeds.append(deed)
                return
        deed.do(self.timeline)

    def destroy(self, line):
        """The rank is gone: it must have come to its end."""
        while self.calls and self.calls[-1].name == UNENDED:
            self._ended(self.calls.pop(), line)
        if self.calls or not self.finalized:
            where = self.calls[-1].name.replace("PMPI", "MPI") if self.calls else "the program"
            raise TraceFault(line, f"ends rank {self.timeline.rank} in {where}, before MPI_Finalize: the run was cut "
                                   "short; trace it again, or import a part by --until")
        self.timeline.close(line)
        self.gone = True

    def cut(self, time, line):
        """The trace is taken up to a time: what is done by then counts, and what is waited for doesn't."""
        for call in self.calls:
            if call.name in WORK:
                self.timeline.compute(time - call.time, line)
            elif call.deeds is not None:
                for start in call.real_starts():
                    start.do(self.timeline)
        self.timeline.close(line)
