"""Reads a Paje trace of SimGrid's SMPI, line by line, into the timelines of its ranks."""
import re

from .faults import TraceFault
from .lines import text
from .mapping import Channels
from .paje import Records, picoseconds, split
from .rows import MOST_STATEMENT, Budget, check_ranks
from .smpi import Rank
from .timeline import PICOSECONDS_IN_NANOSECOND, Timeline

MADE_BY = re.compile(rb"#This file was generated using SimGrid-([\d.]+)\Z")
VERSION = re.compile(r"3\.32(\.|\Z)")
OPTIONS = ("tracing/smpi/internals", "tracing/smpi/computing", "tracing/smpi/display-sizes")
PRECISION = re.compile(r"--cfg=tracing/precision:(\d{1,4})\b")
KEY = re.compile(rb"(-?\d{1,18})_(-?\d{1,18})_(-?\d{1,18})_\d+\Z")
NUMBER = re.compile(rb"\d{1,18}\Z")
FIRST_PROCESS = 1
FIRST_STATEMENT = 1
RANK_NAME = re.compile(rb"rank-(\d{1,9})\Z")


class Statements:
    """The numbers of statements: the lines of the source where the trace has them, and otherwise of the calls."""

    def __init__(self):
        self.numbers = {}
        self.names = {FIRST_STATEMENT: {"start"}}

    def number(self, call):
        """The statement of a row that a call has opened, which is a name with the file and line of its source.

        Without such a place calls are numbered from 2, in the order in which they are asked for. None is the
        start of a rank.
        """
        if call is None:
            return FIRST_STATEMENT
        if call not in self.numbers:
            name, place = call
            number = len(self.numbers) + 2 if place is None else place[1]
            number = self.numbers[call] = min(max(number, FIRST_STATEMENT), MOST_STATEMENT)
            where = "" if place is None else f" {place[0]}:{place[1]}"
            self.names.setdefault(number, set()).add(name.replace("PMPI_", "MPI_", 1) + where)
        return self.numbers[call]

    def listed(self):
        """(number, name) of each statement that a row has."""
        return [(number, name) for number in sorted(self.names) for name in sorted(self.names[number])]


class Reader:
    """Takes the lines of a trace one by one."""

    def __init__(self, unit, until):
        self.unit = unit
        self.until = until
        self.budget = Budget(self._advice)
        self.channels = Channels()
        self.statements = Statements()
        self.records = Records()
        self.handlers = {}
        self.container_types = set()
        self.state_types = set()
        self.link_types = set()
        self.values = {}
        self.containers = {}
        self.ranks = {}
        self.time = 0
        self.time_word = None
        self.line = 0
        self.notes = []
        self.is_cut = False

    def read(self, lines):
        """Reads all lines, or those up to the time at which the trace is cut. Answers the rows of each rank."""
        handlers = self.handlers
        for number, line in lines:
            self.line = number
            handler = handlers.get(line[:line.find(b" ")])
            if handler is None:
                self._other(number, line)
                continue
            take, least, places = handler
            words = split(line)
            if len(words) < least:
                raise TraceFault(number, "ends before its last field: the trace is cut or damaged; trace again")
            take(words, places, number)
            if self.is_cut:
                break
        return self._finish()

    def summary(self):
        """The tick at which the trace ends or is cut, and what each statement of a row stands for."""
        length = self.unit * PICOSECONDS_IN_NANOSECOND
        ended = (2 * self.time + length) // (2 * length)
        return [f"{'cut' if self.is_cut else 'ended'} {ended}"] + [
            f"stmt {number} {name}" for number, name in self.statements.listed()]

    # Lines that are no event.

    def _other(self, number, line):
        if number == 1:
            self._made_by(line)
        elif number == 2 and line.startswith(b"#["):
            self._options(text(line))
        elif line.startswith(b"%"):
            self._define(number, line)
        elif line.strip() and not line.startswith(b"#"):
            raise TraceFault(number, f"begins with {text(line[:20])}, which is no record that the trace defines: is "
                                     "it a whole Paje trace?")
        elif number == 2:
            raise TraceFault(2, "doesn't say how the trace was made; import the file as SimGrid wrote it")

    def _made_by(self, line):
        match = MADE_BY.match(line)
        if match is None:
            raise TraceFault(1, "isn't the first line of a trace by SimGrid; make the trace by smpirun -trace")
        if VERSION.match(text(match.group(1))) is None:
            raise TraceFault(1, f"names SimGrid {text(match.group(1))}, and what it writes twice is only known of "
                                "3.32; trace with that")

    def _options(self, words):
        for option in OPTIONS:
            if not re.search(rf"--cfg={option}:(yes|on|true|1)\b", words):
                raise TraceFault(2, f"lacks an option; trace again with --cfg={option}:yes")
        precision = PRECISION.search(words)
        if precision is None or int(precision.group(1)) < 9:
            self.notes.append("times are rounded to more than 1 ns; trace with --cfg=tracing/precision:12 for better")

    def _define(self, number, line):
        if number == 2:
            raise TraceFault(2, "doesn't say how the trace was made; import the file as SimGrid wrote it")
        key = self.records.define(line, number)
        if key is not None:
            name, least, places = self.records.by_number[key]
            self.handlers[key] = (self._handler(name), least, places)

    def _handler(self, name):
        return {
            b"PajeDefineContainerType": self._container_type,
            b"PajeDefineStateType": self._state_type,
            b"PajeDefineLinkType": self._link_type,
            b"PajeDefineEntityValue": self._value,
            b"PajeCreateContainer": self._create,
            b"PajeDestroyContainer": self._destroy,
            b"PajeSetState": self._no_such_state,
            b"PajePushState": self._push,
            b"PajePopState": self._pop,
            b"PajeResetState": self._no_such_state,
            b"PajeStartLink": self._start,
            b"PajeEndLink": self._end,
        }.get(name, self._nothing)

    # Events. Each takes the words of its line, the places of its fields (of which None is not there), and the
    # line's number.

    def _nothing(self, words, places, number):
        """Variables and events: no time passes in them, and no message."""

    def _container_type(self, words, places, number):
        alias, name = (words[place] for place in places)
        if name == b"MPI":
            self.container_types.add(alias)

    def _state_type(self, words, places, number):
        alias, name = (words[place] for place in places)
        if name == b"MPI_STATE":
            self.state_types.add(alias)

    def _link_type(self, words, places, number):
        alias, name = (words[place] for place in places)
        if name == b"MPI_LINK":
            self.link_types.add(alias)

    def _value(self, words, places, number):
        alias, kind, name = (words[place] for place in places)
        if kind in self.state_types:
            self.values[alias] = text(name)

    def _create(self, words, places, number):
        time, alias, kind, name = (words[place] for place in places)
        if not self._passes(time, number) or kind not in self.container_types:
            return
        match = RANK_NAME.match(name)
        if match is None or int(match.group(1)) in self.ranks:
            raise TraceFault(number, f"makes {text(name)}, which is no new rank; trace one program alone")
        rank = int(match.group(1))
        check_ranks(rank + 1, number)
        self.ranks[rank] = self.containers[alias] = Rank(Timeline(rank, self.unit, self.budget, self.channels))

    def _destroy(self, words, places, number):
        time, alias = (words[place] for place in places)
        if self._passes(time, number) and alias in self.containers:
            self.containers.pop(alias).destroy(number)

    def _no_such_state(self, words, places, number):
        if words[places[0]] in self.state_types:
            raise TraceFault(number, "sets a state of a rank, as SMPI never does; trace by smpirun -trace")

    def _push(self, words, places, number):
        if not self._passes(words[places[0]], number) or words[places[1]] not in self.state_types:
            return
        name = self.values.get(words[places[3]])
        if name is None:
            raise TraceFault(number, f"begins the state {text(words[places[3]])}, which isn't defined: is the trace "
                                     "whole?")
        place = None if places[4] is None else self._place(words, number)
        self._rank(words[places[2]], number).push(name, place, self.time, number)

    def _place(self, words, number):
        """The file and the line of the source, which stand last."""
        if not NUMBER.match(words[-1]):
            raise TraceFault(number, f"has {text(words[-1])} in place of a line of the source: is the trace whole?")
        return text(words[-2]).rsplit("/", 1)[-1], int(words[-1])

    def _pop(self, words, places, number):
        if self._passes(words[places[0]], number) and words[places[1]] in self.state_types:
            self._rank(words[places[2]], number).pop(self.time, number)

    def _start(self, words, places, number):
        if not self._passes(words[places[0]], number) or words[places[1]] not in self.link_types:
            return
        rank = self._rank(words[places[2]], number)
        source, target, tag = self._key(words[places[3]], number)
        if source != rank.timeline.rank:
            raise self._other_rank(words[places[3]], "a start", rank, number)
        if len(words) <= places[4] or not NUMBER.match(words[places[4]]):
            raise TraceFault(number, "is a message without its size; trace with --cfg=tracing/smpi/display-sizes:yes")
        rank.start(target, tag, int(words[places[4]]), self.time, number)

    def _end(self, words, places, number):
        if not self._passes(words[places[0]], number) or words[places[1]] not in self.link_types:
            return
        rank = self._rank(words[places[2]], number)
        source, target, tag = self._key(words[places[3]], number)
        if target != rank.timeline.rank:
            raise self._other_rank(words[places[3]], "an end", rank, number)
        rank.end(source, tag, self.time, number)

    def _other_rank(self, key, what, rank, number):
        return TraceFault(number, f"is {what} of rank {rank.timeline.rank} with the key {text(key)}, which names "
                                  "another rank; trace with sends and receives alone")

    def _key(self, key, number):
        """The ranks and the tag in the key of a link, where processes are counted from 1."""
        match = KEY.match(key)
        if match is None:
            raise TraceFault(number, f"has the key {text(key)}, which is none of SMPI; trace by smpirun -trace")
        source, target, tag = map(int, match.groups())
        return source - FIRST_PROCESS, target - FIRST_PROCESS, tag

    def _rank(self, alias, number):
        rank = self.containers.get(alias)
        if rank is None:
            raise TraceFault(number, f"names the container {text(alias)}, which is no rank at that time")
        return rank

    def _passes(self, word, number):
        """Takes the time of an event. False where the trace is cut before it."""
        if word == self.time_word:
            return True
        time = picoseconds(word, number)
        if self.until is not None and time > self.until:
            self.is_cut = True
            self.time = self.until
            return False
        if time < self.time:
            raise TraceFault(number, f"goes back in time to {text(word)}; import the file as SimGrid wrote it")
        self.time = time
        self.time_word = word
        return True

    # The end.

    def _finish(self):
        if not self.ranks:
            raise TraceFault(self.line, "ends a trace without ranks; trace by smpirun -trace")
        if len(self.ranks) <= max(self.ranks):
            lost = next(rank for rank in range(len(self.ranks)) if rank not in self.ranks)
            raise TraceFault(self.line, f"ends a trace without rank {lost}: is it whole?")
        for rank in self.containers.values():
            if not self.is_cut:
                raise TraceFault(self.line, f"is the last, and rank {rank.timeline.rank} hasn't ended: the trace is "
                                            "cut; copy it again or trace again, or import a part by --until")
            rank.cut(self.time, self.line)
        chares = [self.ranks[rank].timeline.rows for rank in range(len(self.ranks))]
        for row in (row for chare in chares for row in chare):
            row.statement = self.statements.number(row.statement)
            for send in row.sends:
                if not 0 <= send.target < len(chares):
                    raise TraceFault(send.line, f"sends to rank {send.target}, which isn't there: is the trace whole?")
        return chares

    def _advice(self):
        """What to do about a log that is too long: nine tenths of the time till now may do."""
        microseconds = self.time * 9 // 10 ** 7
        return ("trace a shorter run, or import the first part of this one, such as by "
                f"--until {microseconds // 10 ** 6}.{microseconds % 10 ** 6:06d}")
