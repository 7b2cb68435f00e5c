"""What the program answers about a log on a machine: all numbers that are shown come from here."""
import os
import re
import shutil
import stat
import tempfile
from contextlib import contextmanager

from front.show.files import CannotWrite
from front.show.logs import Unreadable, is_log, read_log
from front.show.words import BadWords

ENDED = {0: "settled", 3: "deadlock", 4: "trapped"}
"""The codes with which the program has told a run to its end, and how it ended."""

_MOST_BYTES = 67_108_864
"""A log that the program reads has no more bytes."""

_BLOCK = re.compile(rb"^block \d+ chare (\d+) stmt (\d+) proc (\d+) start (\d+) end (\d+)$", re.MULTILINE)
_SPAN = re.compile(rb"^span (\d+)$", re.MULTILINE)
_PROC = re.compile(rb"^proc (\d+) blocks (\d+) busy (\d+) use (\d+)$", re.MULTILINE)
_RUN = re.compile(rb"^run (\d+) ready (\d+) start (\d+) end (\d+)$", re.MULTILINE)
_MAIL = re.compile(rb"^mail \d+ \d+ left (\d+) came (\d+)$", re.MULTILINE)


class Refused(Exception):
    """The program refused a step: its code and what it wrote to standard error."""

    def __init__(self, answer):
        super().__init__(answer.code)
        self.code = answer.code
        self.said = answer.err


class Processor:
    """The line of a processor in the report. `use` is in hundredths of a percent of the span."""

    def __init__(self, number, blocks, busy, use):
        self.number = number
        self.blocks = blocks
        self.busy = busy
        self.use = use


class Report:
    """The report of a log on a machine. Block N stands at N - 1 of each list."""

    def __init__(self, code, text):
        self.code = code
        self.status = ENDED[code]
        self.chares, self.stmts, self.procs, self.starts, self.ends = _columns(_BLOCK, text, 5)
        self.span = int(_SPAN.search(text).group(1))
        self.processors = [Processor(*map(int, found)) for found in _PROC.findall(text)]
        """The processors that ran a block, in rising order."""

    def lanes(self):
        """The place of each processor among those that ran a block, from 0."""
        return {processor.number: lane for lane, processor in enumerate(self.processors)}

    def mean_use(self):
        """The mean use of the processors that ran a block, in hundredths of a percent, rounded down."""
        whole = self.span * len(self.processors)
        return 10_000 * sum(processor.busy for processor in self.processors) // whole if whole else 0


class Trace:
    """When each row was ready, and when each message left and came, in the order of the log."""

    def __init__(self, text, report):
        rows, readies, starts, ends = _columns(_RUN, text, 4)
        if sorted(rows) != list(range(1, len(report.starts) + 1)):
            raise Unreadable
        self.readies = [0] * len(rows)
        for row, ready, start, end in zip(rows, readies, starts, ends):
            self.readies[row - 1] = ready
            if (start, end) != (report.starts[row - 1], report.ends[row - 1]):
                raise Unreadable
        self.lefts, self.cames = _columns(_MAIL, text, 2)


def _columns(pattern, text, count):
    """The numbers that a pattern finds, a list for each of its groups."""
    found = pattern.findall(text)
    return [list(map(int, column)) for column in zip(*found)] if found else [[] for _ in range(count)]


class Run:
    """A log on a machine. The report is asked for at once, the trace and the log where they are needed."""

    def __init__(self, ask, log, machine, options):
        self._ask, self._words, self._path = ask, [log, machine], log
        self._trace = self._log = None
        answer = told(ask, ["predict", log, machine, *options])
        self.report = Report(answer.code, answer.out)

    @property
    def trace(self):
        if self._trace is None:
            self._trace = Trace(told(self._ask, ["trace", *self._words]).out, self.report)
        return self._trace

    @property
    def log(self):
        if self._log is None:
            self._log = read_log(_whole(self._path))
            if len(self._log.costs) != len(self.report.starts) or len(self._log.senders) != len(self.trace.lefts):
                raise Unreadable
        return self._log


def told(ask, words):
    """What the program answers where it comes to the end of a run."""
    answer = ask(words)
    if answer.code not in ENDED:
        raise Refused(answer)
    return answer


@contextmanager
def asked(ask, request):
    """The run that a request asks for. The log of a program is in a file meanwhile, and so is what comes by a pipe."""
    try:
        folder = tempfile.mkdtemp(prefix="pochvean-")
    except OSError as fault:
        raise CannotWrite(f"a temporary file: {fault.strerror}") from fault
    try:
        source = _kept(request.source, os.path.join(folder, "source"))
        machine = request.machine
        if not machine.startswith("flat:"):
            machine = _kept(machine, os.path.join(folder, "machine"))
        if _is_program(source):
            log = os.path.join(folder, "log")
            told(ask, ["emulate", source, log, *request.option("--limit", request.limit)])
            source = log
        elif request.limit:
            raise BadWords("--limit goes with a program, and this is a log")
        yield Run(ask, source, machine, request.option("--waves", request.waves))
    finally:
        shutil.rmtree(folder, ignore_errors=True)


def _whole(path):
    """What is in a file that the program has read."""
    try:
        with open(path, "rb") as it:
            return it.read()
    except OSError as fault:
        raise Unreadable from fault


def _kept(name, copy):
    """The name of a file that can be read more than once: where this one is a pipe, that of a copy."""
    try:
        if stat.S_ISREG(os.stat(name).st_mode) or os.path.isdir(name):
            return name
        with open(name, "rb") as it, open(copy, "wb") as out:
            out.write(it.read(_MOST_BYTES + 1))
        return copy
    except OSError:
        return name


def _is_program(path):
    """Whether a file can be read and isn't a log. What is wrong with another one the program itself says."""
    try:
        with open(path, "rb") as it:
            return not is_log(it.read(5))
    except OSError:
        return False
