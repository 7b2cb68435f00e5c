"""The command `import`."""
import itertools
import os
import re
import sys

from . import goal, smpi_trace
from .faults import BAD_TRACE, BAD_WORDS, NO_INPUT, Refusal, TraceFault
from .lines import Lines, opened
from .logs import write_log
from .mapping import finish

USAGE = "usage: ./pochvean import TRACE LOG [--from paje|goal] [--unit N] [--until SECONDS]"
MOST_UNIT = 10 ** 9
NUMBER = re.compile(r"[1-9][0-9]{0,9}\Z")
SECONDS = re.compile(r"([0-9]{1,9})(?:\.([0-9]{1,12}))?\Z")
FORMATS = ("paje", "goal")


class Words:
    """What the words ask for. `unit` is the nanoseconds of a tick, `until` a time in picoseconds or None."""

    def __init__(self, words):
        self.format = None
        self.unit = 1
        self.until = None
        names = []
        seen = set()
        rest = iter(words)
        for word in rest:
            if word in ("--from", "--unit", "--until") and word not in seen:
                seen.add(word)
                self._option(word, next(rest, None))
            elif word.startswith("-") or not word:
                raise bad_words()
            else:
                names.append(word)
        if len(names) != 2:
            raise bad_words()
        self.trace, self.log = names

    def _option(self, name, value):
        if name == "--from" and value in FORMATS:
            self.format = value
        elif name == "--unit" and value and NUMBER.match(value) and int(value) <= MOST_UNIT:
            self.unit = int(value)
        elif name == "--until" and value and (match := SECONDS.match(value)):
            whole, part = match.groups("")
            self.until = int(whole + part.ljust(12, "0"))
        else:
            raise bad_words()


def bad_words():
    return Refusal(BAD_WORDS, f"bad words; {USAGE}")


def main(words):
    """Imports a trace as the words behind `import` ask. Answers the exit code."""
    try:
        lines = run(Words(words))
    except Refusal as refusal:
        print(f"import: {refusal}", file=sys.stderr)
        return refusal.code
    try:
        print("\n".join(lines), flush=True)
    except BrokenPipeError:
        os.dup2(os.open(os.devnull, os.O_WRONLY), sys.stdout.fileno())
    return 0


def run(words):
    """Imports the trace, and answers the lines that tell of it."""
    if os.path.exists(words.log) and os.path.exists(words.trace) and os.path.samefile(words.trace, words.log):
        raise Refusal(BAD_WORDS, f"{words.log} is the trace itself; name another file for the log")
    try:
        with opened(words.trace) as file:
            reader, chares = read(words, Lines(file))
        left = reader.channels.match()
        rows = finish(chares)
    except TraceFault as fault:
        raise Refusal(BAD_TRACE, f"{words.trace} line {fault.line} {fault}") from None
    except OSError as error:
        raise Refusal(NO_INPUT, f"{words.trace} can't be read: {error.strerror or error}") from None
    write_log(words.log, len(chares), rows)
    tell_notes(reader, left)
    return told(reader, len(chares), rows)


def read(words, lines):
    """Reads the lines by the format that was asked for, or that they show."""
    lines = iter(lines)
    begun = []
    for number, line in lines:
        begun.append((number, line))
        shown = shown_format(line)
        if shown is not None:
            break
    else:
        raise TraceFault(max(len(begun), 1), "isn't there or is blank: the trace is empty")
    kind = words.format or shown
    lines = itertools.chain(begun, lines)
    if kind == "paje":
        reader = smpi_trace.Reader(words.unit, words.until)
    elif kind == "goal":
        if words.until is not None:
            raise Refusal(BAD_WORDS, "a GOAL schedule has no times, so --until can't be taken; leave it out")
        reader = goal.Reader(words.unit)
    else:
        raise TraceFault(begun[-1][0], "begins no trace of SMPI and no GOAL schedule; docs/import.md says how they "
                                       "are made")
    return reader, reader.read(lines)


def shown_format(line):
    """The format that a first line shows; "" where it shows another, and None where it shows nothing."""
    line = line.strip()
    if line.startswith(b"#This file was generated using SimGrid") or line.startswith(b"%EventDef"):
        return "paje"
    if line.startswith(b"num_ranks"):
        return "goal"
    if not line or line.startswith(b"//") or line.startswith(b"/*"):
        return None
    return ""


def tell_notes(reader, left):
    for note in reader.notes:
        print(f"import: note: {note}", file=sys.stderr)
    if left and not reader.is_cut:
        print(f"import: note: {len(left)} messages are never received, the first of rank {left[0].row.chare} to rank "
              f"{left[0].target}, in line {left[0].line}", file=sys.stderr)


def told(reader, ranks, rows):
    """What the log has, and what its statements stand for."""
    lines = [f"ranks {ranks} rows {len(rows)} messages {sum(len(row.sends) for row in rows)} "
             f"lines {reader.budget.used}"]
    lines += reader.summary()
    return lines
