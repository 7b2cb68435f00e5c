"""From a line of the program to the place that it means: file, line, column, the line itself and a caret."""
import os
import re

from front import hints
from front.faults import of_statement
from front.lines import Lines, with_caret, cut_to
from front.syntax import read, read_tokens

# The most that is read of a file in order to point into it, in bytes: the program itself reads no more.
MOST_BYTES = 67_108_864
# How long the head of a statement may be in a line of text.
HEAD = 60
MOST_ENDS = 10


def read_file(path):
    """The bytes of a file that can be read again, or None. A pipe can't, since the program has read it."""
    try:
        if not os.path.isfile(path):
            return None
        with open(path, "rb") as file:
            return file.read(MOST_BYTES)
    except (OSError, ValueError):
        return None


def pointed(path, lines, byte, note):
    """The lines that show a byte of a file: its place with a note, the source line and a caret."""
    place = lines.place(byte)
    text = lines.text(place.line)
    shown = with_caret(text, place.column) if text.strip() else []
    return [f"{path}:{place.line}:{place.column}: {note}", *shown]


class Source:
    """A program's file as it is pointed into."""

    def __init__(self, path, data):
        self.path, self.data = path, data
        self.lines = Lines(data)
        self.program = read(data)

    def statement(self, number):
        """The statement of a number, or None where so many weren't read."""
        found = self.program.statements
        return found[number - 1] if 1 <= number <= len(found) else None

    def head(self, number, width=HEAD):
        """The head of a statement in one line."""
        statement = self.statement(number)
        if statement is None:
            return f"statement {number}"
        return cut_to(self.data[statement.start:statement.end].decode("utf-8", "replace"), width)

    def where(self, number):
        """`file:line:column` of a statement, or the file alone."""
        statement = self.statement(number)
        if statement is None:
            return f"{self.path}:"
        place = self.lines.place(statement.start)
        return f"{self.path}:{place.line}:{place.column}:"

    def entry(self, number):
        """An entry by its number, with its name where that is known."""
        names = self.program.entries()
        return f"'{names[number]}'" if number < len(names) else f"number {number}"

    def variable(self, number):
        """A variable by its number, with its name where that is known."""
        names = self.program.variables()
        return f"'{names[number]}'" if number < len(names) else f"number {number}"

    def point(self, byte, note):
        """The lines that show a byte."""
        return pointed(self.path, self.lines, byte, note)

    def point_at(self, number, note):
        """The lines that show the beginning of a statement."""
        statement = self.statement(number)
        return [f"{self.path}: {note}"] if statement is None else self.point(statement.start, note)


def source_of(path):
    """The source in a file, or None where it can't be read."""
    data = read_file(path)
    return None if data is None else Source(path, data)


def bad_program(line, path):
    """Points at the first fault of a text that is no program."""
    match = re.fullmatch(r"bad program: byte (\d+) (.*)", line)
    source = source_of(path)
    if not match or source is None:
        return []
    byte, why = int(match[1]), match[2]
    if byte > len(source.data):
        return []
    return source.point(byte, note_of(source, byte, why) or why)


def note_of(source, byte, why):
    """What is to be said of the first fault, or None where nothing more is known."""
    if why == "not utf-8":
        return "the bytes from here on are no UTF-8"
    if why == "bad character":
        return hints.of_characters(source.data, byte)
    if why == "bad number":
        token = next((it for it in read_tokens(source.data) if it.start == byte), None)
        return hints.of_numbers(token) if token else None
    if why == "too deep":
        return "at most 64 brackets are open at once, and one expression has at most 64 operators"
    if why == "too many statements":
        return "a program has at most 10,000 statements"
    fault = source.program.fault
    if fault is None or source.program.tokens[fault.index].start != byte:
        return None
    return note_of_fault(source)


def note_of_fault(source):
    """What was wanted at the first fault of a program that was read, or None."""
    note, opening = hints.hint(source.program), hints.never_closed(source.program)
    if note is None or opening is None:
        return note
    place = source.lines.place(opening.start)
    return f"{note}, and the '{opening.text}' at {place.line}:{place.column} is still open"


def check_failed(line, path):
    """Points at the statement that breaks a rule."""
    match = re.fullmatch(r"check failed: stmt (\d+) (.*)", line)
    source = source_of(path)
    if not match or source is None or source.program.fault is not None:
        return []
    return of_statement(source, int(match[1]), match[2])


def ambiguous(line, path):
    """Points at the two statements that send or ask for one key."""
    match = re.fullmatch(
        r"ambiguous: chare (\d+) entry (\d+) ref (-?\d+) (sent|asked) by "
        r"chare (\d+) stmt (\d+) and chare (\d+) stmt (\d+)",
        line,
    )
    source = source_of(path)
    if not match or source is None:
        return []
    chare, entry, ref, how = match[1], source.entry(int(match[2])), match[3], match[4]
    verb = {"sent": "sends", "asked": "asks for"}[how]
    what = ("" if how == "asked" else f"chare {chare} ") + f"the message {entry} of reference {ref}"
    found = []
    first, second = (match[5], int(match[6])), (match[7], int(match[8]))
    for (who, number), again in ((first, ""), (second, " too")):
        found += source.point_at(number, f"chare {who} {verb} {what} here{again}")
    return found


WHY_OF_LOGS = {
    "bad line": "no such line can stand here",
    "bad reference": "it names a row, a send, a chare or an entry that it can't name here",
    "bad depth": "the depth isn't 1 plus the greatest depth of the row's causes",
    "twice used": "an earlier line has the same chare, entry and reference number",
    "limits": "there are more chares, entries, rows or lines than a log may have",
}


def bad_log(line, path):
    """Shows the first line at fault of a text that is no log."""
    match = re.fullmatch(r"bad log: line (\d+) (.*)", line)
    data = read_file(path)
    if not match or data is None:
        return []
    lines, number = Lines(data), int(match[1])
    why = WHY_OF_LOGS.get(match[2], match[2])
    if number > len(lines) or number == 1 and not data:
        return [f"{path}:{number}:1: the text ends before this line, so a line is missing"]
    if number == len(lines.starts) and match[2] == "bad line":
        why = "a line feed is wanted at the end of this line, or it can't stand here"
    return [f"{path}:{number}:1: {why}", *with_caret(lines.text(number), 1)]


def bad_machine(line, path):
    """Points at the key of a machine's file that is at fault."""
    match = re.fullmatch(r"bad machine: (missing|out of range) ([\w.]+)", line)
    data = read_file(path)
    if not match or data is None:
        return []
    table, _, key = match[2].rpartition(".")
    byte = byte_of_key(data, table, key)
    lines = Lines(data)
    if byte is None:
        return [f"{path}: the table [{table}] wants a line '{key} = ..' (docs/machine-file.md)"]
    return pointed(path, lines, byte, f"{match[1]}: docs/machine-file.md has the range of {match[2]}")


def byte_of_key(data, table, key):
    """Where a key of a table stands in a TOML text that is written as usual, or None."""
    inside = ""
    for match in re.finditer(rb"(?m)^[ \t]*(?:\[[ \t]*([\w.]+)[ \t]*\]|([\w]+)[ \t]*=)", data):
        if match[1]:
            inside = match[1].decode()
        elif inside == table and match[2].decode() == key:
            return match.start(2)
    return None


END = re.compile(rb"^(?:trap chare (\d+) stmt (\d+) (\w+)|wait chare (\d+) stmt (\d+) entry (\d+) ref (-?\d+))$", re.M)
LOG_END = re.compile(rb"^(?:trap (\d+) (\d+) (\d+)|wait (\d+) (\d+) (\d+) (-?\d+))$", re.M)
KINDS = ("overflow", "divisor", "index", "target", "work", "bytes", "cost", "steps")
TRAPS = {
    "overflow": "a result isn't in the range of 64 bits",
    "divisor": "a division by 0",
    "index": "an index isn't in its array",
    "target": "a message goes to a chare that isn't there",
    "work": "an amount of work isn't in 0 to 2^30",
    "bytes": "a number of bytes isn't in 0 to 2^30",
    "cost": "the cost of the block passes 2^32",
    "steps": "the block makes more than 100,000 steps",
}


def ends_of(text, form=END):
    """The traps and waits of a report, or with LOG_END of a log, as (chare, statement, what)."""
    found = []
    for match in form.finditer(text):
        if match[1]:
            word = match[3].decode()
            word = KINDS[int(word) - 1] if word.isdigit() and 1 <= int(word) <= len(KINDS) else word
            found.append((int(match[1]), int(match[2]), word))
        else:
            found.append((int(match[4]), int(match[5]), (int(match[6]), match[7].decode())))
    return found


def explain_ends(ends, path):
    """A line for each trap and wait, at most ten, and then how many more there are."""
    source = source_of(path)
    if source is None or source.program.fault is not None:
        return []
    found = []
    for chare, number, what in ends[:MOST_ENDS]:
        head = f"{source.where(number)} chare {chare}"
        if isinstance(what, str):
            found.append(f"{head} stops at '{source.head(number)}': {TRAPS.get(what, what)}")
        else:
            entry, ref = what
            message = f"{source.entry(entry)} of reference {ref}"
            found.append(f"{head} waits at '{source.head(number)}' for {message}, which nobody sends")
    if len(ends) > MOST_ENDS:
        found.append(f"{source.path}: and {len(ends) - MOST_ENDS} more")
    return found
