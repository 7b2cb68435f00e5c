"""The rules that a program breaks, statement by statement, with the names that the program's message leaves out."""
import difflib
import re

ROLES = {"scalar": "variable", "array": "array", "entry": "entry"}
A_ROLE = {"scalar": "a variable without an index", "array": "an array", "entry": "an entry"}
LIMITS = (
    "1 to 65,536 chares; at most 1,000 variables and 1,000 entries; at most 16 parameters; arrays of 1 to 65,536 "
    "cells; at most 65,536 cells in all, and 4,194,304 over all chares"
)


def of_statement(source, number, why):
    """The lines that show why statement `number` is refused; 0 stands for the declarations."""
    if number == 0:
        return of_declarations(source, why)
    statement = source.statement(number)
    if statement is None:
        return []
    match = re.fullmatch(r"interference var (\d+) parts (\d+) (\d+)", why)
    if match:
        return interference(source, statement, *(int(it) for it in match.groups()))
    special = {"unknown name": unknown_name, "arity": arity}.get(why)
    found = special(source, statement) if special else None
    if found:
        return found
    notes = {
        "idle loop": "this loop could turn for ever without a block: put an empty 'serial { }' into its body",
        "limits": "a 'when' waits for at most 64 messages",
    }
    return source.point(statement.start, notes.get(why, why))


def of_declarations(source, why):
    """What is wrong with the declarations."""
    seen = {}
    for it in source.program.declarations:
        name = it.name.text
        if why == "declared twice" and name in seen:
            first = source.lines.place(seen[name].start)
            note = f"'{name}' is declared before, at line {first.line}"
            return source.point(it.name.start, note)
        seen[name] = it.name
    if why == "limits":
        return of_limits(source)
    return []


def of_limits(source):
    """Which limit of the declarations is passed, where one of them alone passes it."""
    chares = source.program.chares
    if chares is not None and not 1 <= int(chares.text) <= 65_536:
        return source.point(chares.start, "there are 1 to 65,536 chares")
    for it in source.program.declarations:
        if it.role == "array" and not 1 <= it.number <= 65_536:
            return source.point(it.name.start, "an array has 1 to 65,536 cells")
        if it.role == "entry" and it.number > 16:
            return source.point(it.name.start, "an entry has at most 16 parameters")
    return [f"{source.path}: {LIMITS}"]


def unknown_name(source, statement):
    """The first name of the statement that isn't declared as what it is used for."""
    declared = {it.name.text: it for it in reversed(source.program.declarations)}
    for use in statement.uses:
        name, found = use.token.text, declared.get(use.token.text)
        if found is not None and found.role == use.role:
            continue
        return source.point(use.token.start, why_unknown(name, use.role, found, declared))
    return None


def why_unknown(name, role, found, declared):
    """Why a name can't stand here."""
    if found is not None:
        return f"'{name}' is declared as {A_ROLE[found.role]}, and used as {A_ROLE[role]}"
    same = [it for it, declaration in declared.items() if declaration.role == role]
    close = difflib.get_close_matches(name, same, 1)
    hint = f" (is it '{close[0]}'?)" if close else ""
    return f"no {ROLES[role]} '{name}' is declared{hint}"


def arity(source, statement):
    """The first message or wait of the statement with another number of arguments than its entry has."""
    entries = source.program.declared("entry")
    for call in statement.calls:
        entry = entries.get(call.entry.text)
        if entry is not None and entry.number != call.arguments:
            plural = "s" * (entry.number != 1)
            stand = "stands" if call.arguments == 1 else "stand"
            has = f"'{call.entry.text}' has {entry.number} parameter{plural}"
            note = f"{has}, and {call.arguments} {stand} here"
            return source.point(call.entry.start, note)
    return None


def interference(source, statement, variable, one, other):
    """The two parts of an `overlap` that touch one variable, and where each does."""
    name = source.variable(variable)
    note = f"two parts of this 'overlap' touch the variable {name}, and one of them writes it"
    found = source.point(statement.start, note)
    for number in (one, other):
        if number >= len(statement.parts):
            continue
        part = statement.parts[number]
        uses = [it for it in part.all_uses() if it.role != "entry" and f"'{it.token.text}'" == name]
        written = [it for it in uses if it.is_written]
        use = (written or uses or [None])[0]
        byte = use.token.start if use else part.start
        how = "writes" if written else "reads"
        found += source.point(byte, f"part {number}, '{source.head(part.number, 30)}', {how} {name} here")
    return found
