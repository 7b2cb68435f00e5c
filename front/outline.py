"""`outline PROG`: each statement with its number, its place and its head, as reports and refusals number them."""
import sys

from front import codes, hints
from front.afterwards import missing, unreadable
from front.pointing import Source, note_of_fault
from front.telling import plain, tell, tell_as_is
from front.words import Read

# The width of a line, in columns.
WIDTH = 100


def main(words):
    """Prints the outline of the program in a file, and returns the exit code."""
    if len(words) != 1 or not words[0] or words[0].startswith("-"):
        tell_as_is("usage: ./pochvean outline PROG")
        return codes.BAD_SCRIPT_WORDS
    path = words[0]
    try:
        with open(path, "rb") as file:
            source = Source(path, file.read())
    except FileNotFoundError:
        tell(missing(Read("check", [path], {}), words)[0])
        return codes.NO_FILE
    except (OSError, ValueError):
        tell(unreadable(Read("check", [path], {}), words)[0])
        return codes.READ_FAULT
    sys.stdout.buffer.write(plain("".join(f"{it}\n" for it in outline(source))))
    return told_fault(source)


def outline(source):
    """The lines of an outline."""
    statements = source.program.statements
    digits = len(str(len(statements)))
    places = [source.lines.place(it.start) for it in statements]
    width = max((len(f"{it.line}:{it.column}") for it in places), default=0)
    found = []
    for statement, place in zip(statements, places):
        front = f"{statement.number:>{digits}}  {f'{place.line}:{place.column}':<{width}}  {'  ' * statement.depth}"
        found.append((front + source.head(statement.number, max(20, WIDTH - len(front)))).rstrip())
    return found


def told_fault(source):
    """Says where the reading stopped, if it did, and returns the exit code."""
    fault = source.program.fault
    if fault is None:
        return codes.SETTLED
    token = source.program.tokens[fault.index]
    tell("this is no program, so the outline ends where it goes wrong:")
    note = hints.of_characters(source.data, token.start) if token.kind == "bad" else note_of_fault(source)
    tell_as_is("\n".join(source.point(token.start, note or "unexpected")))
    return codes.BAD_PROGRAM
