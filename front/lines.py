"""Lines of a text: where a byte stands, and how a place in a line is shown."""
import unicodedata
from bisect import bisect_right
from typing import NamedTuple

# As many columns of a source line as are shown at most.
WIDTH = 100
CUT = ".."


class Place(NamedTuple):
    """A place in a text: its line and its column, both from 1; columns are characters."""

    line: int
    column: int


class Lines:
    """The lines of a text of bytes."""

    def __init__(self, data: bytes):
        self.data = data
        self.starts = [0]
        at = data.find(b"\n")
        while at >= 0:
            self.starts.append(at + 1)
            at = data.find(b"\n", at + 1)

    def __len__(self):
        """How many lines there are. A line feed at the end begins no further one."""
        return len(self.starts) - (self.starts[-1] == len(self.data) and len(self.starts) > 1)

    def place(self, byte) -> Place:
        """The place of a byte, which may be the one behind the last."""
        byte = max(0, min(byte, len(self.data)))
        line = bisect_right(self.starts, byte)
        return Place(line, len(decoded(self.data[self.starts[line - 1]:byte])) + 1)

    def text(self, line) -> str:
        """The text of a line from 1, without its end. Behind the last line it is empty."""
        if not 1 <= line <= len(self.starts):
            return ""
        end = self.starts[line] - 1 if line < len(self.starts) else len(self.data)
        return decoded(self.data[self.starts[line - 1]:end]).rstrip("\r")


def decoded(data: bytes) -> str:
    """The bytes as characters. What is no UTF-8 gets a character of its own."""
    return data.decode("utf-8", "replace")


def shown(character) -> str:
    """How a character of a source line is shown: controls would move the terminal, so they get a mark."""
    if character == "\t":
        return " "
    return character if character.isprintable() else "\ufffd"


def width_of(character) -> int:
    """How many columns of a terminal a character takes."""
    if unicodedata.combining(character):
        return 0
    return 2 if unicodedata.east_asian_width(character) in "WF" else 1


def with_caret(text, column):
    """Two lines: the source line, cut to fit, and a caret below the character at the column."""
    at = min(column - 1, len(text))
    first = 0 if len(text) <= WIDTH or at < WIDTH * 3 // 4 else at - WIDTH // 2
    last = min(len(text), first + WIDTH)
    before = (CUT if first else "") + "".join(map(shown, text[first:at]))
    line = before + "".join(map(shown, text[at:last])) + (CUT if last < len(text) else "")
    return ["  " + line.rstrip(), "  " + " " * sum(map(width_of, before)) + "^"]


def cut_to(text, width):
    """The text in one line, with single spaces, cut to a width."""
    text = "".join(map(shown, " ".join(text.split())))
    return text if len(text) <= width else text[: width - len(CUT)].rstrip() + CUT
