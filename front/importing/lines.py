"""The lines of a trace, which may be packed by gzip, one after the other."""
import contextlib
import gzip
import sys
import time
import zlib

from .faults import TraceFault

BLOCK = 1 << 20
LONGEST = 1 << 16
SECONDS_BETWEEN_NOTES = 10
GZIP_MAGIC = b"\x1f\x8b"


def text(word):
    """The bytes as a text for a message."""
    return word.decode("ascii", "backslashreplace")


@contextlib.contextmanager
def opened(path):
    """The bytes of the file, unpacked where it begins as gzip does. OSError where it can't be opened or read."""
    with open(path, "rb") as file:
        if file.peek(2)[:2] == GZIP_MAGIC:
            with gzip.GzipFile(fileobj=file) as unpacked:
                yield unpacked
        else:
            yield file


class Lines:
    """Gives (number, line without its line feed) for each line. Only a block of the trace is held.

    A line that isn't ended, or is longer than any of a trace, is a fault. So is a packed file that is cut or
    damaged. On a long trace a line on standard error tells now and then how far it is.
    """

    def __init__(self, file):
        self.file = file
        self.number = 0
        self.size = 0
        self.told = time.monotonic()

    def __iter__(self):
        rest = b""
        while block := self._block():
            pieces = block.split(b"\n")
            pieces[0] = rest + pieces[0]
            rest = pieces.pop()
            number = self.number
            for line in pieces:
                number += 1
                self.number = number
                yield number, line
            if len(rest) > LONGEST:
                raise TraceFault(self.number + 1, "is longer than a line of a trace: is this file a trace?")
            self._note()
        if rest:
            raise TraceFault(self.number + 1, "has no line feed: the trace is cut; copy it again or trace again")

    def _block(self):
        try:
            block = self.file.read(BLOCK)
        except EOFError:
            raise TraceFault(self.number + 1, "can't be unpacked: the gzip file is cut; copy it again") from None
        except (gzip.BadGzipFile, zlib.error):
            raise TraceFault(self.number + 1, "can't be unpacked: the gzip file is damaged; copy it again") from None
        self.size += len(block)
        return block

    def _note(self):
        now = time.monotonic()
        if now - self.told >= SECONDS_BETWEEN_NOTES:
            self.told = now
            print(f"import: {self.size >> 20} MiB read, {self.number} lines", file=sys.stderr, flush=True)
