"""Lines on standard error. Whatever becomes of them, they stop nothing."""
import os
import sys
import time

# How often a line of progress is written where standard error is no terminal, in seconds.
NOW_AND_THEN = 60
# How often the moving line of a terminal is written anew, in seconds.
OFTEN = 0.5


def plain(text):
    """The text as bytes of UTF-8, with the bytes of names that aren't as they were given."""
    return text.encode("utf-8", "surrogateescape")


def tell(text):
    """Writes a line of the script, which begins with its name."""
    tell_as_is(f"pochvean: {text}")


def tell_as_is(text):
    """Writes lines to standard error."""
    write_all(2, plain(text + "\n"))


def write_all(descriptor, data):
    """Writes all bytes, and returns whether that could be done."""
    try:
        left = memoryview(data)
        while left:
            left = left[os.write(descriptor, left):]
    except OSError:
        return False
    return True


def is_terminal():
    """Whether standard error is a terminal that a line can move on."""
    try:
        return os.isatty(2) and os.environ.get("TERM", "") != "dumb"
    except OSError:
        return False


def spell_time(seconds):
    """A time in words: `42 seconds`, `1 minute 5 seconds`, `12 minutes`."""
    minutes, seconds = divmod(int(seconds), 60)
    words = [f"{minutes} minute{'s' * (minutes != 1)}"] if minutes else []
    if minutes < 10 and (seconds or not minutes):
        words.append(f"{seconds} second{'s' * (seconds != 1)}")
    return " ".join(words)


class Progress:
    """Shows that something goes on: a moving line on a terminal, and else a line now and then."""

    def __init__(self, what):
        self.what, self.more = what, ""
        self.begun = self.last = time.monotonic()
        self.moves = is_terminal()
        self.width = 0

    def elapsed(self):
        """The time since the beginning, in seconds."""
        return time.monotonic() - self.begun

    def step(self, more=None):
        """Takes what is to be added to the line, if that has changed, and writes the line where it is due."""
        is_news = more is not None and more != self.more
        self.more = more if is_news else self.more
        due = OFTEN if self.moves else NOW_AND_THEN
        now = time.monotonic()
        if now - self.last < due and not is_news:
            return
        self.last = now
        line = f"pochvean: {self.what}{self.more}, {spell_time(self.elapsed())} so far"
        if not self.moves:
            tell_as_is(line)
            return
        room = terminal_width() - 1
        line = line[:room]
        write_all(2, plain("\r" + line + " " * max(0, min(self.width, room) - len(line))))
        self.width = len(line)

    def end(self):
        """Takes the moving line away."""
        if self.moves and self.width:
            write_all(2, plain("\r" + " " * self.width + "\r"))
            self.width = 0


def terminal_width():
    """The width of the terminal on standard error, in columns."""
    try:
        return max(20, os.get_terminal_size(2).columns)
    except (OSError, ValueError):
        return 80


def flush_all():
    """Writes what Python holds back for standard output, and returns whether that could be done."""
    try:
        if sys.stdout is not None:
            sys.stdout.flush()
    except OSError:
        return False
    return True
