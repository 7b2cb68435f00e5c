"""What an import is refused for."""

# The codes are those that the C library's sysexits.h has for such ends.
BAD_WORDS = 64
BAD_TRACE = 65
NO_INPUT = 66
NO_OUTPUT = 73


class Refusal(Exception):
    """The import ends with a code and one line on standard error. Nothing is written."""

    def __init__(self, code, text):
        super().__init__(text)
        self.code = code


class TraceFault(Exception):
    """A line of the trace is at fault, or what it says can't be written as a log. Lines count from 1."""

    def __init__(self, line, why):
        super().__init__(why)
        self.line = line
