"""The words of `show`."""
import argparse
import os

USAGE = """\
usage: ./pochvean show LOG MACHINE [option]..
       ./pochvean show PROG MACHINE [option]..

draws when each processor is busy: on the terminal, or where one of these options is given, as it says:

  --svg FILE        writes a picture to FILE
  --perfetto FILE   writes a trace that ui.perfetto.dev opens to FILE
  --csv FILE        writes a line for each block and for each message to FILE
  --summary         prints tables of the processors and of the statements
  --text            draws on the terminal too

  --by chare        colours are those of the chares, which is the default
  --by stmt         colours are those of the statements
  --width N         the terminal form has lines of N characters, 40 to 1000
  --ascii           the terminal form has plain characters alone
  --limit N         as with 'emulate', for a PROG
  --waves N         as with 'predict'
"""

WIDTHS = range(40, 1001)


class BadWords(Exception):
    """The words are no request; what is wrong with them."""


class Request(argparse.Namespace):
    """What is asked for. Numbers that the program takes are words here, and it judges them itself."""

    @property
    def title(self):
        return f"{self.source} on {self.machine}"

    @property
    def draws(self):
        """Whether the timeline is drawn on the terminal."""
        return self.text or not (self.svg or self.perfetto or self.csv or self.summary)

    @staticmethod
    def option(name, value):
        """An option for the program, where it is given."""
        return [] if value is None else [name, value]


class _Parser(argparse.ArgumentParser):
    def error(self, message):
        raise BadWords(message)


def read_words(words):
    """The request that the words make."""
    parser = _Parser(prog="show", add_help=False, allow_abbrev=False)
    parser.add_argument("source", metavar="LOG or PROG")
    parser.add_argument("machine", metavar="MACHINE")
    for name in ("--svg", "--perfetto", "--csv"):
        parser.add_argument(name, metavar="FILE", type=_name)
    for name in ("--limit", "--waves"):
        parser.add_argument(name, metavar="N")
    for name in ("--summary", "--text", "--ascii"):
        parser.add_argument(name, action="store_true")
    parser.add_argument("--by", choices=["chare", "stmt"], default="chare")
    parser.add_argument("--width", metavar="N", type=_width)
    request = parser.parse_args(words, Request())
    _spare_what_is_read(request)
    return request


def _name(word):
    if not word:
        raise argparse.ArgumentTypeError("a name of a file isn't empty")
    return word


def _width(word):
    if not (word.isascii() and word.isdigit() and len(word) < 6 and int(word) in WIDTHS):
        raise argparse.ArgumentTypeError(f"{word!r} isn't a number from {WIDTHS[0]} to {WIDTHS[-1]}")
    return int(word)


def _spare_what_is_read(request):
    """Refuses files to be written that are one another, or that are read."""
    known = [request.source, request.machine]
    for name in (request.svg, request.perfetto, request.csv):
        if name is None:
            continue
        if any(_same(name, other) for other in known):
            raise BadWords(f"{name} is named twice")
        known.append(name)


def _same(name, other):
    try:
        return os.path.samefile(name, other) and os.path.isfile(name)
    except OSError:
        return os.path.abspath(name) == os.path.abspath(other)
