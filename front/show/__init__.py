"""`show`: when each processor is busy on a machine, on the terminal, as a picture, as a trace, or as tables.

`main` takes the words behind `show`, and a function that runs the program with some words and answers its code
and what it wrote. All numbers come from the program's answers. This part is not proved.
"""
import os
import shutil
import sys

from front.show.answers import Refused, asked
from front.show.files import CannotWrite, written
from front.show.logs import Unreadable
from front.show.words import USAGE, BadWords, read_words

# The script's own codes. No code of the program is among them.
BAD_WORDS = 64
CANNOT_WRITE = 74
CHANGED = 75

# What the codes mean with which the program writes nothing.
_SILENT = {
    20: "a file could not be read",
    21: "the log of the program could not be written for the time being",
    30: "memory was wanting",
}


def main(words, ask):
    """Does what the words ask for, and answers the exit code: the program's, or one of the script's own."""
    try:
        if "--help" in words:
            return _say(USAGE)
        request = read_words(words)
        with asked(ask, request) as run:
            return _show(request, run)
    except BadWords as fault:
        return _fail(BAD_WORDS, f"bad words\npochvean: {fault}\n\n{USAGE}")
    except Refused as refusal:
        said = refusal.said.decode("utf-8", "replace") or f"pochvean: {_silent(refusal.code, request)}"
        # A program that was stopped by a signal has a code below 0.
        code = refusal.code if refusal.code >= 0 else 128 - refusal.code
        return _fail(code, said)
    except Unreadable:
        return _fail(CHANGED, "pochvean: the log or the machine changed while it was read")
    except CannotWrite as fault:
        return _fail(CANNOT_WRITE, f"pochvean: can't write {fault}")
    except BrokenPipeError:
        return CANNOT_WRITE


def _silent(code, request):
    """What a code means with which the program writes nothing."""
    if code == 22:
        missing = [name for name in (request.source, request.machine) if not os.path.exists(name)]
        return f"there is no file {missing[0]}" if missing else "a file is gone"
    return _SILENT.get(code, f"the program ended with code {code}")


def _show(request, run):
    """Writes each form that is asked for, files first."""
    if request.svg:
        from front.show import picture

        with written(request.svg) as out:
            picture.draw(run, request.title, request.by, out)
    if request.perfetto:
        from front.show import perfetto

        with written(request.perfetto) as out:
            perfetto.write(run, request.title, out)
    if request.csv:
        from front.show import sheet

        with written(request.csv) as out:
            sheet.write(run, out)
    if request.draws:
        _say(_timeline(request, run))
    if request.summary:
        from front.show import summary

        _say("\n".join(summary.tables(run, request.title)) + "\n")
    return run.report.code


def _timeline(request, run):
    from front.show import text

    on_terminal = sys.stdout.isatty()
    width = request.width or (shutil.get_terminal_size((80, 24)).columns if on_terminal else 80)
    colour = on_terminal and not os.environ.get("NO_COLOR") and os.environ.get("TERM") != "dumb"
    signs = text.signs(sys.stdout.encoding, request.ascii)
    return "\n".join(text.timeline(run, request.title, request.by, width, signs, colour)) + "\n"


def _say(said):
    """Writes to standard output."""
    try:
        encoding = sys.stdout.encoding or "ascii"
        sys.stdout.write(said.encode(encoding, "backslashreplace").decode(encoding))
        sys.stdout.flush()
    except OSError as fault:
        # What is left in the buffer is not tried again at the end.
        os.dup2(os.open(os.devnull, os.O_WRONLY), sys.stdout.fileno())
        if isinstance(fault, BrokenPipeError):
            raise
        raise CannotWrite(f"standard output: {fault.strerror}") from fault
    return 0


def _fail(code, said):
    """Writes to standard error, and answers the code."""
    sys.stderr.write(said if said.endswith("\n") else f"{said}\n")
    return code
