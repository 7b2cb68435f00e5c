"""Which words go where: to the script's own commands, or to the program."""
import os
import signal
import sys

from front import codes
from front.telling import flush_all, tell, tell_as_is


def main(words):
    """Does what the words ask for, and returns the exit code."""
    closed = open_streams()
    for number in (signal.SIGTERM, signal.SIGHUP):
        if signal.getsignal(number) == signal.SIG_DFL:
            signal.signal(number, lambda it, _: sys.exit(128 + it))
    try:
        code = dispatched(words, closed)
    except KeyboardInterrupt:
        code = codes.INTERRUPTED
    except BrokenPipeError:
        code = codes.WRITE_FAULT
    if not flush_all():
        code = code or codes.WRITE_FAULT
        os.dup2(os.open(os.devnull, os.O_WRONLY), 1)
    return ended(code)


def open_streams():
    """Opens the standard streams that are closed, so that no file gets their numbers. Returns which they were."""
    closed = []
    for number in (0, 1, 2):
        try:
            os.fstat(number)
        except OSError:
            closed.append(number)
            os.open(os.devnull, os.O_RDWR)
    return closed


def ended(code):
    """The exit code of the script. Where the program was stopped by a signal, so is the script."""
    if code >= 0:
        return code
    signal.signal(-code, signal.SIG_DFL)
    os.kill(os.getpid(), -code)
    return 128 - code


def dispatched(words, closed):
    """Does what the words ask for."""
    from front.build import NoBuild

    first = words[0] if words else "--help"
    own = OWN.get(first)
    try:
        if own is not None:
            return own(words[1:])
        if len(words) == 2 and words[1] in ("--help", "-h"):
            return helped(words[:1])
        return by_program(words, closed)
    except NoBuild as why:
        tell(str(why))
        return codes.NO_BUILD


def by_program(words, closed):
    """Runs the program with the words, and adds what there is to add on standard error."""
    from front import afterwards, build, program

    found = build.ready()
    for line in afterwards.before(words):
        tell(line)
    answer = program.run(words, found, closed)
    lines = afterwards.behind(words, answer)
    if lines:
        tell_as_is("\n".join(lines))
    return answer.code


def helped(words):
    """Prints the usage of all commands, or of one."""
    from front import usage

    name = words[0] if words else ""
    name = f"--{name}" if f"--{name}" in usage.OWN and name not in usage.OWN else name
    if not words:
        sys.stdout.write(usage.whole())
        return codes.SETTLED
    if len(words) > 1 or name not in usage.COMMANDS and name not in usage.OWN:
        near = usage.nearest(name)
        tell(f"there is no command '{name}'" + (f"; is it '{near}'?" if near else ""))
        tell_as_is("usage: ./pochvean help [COMMAND]")
        return codes.BAD_SCRIPT_WORDS
    sys.stdout.write(usage.of_command(name))
    return codes.SETTLED


def versioned(words):
    """Prints which sources, build and toolchain there are."""
    from front import usage

    if words:
        return refused("--version")
    sys.stdout.write(usage.version())
    return codes.SETTLED


def proved(words):
    """Proves the program."""
    from front import proving

    return refused("--prove") if words else proving.prove()


def installed(words):
    """Copies the proved program to a folder."""
    from front import proving

    return proving.install(words[0]) if len(words) == 1 else refused("--install")


def refused(name):
    """Says how one of the script's own commands is used."""
    from front import usage

    tell_as_is(f"usage: ./pochvean {usage.synopsis(name)}")
    return codes.BAD_SCRIPT_WORDS


def outlined(words):
    """Prints the statements of a program."""
    from front import outline

    return outline.main(words)


def shown(words):
    """Shows a run."""
    from front import program

    try:
        from front import show
    except ImportError as error:
        return not_there("show", error)
    return show.main(words, program.ask)


def imported(words):
    """Makes a log of the traces of other tools."""
    try:
        from front import importing
    except ImportError as error:
        return not_there("import", error)
    return importing.main(words)


def not_there(name, error):
    """Says that a command isn't built, where its package is missing."""
    if error.name not in (None, "front.show", "front.importing", "front"):
        raise error
    tell(f"the command '{name}' isn't built yet")
    return codes.NO_BUILD


OWN = {
    "--help": helped,
    "-h": helped,
    "help": helped,
    "--version": versioned,
    "--prove": proved,
    "--install": installed,
    "outline": outlined,
    "show": shown,
    "import": imported,
}
