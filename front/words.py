"""The words of the program's commands: which names they have, and which files are read and written.

The program decides which words are a command (docs/output.md). This reads them in the same way, so that messages
can name a file, and so that words that are none get a reason.
"""
from typing import Dict, List, NamedTuple, Optional

PROG, LOG, MACHINE = "PROG", "LOG", "MACHINE"
KIND, CHARES, SEED = "KIND", "N", "SEED"
STMT, NUM, DEN = "STMT", "NUM", "DEN"

# How many machines a sweep has at most.
MACHINES = 32


class Command(NamedTuple):
    """A command of the program: what its names stand for, the options that it takes, and what it does."""

    names: tuple
    options: tuple
    does: str
    more: int = 0
    """How many further names may stand behind the last one, for the same."""


COMMANDS: Dict[str, Command] = {
    "check": Command((PROG,), (), "tests the rules of the language, and prints the program's canonical text"),
    "model": Command((PROG, MACHINE), ("--limit",), "prints when each block of a program runs on a machine"),
    "emulate": Command((PROG, LOG), ("--limit", "--workers"), "writes the log of a program, which names no machine"),
    "run": Command(
        (PROG, MACHINE), ("--limit", "--waves", "--workers"), "prints what model prints, by way of the program's log"
    ),
    "predict": Command(
        (LOG, MACHINE), ("--waves", "--journal", "--workers"), "prints when each block of a log runs on a machine"
    ),
    "trace": Command((LOG, MACHINE), (), "prints what each processor ran, and when each message left and came"),
    "chain": Command(
        (LOG, MACHINE), ("--workers",), "prints the blocks that the span waits for, each with what it waited for"
    ),
    "sweep": Command(
        (LOG, MACHINE), ("--spans",), "prints how long a log takes on each of several machines", MACHINES - 1
    ),
    "tune": Command(
        (LOG, MACHINE, STMT, NUM, DEN), ("--spans",), "prints how long a log takes before and after a statement costs less"
    ),
    "gen": Command((KIND, CHARES, SEED), (), "prints a program that is made from a kind, a number of chares and a seed"),
    "trial": Command((KIND, CHARES, SEED), ("--workers",), "runs such a program on flat:64:10, and prints one line"),
}

# The kinds of programs that may be generated.
KINDS = ("ring", "stencil", "tree")

# The greatest value of each option that takes a number from 1.
RANGES = {"--limit": 262_144, "--workers": 64, "--waves": 2**40}
VALUES = {"--limit": "N", "--workers": "W", "--waves": "V", "--journal": "FILE"}

# The options that have no value.
FLAGS = ("--spans",)


class Read(NamedTuple):
    """A list of words that was read: the command, its names, and the values of its options."""

    command: str
    names: List[str]
    options: Dict[str, str]

    def reads(self) -> List[str]:
        """The files that the command reads, in the order in which it opens them."""
        found = []
        for role, name in zip(roles_of(self.command, len(self.names)), self.names):
            if role not in (PROG, LOG, MACHINE):
                continue
            if role == MACHINE and name.startswith("flat:") or self.command == "emulate" and role == LOG:
                continue
            found.append(name)
        return found

    def writes(self) -> List[str]:
        """The files that the command makes or replaces, besides what goes to standard output."""
        if self.command == "emulate":
            return self.names[1:2]
        return [self.options["--journal"]] if "--journal" in self.options else []

    def program(self) -> Optional[str]:
        """The file of the program that the command reads, if it reads one."""
        is_first = self.command in COMMANDS and COMMANDS[self.command].names[0] == PROG
        return self.names[0] if is_first and self.names else None

    def log(self) -> Optional[str]:
        """The file of the log that the command reads, if it reads one."""
        is_first = self.command in COMMANDS and COMMANDS[self.command].names[0] == LOG
        return self.names[0] if is_first and self.names else None

    def machines(self) -> List[str]:
        """The files of the machines that the command reads, in the order in which it opens them."""
        roles = roles_of(self.command, len(self.names))
        named = [name for role, name in zip(roles, self.names) if role == MACHINE]
        return [it for it in named if not it.startswith("flat:")]

    def machine(self) -> Optional[str]:
        """The file of the machine, if the command reads just one."""
        found = self.machines()
        return found[0] if len(found) == 1 else None


def roles_of(command, count):
    """What each of so many names stands for."""
    if command not in COMMANDS:
        return ()
    names = COMMANDS[command].names
    return (*names, *[names[-1]] * min(max(count - len(names), 0), COMMANDS[command].more))


def read(words) -> Read:
    """Reads words, whether or not they are a command: an option takes the word behind it."""
    bare, options, waits = [], {}, None
    for word in words:
        if waits is not None:
            options[waits] = word
            waits = None
        elif word in FLAGS:
            options[word] = ""
        elif word.startswith("-"):
            name, has_value, value = word.partition("=")
            if has_value:
                options[name] = value
            else:
                waits = word
        else:
            bare.append(word)
    return Read(bare[0] if bare else "", bare[1:], options)


def is_flat(word):
    """Whether a word is a flat machine."""
    parts = word.split(":")
    if len(parts) != 3 or parts[0] != "flat":
        return False
    return all(is_number(it, most) for it, most in zip(parts[1:], (65_536, 2**38)))


def is_number(word, most):
    """Whether a word is a plain decimal from 1 to the greatest value."""
    return word.isascii() and word.isdigit() and word[0] != "0" and len(word) < 20 and int(word) <= most


def why_bad(words) -> Optional[str]:
    """Why words that the program refused are no command, or None where nothing is seen."""
    return why_not_plain(words) or why_no_command(read(words))


def why_not_plain(words):
    """What makes a list of words hard to read, whatever the command."""
    seen, waits, bare, has_closed = set(), None, 0, False
    for word in words:
        if not word:
            return "a word is empty"
        if waits is not None:
            if word.startswith("-"):
                return f"'{waits}' has no value"
            waits = None
        elif word.startswith("-"):
            if word not in VALUES and word not in FLAGS:
                return of_option(word)
            if word in seen:
                return f"'{word}' stands twice"
            seen.add(word)
            waits, has_closed = None if word in FLAGS else word, has_closed or bare > 1
        else:
            bare += 1
            if has_closed:
                return f"'{word}' comes behind an option: options stand before the names or behind them, not between"
    return f"'{waits}' has no value" if waits is not None else None


def of_option(word):
    """Why a word with a hyphen is no option."""
    name, has_value, value = word.partition("=")
    if has_value and name in FLAGS:
        return f"'{name}' has no value"
    if has_value and name in VALUES:
        return f"the value of an option is a word of its own: '{name} {value}'"
    return f"there is no option '{word}'"


def why_no_command(found):
    """Why words that read well are no command."""
    command = COMMANDS.get(found.command)
    if command is None:
        return f"there is no command '{found.command}'" if found.command else "there is no command among the words"
    least, most = len(command.names), len(command.names) + command.more
    if not least <= len(found.names) <= most:
        wanted = " ".join(command.names) + (".." if command.more else "")
        many = f"{least} to {most}" if command.more else f"{least}"
        count = "name" if most == 1 else "names"
        stand = "stands" if len(found.names) == 1 else "stand"
        takes = f"'{found.command}' takes {many} {count}, {wanted}"
        return f"{takes}, and {len(found.names)} {stand} here"
    for role, name in zip(roles_of(found.command, len(found.names)), found.names):
        if role == MACHINE and name.startswith("flat:") and not is_flat(name):
            ranges = "P processors (1 to 65536) and latency L (1 to 274877906944)"
            return f"'{name}' is no flat machine: flat:P:L has {ranges}"
        if role == KIND and name not in KINDS:
            return f"'{name}' is no kind of program: there are {', '.join(KINDS)}"
        if role == CHARES and not is_number(name, 512):
            return f"a generated program has from 1 to 512 chares, and not '{name}'"
        if role == STMT and not is_number(name, 10_000):
            return f"the number of a statement is from 1 to 10000, and not '{name}'"
        if role == SEED and name != "0" and not is_number(name, 999_999):
            return f"a seed is a plain number from 0 to 999999, and not '{name}'"
    return of_fraction(found) or of_settings(found, command)


def of_fraction(found):
    """Why the last two names of a tuning are no fraction."""
    if found.command != "tune":
        return None
    num, den = found.names[3:]
    if not is_number(den, 65_535):
        return f"DEN is a plain number from 1 to 65535, and not '{den}'"
    return None if is_number(num, int(den)) else f"NUM is a plain number from 1 to DEN, and not '{num}'"


def of_settings(found, command):
    """Why the options don't go with the command."""
    for option, value in found.options.items():
        if option not in command.options:
            return f"'{found.command}' has no option '{option}'"
        if option in RANGES and not is_number(value, RANGES[option]):
            return f"'{option}' takes a plain number from 1 to {RANGES[option]}, and not '{value}'"
    if "--journal" in found.options and found.options.get("--workers", "1") != "1":
        return "a journal is written by one worker"
    return None
