"""How the script is used: its help, its version, and what is said behind words that are no command."""
import difflib
import shutil
import subprocess

from front.words import COMMANDS, FLAGS, VALUES, read, why_bad

OWN = {
    "outline": ("outline PROG", "lists the statements of a program by their numbers, with their places"),
    "show": ("show LOG|PROG MACHINE [..]", "shows a run as a timeline, a picture or a table"),
    "import": ("import ..", "makes a log of the traces of other tools"),
    "help": ("help [COMMAND]", "tells how a command is used"),
    "--help": ("--help", "prints this"),
    "--version": ("--version", "prints which sources, build and toolchain there are"),
    "--prove": ("--prove", "proves the program, and keeps the proved build"),
    "--install": ("--install DIR", "copies the proved program to the folder DIR"),
}

MORE = {
    "PROG": "PROG is the file of a program (docs/program-text.md).",
    "LOG": "LOG is the file of a log (docs/log.md).",
    "MACHINE": (
        "MACHINE is the file of a machine (docs/machine-file.md), or flat:P:L: P processors (1 to 65536), where each\n"
        "message takes L ticks (1 to 274877906944)."
    ),
    "KIND": "KIND is ring, stencil or tree (docs/workloads.md).",
    "N": "N is the number of chares, from 1 to 512.",
    "SEED": "SEED is a number from 0 to 999999, which sets how much the chares work.",
    "STMT": "STMT is the number of a statement, from 1 to 10000 ('./pochvean outline PROG' lists them).",
    "NUM": "NUM and DEN are a fraction: each block of the statement costs NUM / DEN of what it did, rounded up.",
    "DEN": "NUM is 1 to DEN, and DEN 1 to 65535.",
    "--spans": "--spans prints spans alone, and counts no waves.",
    "--limit": "--limit N bounds the size of the run, from 1 to 262144, which it is without the option.",
    "--waves": (
        "--waves V bounds the waves of corrections, from 1 to 1099511627776. Without it there are as many as it takes."
    ),
    "--workers": "--workers W is 1 to 64, and changes nothing yet.",
    "--journal": "--journal FILE writes to FILE what each wave corrected. FILE is made or replaced. W is 1 then.",
}


def synopsis(name):
    """The words of a command in a line."""
    if name in OWN:
        return OWN[name][0]
    command = COMMANDS[name]
    names = [*command.names[:-1], command.names[-1] + (".." if command.more else "")]
    return " ".join([name, *names, *(f"[{it}]" if it in FLAGS else f"[{it} {VALUES[it]}]" for it in command.options)])


def does(name):
    """What a command does."""
    return OWN[name][1] if name in OWN else COMMANDS[name].does


def whole():
    """The usage of all commands."""
    lines = ["usage: ./pochvean COMMAND ..", ""]
    for name in (*COMMANDS, *OWN):
        lines += [f"  {synopsis(name)}", f"      {does(name)}"]
    lines += ["", "'./pochvean help COMMAND' tells more of a command, and docs/output.md what is printed."]
    return "\n".join(lines) + "\n"


def of_command(name):
    """The usage of one command."""
    subject = name if name in COMMANDS else "It"
    lines = [f"usage: ./pochvean {synopsis(name)}", "", f"{subject} {does(name)}."]
    if name in COMMANDS:
        command = COMMANDS[name]
        lines += ["", *(MORE[it] for it in (*command.names, *command.options))]
        if command.more:
            lines[lines.index(MORE["MACHINE"])] += f" There are 1 to {command.more + 1} of them."
        if name == "emulate":
            lines[lines.index(MORE["LOG"])] += " It is made or replaced."
    if name == "outline":
        lines += ["", MORE["PROG"]]
    return "\n".join(lines) + "\n"


def nearest(word):
    """The command that a word is near to, or None."""
    close = difflib.get_close_matches(word.lower(), [*COMMANDS, *OWN], 1, 0.6)
    return close[0] if close else None


def behind_bad_words(words):
    """What is said behind words that are no command: why, and the usage of the command that was meant."""
    why = why_bad(words)
    meant = read(words).command
    if meant not in COMMANDS:
        dashed = next((it for it in words if it.startswith("-") and it.partition("=")[0] not in VALUES), "")
        meant = nearest(meant or dashed)
    lines = [f"pochvean: {why}"] if why else []
    if meant:
        return lines + [f"usage: ./pochvean {synopsis(meant)}"]
    return lines + ["usage: ./pochvean COMMAND ..; './pochvean --help' lists the commands"]


def toolchain():
    """The line that names the toolchain, or None where it isn't there."""
    tool = shutil.which("rt")
    if tool is None:
        return None
    try:
        how = {"stdin": subprocess.DEVNULL, "stdout": subprocess.PIPE, "stderr": subprocess.DEVNULL, "timeout": 20}
        ran = subprocess.run([tool, "version"], **how)
    except (OSError, subprocess.TimeoutExpired):
        return None
    lines = ran.stdout.decode("utf-8", "replace").splitlines()
    return lines[0] if ran.returncode == 0 and lines else None


def version():
    """Which sources, which build of them, and which toolchain there are."""
    from front import build

    of_sources = build.sum_now()
    found = build.find(of_sources)
    kind = "none yet" if found is None else "proved" if found.is_proved else "checked, and not proved"
    return (
        f"pochvean, sources {of_sources[:build.DIGITS]}\n"
        f"build: {kind}\n"
        f"toolchain: {toolchain() or 'there is no rt here'}\n"
    )
