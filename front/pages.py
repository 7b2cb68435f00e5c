"""Runs the commands that the pages show, and compares what they print. docs/check is its script.

The convention: in a fenced block each line that begins with `$ ` is a command, and the lines behind it, up to the
next one or to the end of the block, are what it prints: all of standard output, and where it is refused the
program's line on standard error. Lines that the script adds to standard error may be shown behind that or be left
out. A line `...` stands for lines that are left out. A command may go on in lines that begin with `> `. A file is
shown by `$ cat FILE`. The commands of a page run in order, at the top of a copy, so later ones may use files that
earlier ones made. A block without a `$ ` is never run, and neither are the commands of NOT_RUN.
"""
import os
import re
import shutil
import subprocess
import tempfile
from typing import List, NamedTuple

from front import build, places
from front.program import TAKES_LONG

LEFT_OUT = "..."
# Commands that prove, install, or go on from another program than this one.
NOT_RUN = re.compile(r"--prove|--install|\.ci/run|docs/check|bench/measure|^(rt|git|sudo|sbatch|parallel)\b")
SECONDS = 300
# Lines of the script that tell of the build and not of the command.
OF_THE_BUILD = {f"pochvean: {it}" for it in (build.NOT_PROVED, TAKES_LONG)}
REFUSED = range(10, 20)
LINK = re.compile(r"\]\(([^)\s]+)\)")


class Shown(NamedTuple):
    """A command as a page shows it: the line that it stands at, from 1, its text, and what it prints."""

    line: int
    command: str
    printed: List[str]


class Printed(NamedTuple):
    """What a command printed, by lines, and its exit code."""

    out: List[str]
    err: List[str]
    code: int


def pages(root=places.ROOT):
    """The pages, by their paths below the root."""
    found = ["README.md", "CONTRIBUTING.md"]
    for folder in ("docs", "examples"):
        found += [f"{folder}/{it}" for it in sorted(os.listdir(os.path.join(root, folder))) if it.endswith(".md")]
    return [it for it in found if os.path.isfile(os.path.join(root, it))]


def blocks(text):
    """The fenced blocks of a page: the number of the first line inside, from 1, and the lines."""
    found, inside, fence = [], None, ""
    for number, line in enumerate(text.split("\n"), 1):
        match = re.match(r" {0,3}(```+|~~~+)", line)
        if inside is None and match:
            inside, fence, first = [], match[1], number + 1
        elif inside is not None and match and line.strip() == fence:
            found.append((first, inside))
            inside = None
        elif inside is not None:
            inside.append(line)
    return found


def commands(first, lines):
    """The commands that a block shows."""
    found = []
    for number, line in enumerate(lines, first):
        if line.startswith("$ "):
            found.append(Shown(number, line[2:], []))
        elif found and line.startswith("> ") and not found[-1].printed:
            found[-1] = found[-1]._replace(command=f"{found[-1].command}\n{line[2:]}")
        elif found:
            found[-1].printed.append(line)
    return found


def check(root=places.ROOT):
    """What differs, a text for each."""
    found = []
    for page in pages(root):
        with open(os.path.join(root, page), encoding="utf-8") as file:
            text = file.read()
        found += check_links(root, page, text)
        found += check_page(root, page, [commands(*it) for it in blocks(text)])
    return found


def check_page(root, page, shown):
    """What differs on a page, whose commands are given block by block."""
    found = []
    if not any(shown):
        return found
    with tempfile.TemporaryDirectory(prefix="pochvean-pages-") as room:
        top = copied(root, room)
        for block in shown:
            block = [it for it in block if not NOT_RUN.search(it.command)]
            for it, printed in zip(block, run(top, room, block)):
                found += differences(page, it, printed)
    return found


def copied(root, room):
    """A copy of what the commands of a page may use. Its `./pochvean` is that of the checkout."""
    top = os.path.join(room, "top")
    os.mkdir(top)
    for name in sorted(os.listdir(root)):
        path = os.path.join(root, name)
        if name in ("docs", "examples", "bench"):
            shutil.copytree(path, os.path.join(top, name), ignore=shutil.ignore_patterns("__pycache__"))
        elif name.endswith((".md", ".txt")):
            shutil.copy(path, top)
    # (a link would do as well, but for commands that copy it)
    script = os.path.join(top, "pochvean")
    with open(script, "w", encoding="utf-8") as file:
        file.write(f"#!/bin/sh\nexec '{os.path.join(root, 'pochvean')}' \"$@\"\n")
    os.chmod(script, 0o755)
    return top


def run(top, room, block):
    """Runs the commands of a block in one shell, and returns what each printed."""
    if not block:
        return []
    script = "".join(
        f"{{ {it.command}\n}} >'{room}/{k}.out' 2>'{room}/{k}.err' </dev/null\n"
        f"code=$?; echo $code >'{room}/{k}.code'; (exit $code)\n"
        for k, it in enumerate(block)
    )
    for k in range(len(block)):
        for end in ("out", "err", "code"):
            with open(f"{room}/{k}.{end}", "wb"):
                pass
    how = {"stdin": subprocess.DEVNULL, "stdout": subprocess.PIPE, "stderr": subprocess.STDOUT}
    try:
        ran = subprocess.run(["bash", "-c", script], cwd=top, timeout=SECONDS * len(block), **how)
        beside = ran.stdout.decode("utf-8", "replace").splitlines()
    except subprocess.TimeoutExpired:
        beside = [f"not ended after {SECONDS * len(block)} seconds"]
    found = [printed(room, k) for k in range(len(block))]
    # (what the shell itself says belongs to no command)
    if beside:
        found[-1].err.extend(beside)
    return found


def printed(room, number):
    """What the command of a number printed."""
    texts = []
    for end in ("out", "err", "code"):
        with open(f"{room}/{number}.{end}", encoding="utf-8", errors="replace") as file:
            texts.append(file.read())
    code = int(texts[2]) if texts[2].strip() else 124
    return Printed(texts[0].splitlines(), [it for it in texts[1].splitlines() if it not in OF_THE_BUILD], code)


def differences(page, shown, found):
    """A text that says how what was printed differs from what is shown, if it does."""
    wanted = [it.rstrip() for it in shown.printed]
    out, err = ([it.rstrip() for it in lines] for lines in (found.out, found.err))
    least = min(1, len(err)) if found.code in REFUSED or found.code > 60 else 0
    if any(matches(wanted, out + err[:k]) for k in range(least, len(err) + 1)):
        return []
    wanted, came = "\n".join(wanted), "\n".join(out + err)
    return [f"{page}:{shown.line}: $ {shown.command}\nshown:\n{wanted}\nprinted:\n{came}\ncode: {found.code}"]


def matches(wanted, came):
    """Whether the lines are those wanted, where `...` stands for any number of lines."""
    if LEFT_OUT not in wanted:
        return wanted == came
    parts, part = [], []
    for it in wanted:
        if it == LEFT_OUT:
            parts.append(part)
            part = []
        else:
            part.append(it)
    head, middle, tail = parts[0], parts[1:], part
    if came[: len(head)] != head or tail and came[-len(tail):] != tail or len(came) < len(head) + len(tail):
        return False
    at, end = len(head), len(came) - len(tail)
    for it in middle:
        place = next((k for k in range(at, end - len(it) + 1) if came[k:k + len(it)] == it), None)
        if place is None:
            return False
        at = place + len(it)
    return True


def check_links(root, page, text):
    """The links of a page to files and headings of the repository that aren't there."""
    found = []
    inside = {first + k for first, lines in blocks(text) for k in range(len(lines))}
    for number, line in enumerate(text.split("\n"), 1):
        for target in [] if number in inside else LINK.findall(re.sub(r"`[^`]*`", "", line)):
            path, _, heading = target.partition("#")
            if re.match(r"[a-z]+:", target):
                continue
            beside = os.path.join(os.path.dirname(page), path) if path else page
            whole = os.path.normpath(os.path.join(root, beside))
            if not os.path.exists(whole):
                found.append(f"{page}:{number}: there is no {target}")
            elif heading and whole.endswith(".md") and heading not in headings(whole):
                found.append(f"{page}:{number}: there is no heading {target}")
    return found


def headings(path):
    """The names by which the headings of a page are linked to."""
    with open(path, encoding="utf-8") as file:
        titles = re.findall(r"(?m)^#+ +(.*?) *$", file.read())
    return {re.sub(r" ", "-", re.sub(r"[^\w\- ]", "", it.lower())) for it in titles}
