"""What the tests of `show` share: answers that are stored or made, and those of the program."""
import contextlib
import io
import os
import subprocess
import sys
import tempfile
import unittest
from typing import NamedTuple
from unittest import mock

from front.show import main

ROOT = os.path.dirname(os.path.dirname(os.path.dirname(os.path.abspath(__file__))))
DATA = os.path.join(ROOT, "front", "tests", "show_data")


class Answer(NamedTuple):
    code: int
    out: bytes
    err: bytes


def program():
    """The name of the program, or nothing."""
    given = os.environ.get("POCHVEAN_PROGRAM")
    proved = os.path.join(ROOT, "crates", "bs_program", "out", "bs_program")
    if given or os.access(proved, os.X_OK):
        return given or proved
    try:
        from front.tests.support import program as build
    except ImportError:
        return None
    return build()


def needed():
    """The program; a test that needs it is skipped where there is none."""
    found = program()
    if not found:
        raise unittest.SkipTest("there is no program")
    return os.fspath(found)


def asking(words):
    """Asks the program."""
    done = subprocess.run([needed(), *words], stdin=subprocess.DEVNULL, capture_output=True)
    return Answer(done.returncode, done.stdout, done.stderr)


def stored(words):
    """Answers for examples/stencil.sd on flat:4:50 as they are stored."""
    if words[0] == "emulate":
        with open(words[2], "wb") as out:
            out.write(data("log"))
        return Answer(0, b"", b"")
    return Answer(0, data({"predict": "predict", "trace": "trace"}[words[0]]), b"")


def data(kind):
    with open(os.path.join(DATA, f"stencil.{kind}"), "rb") as it:
        return it.read()


def made(processors, blocks):
    """A log of so many processors that each run so many blocks, and a function that answers for it."""
    log = ["bslog 1", f"chares {processors} entries 0 rows {processors * blocks}"]
    report, trace, lines, span = ["status settled"], [], [], 0
    for proc in range(processors):
        trace.append(f"proc {proc}")
        tick = busy = 0
        for turn in range(blocks):
            cost, gap = 1 + (proc * 7 + turn * 13) % 11, (proc + turn) % 3
            row = proc * blocks + turn + 1
            start, tick, busy = tick + gap, tick + gap + cost, busy + cost
            log.append(f"row {proc} {turn % 9 + 1} 1 {cost}")
            report.append(f"block {row} chare {proc} stmt {turn % 9 + 1} proc {proc} start {start} end {tick}")
            trace.append(f"run {row} ready 0 start {start} end {tick}")
        lines.append((proc, busy))
        span = max(span, tick)
    report.append(f"span {span}")
    report += [f"proc {proc} blocks {blocks} busy {busy} use {10_000 * busy // span}" for proc, busy in lines]
    texts = {"predict": "\n".join([*report, ""]), "trace": "\n".join([*trace, ""])}
    return "\n".join([*log, "end", ""]), lambda words: Answer(0, texts[words[0]].encode(), b"")


class Terminal(io.TextIOWrapper):
    """A standard output that takes itself for a terminal."""

    def isatty(self):
        return True


def said(words, ask=stored, kind=io.TextIOWrapper):
    """The code, standard output and standard error of `show`, at the top of the repository."""
    out, err = kind(io.BytesIO(), "utf-8"), io.StringIO()
    before = os.getcwd()
    os.chdir(ROOT)
    try:
        with mock.patch.object(sys, "stdout", out), contextlib.redirect_stderr(err):
            code = main(list(words), ask)
    finally:
        os.chdir(before)
    out.flush()
    return code, out.buffer.getvalue().decode(), err.getvalue()


def file_of(option, words, ask=stored):
    """The file that `show` writes with an option."""
    with tempfile.TemporaryDirectory() as folder:
        name = os.path.join(folder, "file")
        code, out, err = said([*words, option, name], ask)
        if code not in (0, 3, 4) or out or err:
            raise AssertionError((code, out, err))
        with open(name, encoding="utf-8", newline="") as it:
            return it.read()


@contextlib.contextmanager
def folder_with(name, text):
    """The name of a file with a text, in a folder of its own."""
    with tempfile.TemporaryDirectory() as folder:
        path = os.path.join(folder, name)
        with open(path, "w", encoding="utf-8") as out:
            out.write(text)
        yield path


STENCIL = ["examples/stencil.sd", "flat:4:50"]


def examples():
    """The examples that have a log."""
    folder = os.path.join(ROOT, "examples")
    refused = {"ambiguous.sd", "too_long.sd"}
    names = [name for name in sorted(os.listdir(folder)) if name.endswith(".sd") and name not in refused]
    return [os.path.join(folder, name) for name in names]


def generated_stencil(chares, steps):
    """A ring of chares that exchange in steps, with work that differs."""
    return (
        f"chares {chares}; var i; var a; var b; var x; entry left(1); entry right(1); body {{ "
        f"for (i = 0; i < {steps}; i = i + 1) {{ serial {{ work (this * 7 + i) % 5; "
        f"send left[i](x) to (this + chares - 1) % chares bytes 800; work 2; "
        f"send right[i](x) to (this + 1) % chares bytes 100; }} "
        "overlap { when left[i](a) { serial { work 3; } } when right[i](b) { serial { work this; } } } } }"
    )
