"""Outlines, against the numbers that the program itself gives to statements."""
import contextlib
import io
import os
import random
import re
import unittest

from front import outline
from front.pointing import Source
from front.syntax import read
from front.tests import support
from front.tests.support import EXAMPLES, ask, folder, read as text_of, write

HEAD = "chares 3; var a; var b[4]; entry e(1); entry f(0);\nbody {\n"


def generated(chance):
    """A program that keeps the rules: its statements don't interfere, and each loop makes a block."""
    lines = []

    def block(depth):
        for _ in range(chance.randint(1, 3)):
            statement(depth)

    def statement(depth):
        indent = "  " * depth
        kind = chance.choice(("serial", "when", "for", "while", "if", "block", "overlap") if depth < 5 else ("serial",))
        if kind == "serial":
            lines.append(indent + chance.choice(("serial { }", "serial { emit 1; if (1) { work 2; } else { repeat 2 { } } }", "serial{send f[1]()to 0;}")))
            return
        lines.append(indent + {
            "when": "when f[1](), f[2]() {", "for": "for (a = 0; a < 2; a = a + 1) {", "while": "while (0 < 1) { serial { }",
            "if": "if (1) {", "block": "{", "overlap": "overlap {",
        }[kind])
        if kind == "for":
            lines.append(indent + "serial { } // {")
        if kind != "overlap":
            block(depth + 1)
        else:
            lines.extend([indent + "serial { emit 1; }", indent + "when f[3]() { serial { } }"])
        if kind == "if" and chance.random() < 0.5:
            lines.append(indent + "} else {")
            block(depth + 1)
        lines.append(indent + "}")

    block(1)
    return HEAD + "\n".join(lines) + "\n}\n"


class Numbers(unittest.TestCase):
    """The number of each statement is the program's own."""

    def agree(self, text):
        """Gives each `serial` in turn an unknown name: the program has to name the statement that is numbered here."""
        found = [it for it in read(text.encode()).statements if it.kind == "serial"]
        with folder() as room:
            for it in found:
                at = text.encode().index(b"{", it.start) + 1
                changed = text.encode()[:at] + b" emit unknown; " + text.encode()[at:]
                write(os.path.join(room, "p.sd"), changed)
                code, _, err = ask("check", "p.sd", folder=room)
                self.assertEqual((code, err.decode()), (12, f"check failed: stmt {it.number} unknown name\n"), changed)

    def test_examples(self):
        support.program()
        for name in sorted(os.listdir(EXAMPLES)):
            if name.endswith(".sd"):
                self.agree(text_of(os.path.join(EXAMPLES, name)))

    def test_reports_of_examples(self):
        for name in ("two_chares.sd", "reduction.sd", "stencil.sd", "overtaken.sd", "deadlock.sd", "trap.sd"):
            path = os.path.join(EXAMPLES, name)
            kinds = [it.kind for it in read(text_of(path).encode()).statements]
            report = ask("model", path, "flat:2:5")[1].decode()
            for word, number in re.findall(r"(?m)^(block|trap|wait) .*?stmt (\d+)", report):
                self.assertEqual(kinds[int(number) - 1], "when" if word == "wait" else "serial", name)

    def test_generated_programs(self):
        support.program()
        chance = random.Random(4)
        for _ in range(8):
            text = generated(chance)
            self.assertIsNone(read(text.encode()).fault, text)
            self.agree(text)

    def test_first_faults(self):
        """Where a token is cut out, the program and this reader stop at the same byte."""
        support.program()
        chance = random.Random(7)
        texts = [text_of(os.path.join(EXAMPLES, it)) for it in ("stencil.sd", "reduction.sd")] + [generated(chance)]
        with folder() as room:
            for text in texts * 12:
                tokens = read(text.encode()).tokens[:-1]
                one = chance.choice(tokens)
                changed = text[: one.start] + " " + chance.choice(["", ";", "}", "(", "x"]) + " " + text[one.end:]
                write(os.path.join(room, "p.sd"), changed)
                line = ask("check", "p.sd", folder=room)[2].decode()
                told = re.match(r"bad program: byte (\d+) unexpected", line)
                found = read(changed.encode())
                mine = None if found.fault is None else found.tokens[found.fault.index].start
                self.assertEqual(int(told[1]) if told else None, mine, changed)


class Shown(unittest.TestCase):
    """How an outline looks."""

    def test_lines(self):
        text = "chares 1; var x;\nbody {\n  while (x)\n  { serial { } }\n  { when  go[1](x),\n go[2](x) { } }\n}"
        found = outline.outline(Source("p.sd", text.encode()))
        self.assertEqual(found, ["1  3:3  while (x)", "2  4:5    serial { }", "3  5:3  {", "4  5:5    when go[1](x), go[2](x)"])

    def test_long_heads_are_cut(self):
        text = "chares 1; body { serial { " + "emit 1; " * 100 + "} }"
        found = outline.outline(Source("p.sd", text.encode()))
        self.assertLessEqual(len(found[0]), 100)
        self.assertTrue(found[0].endswith(".."))

    def test_codes(self):
        with folder(**{"p.sd": "chares 1; body { serial { } x }", "q.sd": "chares 1; body { }"}) as room:
            for words, code in ((["p.sd"], 11), (["q.sd"], 0), (["none"], 22), (["."], 20), ([], 64), (["-x"], 64)):
                words = [os.path.join(room, it) if not it.startswith("-") else it for it in words]
                out = io.TextIOWrapper(io.BytesIO())
                err = os.dup(2)
                with contextlib.redirect_stdout(out), open(os.devnull, "wb") as quiet:
                    os.dup2(quiet.fileno(), 2)
                    try:
                        self.assertEqual(outline.main(words), code, words)
                    finally:
                        os.dup2(err, 2)
                        os.close(err)


if __name__ == "__main__":
    unittest.main()
