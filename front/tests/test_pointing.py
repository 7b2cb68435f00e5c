"""Slips: where they stand, and what is said of them."""
import unittest

from front import pointing
from front.lines import Lines, with_caret
from front.tests.support import ask, folder, program

# A program, the line that the program writes of it, and where it points and what it says.
SLIPS = (
    (
        "chares 2; var x;\nbody { serial { x = 1 x = 2; } }",
        "bad program: byte 39 unexpected",
        "2:23: a ';' is missing behind '1'",
    ),
    (
        "chares 2; var i;\nbody { for (i = 0; i < 3; i++) { } }",
        "bad program: byte 44 unexpected",
        "2:28: there is no '++': write i = i + 1",
    ),
    (
        "chares 2;\nint x;\nbody { }",
        "bad program: byte 10 unexpected",
        "2:1: a variable is declared as 'var x;'",
    ),
    (
        "chares 2;\nentry e(1);\nvar x;\nbody { }",
        "bad program: byte 22 unexpected",
        "3:1: all variables stand before the entries",
    ),
    (
        "chares 2; var x, y;\nbody { }",
        "bad program: byte 15 unexpected",
        "1:16: each variable has a declaration of its own",
    ),
    (
        "chares 2; var x = 1;\nbody { }",
        "bad program: byte 16 unexpected",
        "1:17: a variable begins as 0",
    ),
    (
        "chares 2; entry e;\nbody { }",
        "bad program: byte 17 unexpected",
        "1:18: an entry says how many parameters",
    ),
    (
        "chares 2; entry e(x);\nbody { }",
        "bad program: byte 18 unexpected",
        "1:19: an entry has the number of its parameters",
    ),
    (
        "chares 2; var x; entry e(1);\nbody { when e(x) { } }",
        "bad program: byte 42 unexpected",
        "2:14: a wait names the reference number",
    ),
    (
        "chares 2; entry e(1);\nbody { serial { send e(1) to 0; } }",
        "bad program: byte 44 unexpected",
        "2:23: a message has a reference number",
    ),
    (
        "chares 2; entry e(1);\nbody { serial { send e[0](1); } }",
        "bad program: byte 50 unexpected",
        "2:29: 'send e[r](..)' goes on with 'to'",
    ),
    (
        "chares 2; var x;\nbody { serial { x += 2; } }",
        "bad program: byte 35 unexpected",
        "2:19: there is no '+=': write x = x + ..",
    ),
    (
        "chares 2; var x;\nbody { x = 3; }",
        "bad program: byte 24 unexpected",
        "2:8: acts stand inside 'serial { }'",
    ),
    (
        "chares 2; var x;\nbody { if (x = 3) { } }",
        "bad program: byte 30 unexpected",
        "2:14: a test for the same value is '=='",
    ),
    (
        "chares 2;\nbody { serial { emit 1 < 2 < 3; } }",
        "bad program: byte 37 unexpected",
        "2:28: two comparisons in one",
    ),
    (
        "chares 2;\nbody { serial { emit 1; }\n",
        "bad program: byte 36 unexpected",
        "and the '{' at 2:6 is still open",
    ),
    (
        "chares 2;\nbody { } }",
        "bad program: byte 19 unexpected",
        "2:10: the body ends before this",
    ),
    (
        "chares 2; var x;\nbody { if (x) { } else if (x) { } }",
        "bad program: byte 40 unexpected",
        "2:24: 'else' has its acts",
    ),
    (
        "chares 2; var x;\nbody { serial { if (x) emit 1; } }",
        "bad program: byte 40 unexpected",
        "2:24: what belongs to 'if'",
    ),
    (
        "chares 2; var x;\nbody { serial { for (x = 0; x; x = 1) { } } }",
        "bad program: byte 33 unexpected",
        "2:17: inside 'serial { }' the loop is 'repeat",
    ),
    (
        "chares 2; var send;\nbody { }",
        "bad program: byte 14 unexpected",
        "1:15: 'send' is a word of the language",
    ),
    (
        "",
        "bad program: byte 0 unexpected",
        "1:1: a program begins with",
    ),
    (
        "chares 2;\nbody { serial { emit 1 & 1; } }",
        "bad program: byte 33 bad character",
        "2:24: 'and' is '&&'",
    ),
    (
        "chares 2;\nbody { serial { emit 1.5; } }",
        "bad program: byte 32 bad character",
        "2:23: there are whole numbers only",
    ),
    (
        "chares 2; # no\nbody { }",
        "bad program: byte 10 bad character",
        "1:11: a comment begins with //",
    ),
    (
        "chares 2;\nbody { serial { emit 08; } }",
        "bad program: byte 31 bad number",
        "2:22: a number has no needless 0",
    ),
    (
        b"chares 2; // \xff",
        "bad program: byte 13 not utf-8",
        "1:14: the bytes from here on are no UTF-8",
    ),
    (
        "// \u00e9\u00e9\nchares 2; \u00e9",
        "bad program: byte 18 bad character",
        "2:11: no blank, comment or token",
    ),
    (
        "chares 1;\nbody { " + "{ " * 64,
        "bad program: byte 143 too deep",
        "2:134: at most 64 brackets",
    ),
    (
        "chares 2; var x;\nbody { serial { emit y; } }",
        "check failed: stmt 1 unknown name",
        "2:22: no variable 'y' is declared",
    ),
    (
        "chares 2; var cell;\nbody { serial { emit cel; } }",
        "check failed: stmt 1 unknown name",
        "(is it 'cell'?)",
    ),
    (
        "chares 2; var x[3];\nbody { serial { x = 1; } }",
        "check failed: stmt 1 unknown name",
        "2:17: 'x' is declared as an array, and used as a variable without an index",
    ),
    (
        "chares 2; entry e(1);\nbody { serial { send e[0]() to 1; } }",
        "check failed: stmt 1 arity",
        "2:22: 'e' has 1 parameter, and 0 stand here",
    ),
    (
        "chares 2; var x;\nbody {\noverlap { serial { x = 1; }\nserial { emit x; } } }",
        "check failed: stmt 1 interference var 0 parts 0 1",
        "4:15: part 1, 'serial { emit x; }', reads 'x' here",
    ),
    (
        "chares 2; var x;\nvar x;\nbody { }",
        "check failed: stmt 0 declared twice",
        "2:5: 'x' is declared before, at line 1",
    ),
    (
        "chares 0;\nbody { }",
        "check failed: stmt 0 limits",
        "1:8: there are 1 to 65,536 chares",
    ),
    (
        "chares 1; var x;\nbody { while (x) { } }",
        "check failed: stmt 1 idle loop",
        "2:8: this loop could turn for ever",
    ),
)


def said_of(text, line):
    """What is said of a program, with the line that the program writes of it."""
    with folder(**{"p.sd": text}) as room:
        path = room + "/p.sd"
        found = pointing.bad_program(line, path) or pointing.check_failed(line, path)
        return "\n".join(found).replace(path, "p.sd")


class Slips(unittest.TestCase):
    """Each slip of the table."""

    def test_what_is_said(self):
        for text, line, said in SLIPS:
            self.assertIn(said, said_of(text, line), text)

    def test_that_the_program_says_so(self):
        program()
        for text, line, _ in SLIPS:
            with folder(**{"p.sd": text}) as room:
                self.assertEqual(ask("check", "p.sd", folder=room)[2].decode(), line + "\n", text)

    def test_the_line_and_a_caret(self):
        text = "chares 2; var x;\n\tbody { serial { emit \u00e9; } }\r\n"
        self.assertEqual(
            said_of(text, "bad program: byte 39 bad character").splitlines()[1:],
            ["   body { serial { emit \u00e9; } }", "                        ^"],
        )


class Others(unittest.TestCase):
    """Logs, machines, and the ends of runs."""

    def test_logs(self):
        with folder(**{"a.log": "bslog 1\nchares 2 entries 1 rows 0\nbad\nend\n", "b.log": "bslog 1\n"}) as room:
            found = pointing.bad_log("bad log: line 3 bad line", room + "/a.log")
            self.assertEqual(found[0], f"{room}/a.log:3:1: no such line can stand here")
            self.assertEqual(found[1:], ["  bad", "  ^"])
            self.assertIn("so a line is missing", pointing.bad_log("bad log: line 2 bad line", room + "/b.log")[0])

    def test_machines(self):
        with folder(**{"m.toml": "[torus]\nsizes = [0]\n[speed]\nnum = 1\n"}) as room:
            found = pointing.bad_machine("bad machine: out of range torus.sizes", room + "/m.toml")
            self.assertTrue(found[0].startswith(f"{room}/m.toml:2:1: out of range"), found)
            self.assertIn("[speed] wants a line 'den = ..'", pointing.bad_machine("bad machine: missing speed.den", room + "/m.toml")[0])

    def test_two_messages_of_one_key(self):
        text = "chares 2; entry go(0);\nbody { serial { send go[0]() to 0; } }"
        with folder(**{"p.sd": text}) as room:
            line = "ambiguous: chare 0 entry 0 ref 0 sent by chare 0 stmt 1 and chare 1 stmt 1"
            found = pointing.ambiguous(line, room + "/p.sd")
            self.assertEqual(found[0], f"{room}/p.sd:2:8: chare 0 sends chare 0 the message 'go' of reference 0 here")
            self.assertIn("here too", found[3])

    def test_ends(self):
        report = b"status trapped\n" + b"".join(b"trap chare %d stmt 1 index\n" % k for k in range(13)) + b"span 0\n"
        with folder(**{"p.sd": "chares 20;\nbody { serial { } }"}) as room:
            found = pointing.explain_ends(pointing.ends_of(report), room + "/p.sd")
            self.assertEqual(len(found), 11)
            self.assertEqual(found[0], f"{room}/p.sd:2:8: chare 0 stops at 'serial {{ }}': an index isn't in its array")
            self.assertEqual(found[10], f"{room}/p.sd: and 3 more")
        self.assertEqual(pointing.ends_of(b"trap 1 2 3\nwait 0 3 0 -7\nend\n", pointing.LOG_END), [(1, 2, "index"), (0, 3, (0, "-7"))])

    def test_lines(self):
        lines = Lines("a\u00e9b\n\ncd".encode())
        self.assertEqual([tuple(lines.place(it)) for it in (0, 1, 3, 4, 5, 6, 8)], [(1, 1), (1, 2), (1, 3), (1, 4), (2, 1), (3, 1), (3, 3)])
        self.assertEqual((len(lines), len(Lines(b"a\n")), lines.text(3), lines.text(9)), (3, 1, "cd", ""))
        head, caret = with_caret("x" * 500 + "!" + "y" * 500, 501)
        self.assertEqual(head[caret.index("^")], "!")
        self.assertLess(len(head), 110)


if __name__ == "__main__":
    unittest.main()
