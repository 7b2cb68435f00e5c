"""Words: what is told at once, and what is said behind words that are no command."""
import os
import random
import unittest

from front import usage, words
from front.tests.support import EXAMPLES, ask, folder, played, program

PIECES = (
    "check model emulate run predict trace sweep tune modle a.sd b.toml flat:2:5 flat:0:1 flat:x --limit --waves "
    "--workers --journal --spans --frob 5 0 05 65 300000 --limit=5 -h x"
).split() + [""]


class Own(unittest.TestCase):
    """The script's own words."""

    def test_need_no_build(self):
        with played() as here:
            for line in (["--help"], ["-h"], [], ["help"], ["help", "model"], ["help", "prove"], ["model", "--help"], ["--version"]):
                code, out, err = here.call(*line)
                self.assertEqual((code, err), (0, ""), line)
                self.assertTrue(out)
            self.assertEqual([it for it in here.calls() if it != "version"], [])

    def test_version_names_the_toolchain(self):
        with played() as here:
            self.assertIn("toolchain: a toolchain that plays\n", here.call("--version")[1])
            self.assertIn("there is no rt", here.call("--version", environment={"PATH": "/usr/bin:/bin"})[1])

    def test_help_of_what_is_no_command(self):
        with played() as here:
            code, out, err = here.call("help", "modle")
            self.assertEqual((code, out), (64, ""))
            self.assertIn("is it 'model'?", err)

    def test_every_command_has_its_help(self):
        for name in (*words.COMMANDS, *usage.OWN):
            self.assertIn(usage.synopsis(name), usage.of_command(name))
            self.assertIn(usage.synopsis(name), usage.whole())


class Bad(unittest.TestCase):
    """Behind `bad words`."""

    def test_the_command_that_was_meant(self):
        for line, wanted in (
            ("modle a.sd flat:1:1", "./pochvean model"),
            ("Run a.sd flat:1:1", "./pochvean run"),
            ("--prov", "./pochvean --prove"),
            ("model a.sd", "./pochvean model PROG MACHINE [--limit N]"),
            ("frobnicate", "./pochvean --help"),
        ):
            self.assertIn(wanted, "\n".join(usage.behind_bad_words(line.split())), line)

    def test_reasons(self):
        for line, wanted in (
            (["model", "a.sd"], "takes 2 names, PROG MACHINE, and 1 stands here"),
            (["check", "a", "b"], "takes 1 name, PROG, and 2 stand here"),
            (["model", "a", "flat:0:5"], "'flat:0:5' is no flat machine"),
            (["model", "a", "--limit", "5", "flat:1:1"], "'flat:1:1' comes behind an option"),
            (["check", "--limit", "5", "a"], "'check' has no option '--limit'"),
            (["model", "a", "b", "--limit=5"], "'--limit 5'"),
            (["model", "a", "b", "--limit"], "'--limit' has no value"),
            (["model", "a", "b", "--limit", "0"], "from 1 to 262144, and not '0'"),
            (["run", "a", ""], "a word is empty"),
            (["run", "a", "b", "--waves", "1", "--waves", "2"], "'--waves' stands twice"),
            (["predict", "a", "b", "--journal", "j", "--workers", "2"], "written by one worker"),
            (["sweep", "a"], "takes 2 to 33 names, LOG MACHINE.., and 1 stands here"),
            (["sweep", "a", *["b"] * 33], "and 34 stand here"),
            (["sweep", "a", "b", "flat:0:5"], "'flat:0:5' is no flat machine"),
            (["predict", "a", "b", "--spans"], "'predict' has no option '--spans'"),
            (["sweep", "a", "b", "--spans=1"], "'--spans' has no value"),
            (["tune", "a", "b", "0", "1", "2"], "from 1 to 10000, and not '0'"),
            (["tune", "a", "b", "6", "3", "2"], "from 1 to DEN, and not '3'"),
            (["tune", "a", "b", "6", "1", "65536"], "from 1 to 65535, and not '65536'"),
        ):
            self.assertIn(wanted, words.why_bad(line) or "", line)

    def test_a_reason_exactly_where_the_program_refuses(self):
        program()
        chance = random.Random(18)
        with folder() as room:
            for _ in range(150):
                line = [chance.choice(PIECES) for _ in range(chance.randint(1, 6))]
                code = ask(*line, folder=room)[0]
                self.assertEqual(code == 10, words.why_bad(line) is not None, line)

    def test_files(self):
        found = words.read(["--limit", "5", "run", "p.sd", "m.toml"])
        self.assertEqual((found.reads(), found.writes(), found.program()), (["p.sd", "m.toml"], [], "p.sd"))
        found = words.read(["predict", "a.log", "flat:1:1", "--journal", "j"])
        self.assertEqual((found.reads(), found.writes(), found.log()), (["a.log"], ["j"], "a.log"))
        found = words.read(["sweep", "--spans", "a.log", "b.toml", "flat:1:1", "c.toml"])
        self.assertEqual((found.reads(), found.machines()), (["a.log", "b.toml", "c.toml"], ["b.toml", "c.toml"]))
        found = words.read(["emulate", "p.sd", "a.log"])
        self.assertEqual((found.reads(), found.writes()), (["p.sd"], ["a.log"]))

    def test_a_flat_machine(self):
        self.assertTrue(words.is_flat("flat:65536:274877906944"))
        for it in ("flat:65537:1", "flat:1:274877906945", "flat:01:1", "flat:1", "flat:1:1:1", "Flat:1:1", "flat:\u0663:1"):
            self.assertFalse(words.is_flat(it), it)
        self.assertTrue(os.path.isdir(EXAMPLES))


if __name__ == "__main__":
    unittest.main()
