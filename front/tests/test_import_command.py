"""The words of an import, its codes, and the traces of real programs in examples/real."""
import os
import tempfile
import unittest

from front.tests.importing import ROOT, Imported, predicted, program, run
from front.tests.test_import_paje import pair

REAL = os.path.join(ROOT, "examples", "real")


class Words(unittest.TestCase):
    def test_bad_words(self):
        for words in ([], ["a"], ["a", "b", "c"], ["a", "b", "--unit"], ["a", "b", "--unit", "0"],
                      ["a", "b", "--unit", "1", "--unit", "1"], ["a", "b", "--unit", "1000000001"],
                      ["a", "b", "--from", "otf"], ["a", "b", "--until", "x"], ["a", "b", "--merge"], ["", "b"]):
            code, out, error = run(*words)
            self.assertEqual((code, out), (64, ""))
            self.assertRegex(error, r"\Aimport: bad words; usage: [^\n]*\n\Z")

    def test_a_schedule_has_no_times(self):
        done = Imported(b"num_ranks 1\n", "--until", "1")
        self.assertEqual((done.code, done.log), (64, None))

    def test_the_trace_is_no_place_for_the_log(self):
        with tempfile.NamedTemporaryFile() as file:
            code, _, error = run(file.name, file.name)
        self.assertEqual(code, 64)
        self.assertIn("is the trace itself", error)


class Files(unittest.TestCase):
    def setUp(self):
        room = tempfile.TemporaryDirectory(prefix="pochvean-test-")
        self.addCleanup(room.cleanup)
        self.room = room.name
        self.trace = os.path.join(self.room, "trace")
        with open(self.trace, "wb") as file:
            file.write(pair().finish().bytes())

    def test_no_trace(self):
        for name in ("missing", "."):
            code, _, error = run(os.path.join(self.room, name), os.path.join(self.room, "log"))
            self.assertEqual(code, 66)
            self.assertIn("can't be read", error)

    def test_no_place(self):
        for name in (os.path.join("missing", "log"), "."):
            code, out, error = run(self.trace, os.path.join(self.room, name))
            self.assertEqual((code, out), (73, ""))
            self.assertRegex(error, r"\Aimport: [^\n]*\n\Z")
        self.assertEqual(os.listdir(self.room), ["trace"])

    def test_a_log_is_replaced_only_by_a_log(self):
        log = os.path.join(self.room, "log")
        with open(log, "w", encoding="ascii") as file:
            file.write("as it was")
        with open(self.trace, "ab") as file:
            file.write(b"99 0\n")
        self.assertEqual(run(self.trace, log)[0], 65)
        with open(log, encoding="ascii") as file:
            self.assertEqual(file.read(), "as it was")
        self.assertEqual(sorted(os.listdir(self.room)), ["log", "trace"])


class Real(unittest.TestCase):
    """Each trace becomes a log that the program takes, with the span that the traced run had."""

    SPANS = {"mw.paje.gz": 1372297, "is.paje.gz": 3116703, "hpcc_f.paje.gz": 887088, "ring64.goal": 13232616,
             "halona8.goal": 362838}

    def test_each(self):
        for name, span in self.SPANS.items():
            with self.subTest(name), tempfile.TemporaryDirectory() as room:
                log = os.path.join(room, "log")
                code, out, error = run(os.path.join(REAL, name), log)
                self.assertEqual((code, error), (0, ""))
                ended = [int(line.split()[1]) for line in out.splitlines() if line.startswith("ended")]
                self.assertTrue(all(abs(end - span) * 1000 <= end for end in ended))
                if name != "ring64.goal":
                    self.predict(log, span)

    def predict(self, log, span):
        if program() is None:
            self.skipTest("there is no build of the program")
        code, lines, error = predicted(log, "flat:8:5000")
        self.assertEqual((code, error, lines[0]), (0, "", "status settled"))
        self.assertIn(f"span {span}", lines)


if __name__ == "__main__":
    unittest.main()
