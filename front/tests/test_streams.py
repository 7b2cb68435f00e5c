"""The program's bytes, files and codes are those of the program, whatever the script adds."""
import os
import pty
import signal
import subprocess
import sys
import unittest

from front import places
from front.tests.support import EXAMPLES, ask, folder, played, read, write
from front.tests import support

PROG = os.path.join(EXAMPLES, "two_chares.sd")


class Whole(unittest.TestCase):
    """What was seen to go wrong, by the real program."""

    def script(self, *words, **how):
        given = how.pop("given", b"")
        how = {"stdout": subprocess.PIPE, "stderr": subprocess.PIPE, "input": given, **how}
        script = os.path.join(places.ROOT, "pochvean")
        ran = subprocess.run([sys.executable, "-B", script, *words], **how)
        return ran.returncode, ran.stdout, ran.stderr

    @classmethod
    def setUpClass(cls):
        support.program()

    def test_options_before_the_command(self):
        with folder() as room:
            code, _, err = self.script("--limit", "1000", "emulate", PROG, "kept.log", cwd=room)
            self.assertEqual(code, 0, err)
            self.assertTrue(read(room + "/kept.log").startswith("bslog 1\n"))

    def test_files_named_like_values(self):
        with folder(**{"5": "", "flat:2:5": "", "model": ""}) as room:
            words = ("--limit", "5", "model", PROG, "flat:2:5")
            self.assertEqual(self.script(*words, cwd=room)[:2], ask(*words, folder=room)[:2])
            self.assertEqual(self.script("--limit", "500", *words[2:], cwd=room)[0], 0)

    def test_standard_input(self):
        given = read(PROG).encode()
        self.assertEqual(self.script("check", "/dev/stdin", given=given)[:2], ask("check", PROG)[:2])

    def test_a_full_device(self):
        with open("/dev/full", "wb") as full:
            code, _, err = self.script("check", PROG, stdout=full)
            self.assertEqual(code, 21)
            self.assertIn(b"couldn't be written whole", err)
            self.assertEqual(self.script("check", "/dev/full/none")[0], 20)
            self.assertEqual(self.script("chek", PROG, stderr=full)[0], 21)
        self.assertEqual(self.script("emulate", PROG, "/dev/full")[0], 21)

    def test_codes_that_say_nothing(self):
        with folder(log="x") as room:
            cases = (
                (22, ("check", "none.sd"), b"there is no file none.sd"),
                (20, ("check", "."), b". is a folder"),
                (20, ("check", "log/below"), b"log/below lies below a file"),
                (21, ("emulate", PROG, "none/a.log"), b"there is no folder"),
                (1, ("check", b"\xff.sd"), b"word 2 isn't UTF-8"),
            )
            for code, words, said in cases:
                got, out, err = self.script(*words, cwd=room)
                self.assertEqual((got, out), (code, b""), words)
                self.assertIn(said, err)

    def test_a_closed_stream(self):
        with folder(**{"l": "bslog 1\nchares 1 entries 0 rows 1\nrow 0 1 1 1\nend\n"}) as room:
            words = [sys.executable, "-B", os.path.join(places.ROOT, "pochvean"), "predict", "l", "flat:1:1"]
            for more, closed in (([], "1"), (["--journal", "j"], "1"), (["--waves", "1", "--journal", "j"], "2")):
                shell = ["sh", "-c", f'"$@" {closed}>&-; echo $? >code', "sh", *words, *more]
                how = {"stdout": subprocess.DEVNULL, "stderr": subprocess.PIPE}
                err = subprocess.run(shell, cwd=room, check=True, **how).stderr
                self.assertEqual(read(room + "/code"), "21\n" if closed == "1" else "0\n", more)
                self.assertEqual(b"its reader went away" in err, closed == "1", err)
                if more:
                    self.assertEqual(read(room + "/j"), "wave 1\nsettled 1\n")

    def test_a_reader_that_goes_away(self):
        rows = "".join(f"row 0 1 {k} 1\n" + f"after {k - 1}\n" * (k > 1) for k in range(1, 4001))
        with folder(**{"l": f"bslog 1\nchares 1 entries 0 rows 4000\n{rows}end\n"}) as room:
            words = [sys.executable, "-B", os.path.join(places.ROOT, "pochvean"), "predict", "l", "flat:1:1"]
            shell = ["bash", "-c", '"$@" | true; exit ${PIPESTATUS[0]}', "bash", *words]
            ran = subprocess.run(shell, cwd=room, stderr=subprocess.PIPE)
            self.assertEqual(ran.returncode, 21)
            self.assertIn(b"its reader went away", ran.stderr)

    def test_files_that_are_what_they_are_not_for(self):
        short = "bslog 1\nchares 1 entries 0 rows 0\nend\n"
        with folder(**{"log": "x", "big": b" " * 1_048_577, "l": short}) as room:
            os.mkdir(room + "/in")
            cases = (
                (21, ("emulate", PROG, "in"), b"in is a folder, so no file of that name can be written"),
                (21, ("emulate", PROG, "log/below"), b"log/below lies below a file"),
                (21, ("predict", "l", "flat:1:1", "--journal", "/dev/full"), b"couldn't be written whole to /dev/full"),
                (20, ("model", PROG, "in"), b"in is a folder, and a file is wanted"),
                (18, ("check", "big"), b"big has 1048577 bytes"),
                (20, ("check", "x" * 300), b"can't be read"),
                (11, ("check", "/dev/null"), b"bad program: byte 0 unexpected"),
            )
            for code, words, said in cases:
                got, out, err = self.script(*words, cwd=room)
                self.assertEqual((got, out), (code, b""), words)
                self.assertIn(said, err)

    def test_a_file_that_is_no_log(self):
        with folder(**{"mine.sd": read(PROG), "old.log": "bslog 1\nchares 2"}) as room:
            code, _, err = self.script("emulate", PROG, "mine.sd", cwd=room)
            self.assertEqual(code, 0)
            self.assertIn(b"mine.sd is no log, and is about to be replaced", err)
            self.assertNotIn(b"about to be", self.script("emulate", PROG, "old.log", cwd=room)[2])
            self.assertNotIn(b"about to be", self.script("emulate", PROG, "new.log", cwd=room)[2])

    def test_all_examples(self):
        with folder() as room:
            for name in sorted(os.listdir(EXAMPLES)):
                if name.endswith(".sd") and os.path.getsize(os.path.join(EXAMPLES, name)) < 2000:
                    words = ("check", os.path.join(EXAMPLES, name))
                    one, other = self.script(*words, cwd=room), ask(*words, folder=room)
                    self.assertEqual(one[:2], other[:2])
                    self.assertIn(other[2], one[2])


class Plain(unittest.TestCase):
    """The same with a program that only plays."""

    def test_codes(self):
        with played() as here:
            for code in (0, 3, 4, 16, 17, 30, 99):
                self.assertEqual(here.call("code", str(code))[0], code)

    def test_memory_that_is_wanting(self):
        with played() as here:
            here.play(support.PLAYED_PROGRAM.replace('case "$1" in', '[ "$2" = l ] && exit 30\ncase "$1" in'))
            code, out, err = here.call("predict", "l", "flat:1:1")
            self.assertEqual((code, out), (30, ""))
            self.assertIn("pochvean: memory was wanting", err)
            self.assertNotIn("journal", err)
            self.assertIn("--waves N makes a shorter one", here.call("predict", "l", "flat:1:1", "--journal", "j")[2])

    def test_a_journal_that_is_cut(self):
        with played() as here:
            cut = '[ "$1" = predict ] && echo "$2 1" >"$5" && exit 21\ncase "$1" in'
            here.play(support.PLAYED_PROGRAM.replace('case "$1" in', cut))
            at = os.path.join(here.root, "j")
            for log, said in (("wave", "the journal couldn't be written"), ("settled", "its reader went away")):
                self.assertIn(said, here.call("predict", log, "flat:1:1", "--journal", at)[2])

    def test_input_and_much_output(self):
        with played() as here:
            self.assertEqual(here.call("input", given=b"given\n")[1], "given\n")
            self.assertEqual(here.call("much")[1], "x" * 3_000_000)

    def test_lines_that_cannot_be_written(self):
        with played() as here, open("/dev/full", "wb") as full:
            here.call("code", "0")
            self.assertEqual(here.call("tell", "bad log: line 1", "14", stderr=full)[0], 21)
            self.assertEqual(here.call("tell", "bad log: line 1", "14")[0], 14)

    def test_signals(self):
        with played() as here:
            self.assertEqual(here.call("signal", "TERM")[0], -signal.SIGTERM)
            started = here.start("sleep", "30")
            self.assertEqual(started.stdout.readline(), b"begun\n")
            started.send_signal(signal.SIGTERM)
            started.communicate(timeout=60)
            self.assertEqual(started.returncode, -signal.SIGTERM)

    def test_a_checked_build_says_that_it_takes_long(self):
        with played() as here:
            self.assertIn("takes some hundred times as long", here.call("sleep", "6")[2])
            here.call("--prove")
            self.assertEqual(here.call("sleep", "6")[2], "")

    def test_closed_streams(self):
        with played() as here:
            here.call("code", "0")
            words = ["sh", "-c", f"'{sys.executable}' '{here.root}/pochvean' tell line 14 2>&-; echo $?"]
            ran = subprocess.run(words, env=here.environment(), stdout=subprocess.PIPE)
            self.assertEqual(ran.stdout, b"14\n")

    def test_a_terminal(self):
        with played() as here:
            write(here.root + "/d.sd", "chares 1; var x; entry go(1);\nbody { when go[8](x) { } }\n")
            report = "status deadlock\\nwait chare 0 stmt 1 entry 0 ref 8\\n"
            here.play(
                support.PLAYED_PROGRAM.replace('case "$1" in', f'[ "$3" = flat:1:1 ] && printf "{report}" && exit 3\ncase "$1" in')
            )
            leader, follower = pty.openpty()
            started = here.start("model", "d.sd", "flat:1:1", cwd=here.root, stdout=follower)
            os.close(follower)
            err = started.communicate(timeout=60)[1].decode()
            out = os.read(leader, 10_000).decode().replace("\r\n", "\n")
            os.close(leader)
            self.assertEqual((started.returncode, out), (3, report.replace("\\n", "\n")))
            self.assertIn("d.sd:2:8: chare 0 waits at 'when go[8](x)' for 'go' of reference 8, which nobody sends", err)
            self.assertNotIn("waits", here.call("model", "d.sd", "flat:1:1", cwd=here.root)[2])


if __name__ == "__main__":
    unittest.main()
