"""Builds: made once, kept, and never taken where they aren't fresh or not whole."""
import os
import signal
import time
import unittest

from front.tests.support import PLAYED_PROGRAM, played, read, write

NOT_PROVED = "pochvean: this build isn't the proved one"


class Kept(unittest.TestCase):
    """The checked build."""

    def test_is_made_once(self):
        with played() as here:
            code, out, err = here.call("check", "x.sd")
            self.assertEqual(code, 0, err)
            self.assertTrue(out.startswith("ran check x.sd in "), out)
            self.assertIn("there is no build of these sources yet", err)
            self.assertIn(NOT_PROVED, err)
            self.assertEqual(len(here.calls()), 1)
            code, out, err = here.call("check", "x.sd")
            self.assertEqual((code, err.count("\n"), len(here.calls())), (0, 1, 1))
            self.assertEqual(len(here.kept()), 1)

    def test_runs_where_the_user_is(self):
        with played() as here:
            os.makedirs(here.tools + "/deep")
            out = here.call("check", "x", cwd=here.tools + "/deep")[1]
            self.assertEqual(out.strip(), "ran check x in " + os.path.realpath(here.tools + "/deep"))

    def test_other_sources_have_another_build(self):
        with played() as here:
            here.call("check", "x")
            stat = os.stat(here.source)
            write(here.source, "// A source\n")
            os.utime(here.source, ns=(stat.st_atime_ns, stat.st_mtime_ns))
            here.call("check", "x")
            self.assertEqual(len(here.kept()), 2)
            write(here.source, "// a source\n")
            here.call("check", "x")
            self.assertEqual(len(here.calls()), 2)

    def test_a_touch_makes_no_other_sources(self):
        with played() as here:
            here.call("check", "x")
            os.utime(here.source)
            here.call("check", "x")
            self.assertEqual(len(here.calls()), 1)

    def test_two_calls_at_once_build_once(self):
        with played() as here:
            how = {"environment": {"PLAYED_SECONDS": "1.5"}}
            started = [here.start("check", str(k), **how) for k in range(3)]
            for it in started:
                out, _ = it.communicate(timeout=60)
                self.assertEqual((it.returncode, out[:9]), (0, b"ran check"))
            self.assertEqual(len(here.calls()), 1)

    def test_a_build_that_answers_wrongly_is_not_kept(self):
        with played() as here:
            here.play(PLAYED_PROGRAM.replace("status settled", "status trapped"))
            code, out, err = here.call("check", "x")
            self.assertEqual((code, out), (0, "status settled\n"))
            self.assertIn("couldn't be kept", err)
            self.assertEqual((here.kept(), len(here.calls())), ([], 2))

    def test_a_build_that_is_not_seen_is_not_kept(self):
        with played() as here:
            code, out, err = here.call("check", "deadlock", environment={"PLAYED": "hidden"})
            self.assertEqual((code, out), (3, "status settled\n"))
            self.assertIn("couldn't be kept", err)
            self.assertNotIn("run=", err)

    def test_sources_that_do_not_compile(self):
        with played() as here:
            code, out, err = here.call("check", "x", environment={"PLAYED": "refused"})
            self.assertEqual((code, out, here.kept()), (69, "", []))
            self.assertIn("it does not compile", err)

    def test_no_toolchain(self):
        with played() as here:
            code, _, err = here.call("check", "x", environment={"PATH": "/usr/bin:/bin"})
            self.assertEqual(code, 69)
            self.assertIn("no 'rt'", err)

    def test_interrupted(self):
        with played() as here:
            for number, wanted in ((signal.SIGINT, 130), (signal.SIGTERM, 143)):
                started = here.start("check", "x", environment={"PLAYED_SECONDS": "30", "TMPDIR": here.tools})
                while not here.calls():
                    time.sleep(0.05)
                time.sleep(0.3)
                started.send_signal(number)
                started.communicate(timeout=20)
                self.assertEqual((started.returncode, here.kept()), (wanted, []))
                left = [it for it in os.listdir(here.tools) if it.startswith("pochvean-")]
                self.assertEqual(left, [])
                os.unlink(here.tools + "/calls")
            self.assertEqual(here.call("check", "x")[0], 0)

    def test_no_cache_folder(self):
        with played() as here:
            write(here.cache, "a file in its place")
            self.assertEqual(here.call("check", "x")[0], 0)
            self.assertEqual(here.call("check", "x")[0], 0)
            self.assertEqual(len(here.calls()), 1)
            self.assertEqual(len([it for it in os.listdir(here.out) if it.startswith("checked-")]), 1)

    def test_a_cache_folder_that_others_write_to_is_not_used(self):
        with played() as here:
            os.makedirs(here.cache + "/pochvean")
            os.chmod(here.cache + "/pochvean", 0o777)
            here.call("check", "x")
            self.assertEqual(here.kept(), [])

    def test_no_place_at_all(self):
        with played() as here:
            write(here.cache, "")
            write(here.out, "")
            code, out, err = here.call("check", "deadlock")
            self.assertEqual((code, out), (3, "status settled\n"))
            self.assertIn("can't be kept", err)

    def test_old_builds_go(self):
        with played() as here:
            for k in range(7):
                write(here.source, f"// {k}\n")
                here.call("check", "x", environment={"PLAYED_SECONDS": "0.15"})
            self.assertEqual(len(here.kept()), 5)


class Proved(unittest.TestCase):
    """The proved build."""

    def test_prove(self):
        with played() as here:
            code, out, err = here.call("--prove")
            self.assertEqual((code, out), (0, ""), err)
            self.assertEqual([it.split()[0] for it in here.calls()], ["all", "run"])
            self.assertIn("2 crates", err)
            code, out, err = here.call("check", "x")
            self.assertEqual((code, err), (0, ""))
            self.assertEqual(here.kept(), [])
            here.call("--prove")
            self.assertEqual(len(here.calls()), 2)

    def test_is_taken_by_checksums_alone(self):
        with played() as here:
            here.call("--prove")
            os.utime(here.source)
            self.assertEqual(here.call("check", "x")[2], "")
            write(here.source, "// other\n")
            os.utime(here.source, (0, 0))
            self.assertIn(NOT_PROVED, here.call("check", "x")[2])
            write(here.source, "// a source\n")
            self.assertEqual(here.call("check", "x")[2], "")
            write(here.out + "/bs_program", PLAYED_PROGRAM + "# half", 0o755)
            self.assertIn(NOT_PROVED, here.call("check", "x")[2])

    def test_an_executable_without_a_record_is_not_taken(self):
        with played() as here:
            write(here.out + "/bs_program", PLAYED_PROGRAM, 0o755)
            self.assertIn(NOT_PROVED, here.call("check", "x")[2])

    def test_refused(self):
        with played() as here:
            code, _, err = here.call("--prove", environment={"PLAYED": "refused", "TMPDIR": here.tools})
            self.assertEqual(code, 69)
            self.assertIn("bs_num: failed (1)", err)
            self.assertFalse(os.path.exists(here.out + "/pochvean.record"))

    def test_install(self):
        with played() as here:
            there = here.tools + "/bin"
            os.makedirs(there)
            self.assertEqual(here.call("--install", there)[0], 69)
            here.call("--prove")
            self.assertEqual(here.call("--install", there)[0], 0)
            self.assertEqual(read(there + "/pochvean"), PLAYED_PROGRAM)
            self.assertEqual(os.listdir(there), ["pochvean"])
            self.assertEqual(here.call("--install", there + "/none")[0], 73)
            self.assertEqual(here.call("--install")[0], 64)


class Gate(unittest.TestCase):
    """The merge gate."""

    def call(self, here, **more):
        import subprocess

        write(here.root + "/front/tests/__init__.py", "")
        write(here.root + "/front/tests/test_small.py", SMALL)
        how = {"stdin": subprocess.DEVNULL, "stdout": subprocess.PIPE, "stderr": subprocess.PIPE, "timeout": 60}
        ran = subprocess.run(["bash", ".ci/run"], cwd=here.root, env=here.environment(**more), **how)
        return ran.returncode, ran.stdout.decode(), ran.stderr.decode()

    def test_last_line(self):
        with played() as here:
            os.makedirs(here.root + "/examples")
            write(here.root + "/README.md", "```\n$ ./pochvean check a\nran check a in /\n...\n```\n".replace("ran check a in /\n", ""))
            self.assertEqual(self.call(here), (0, "5 passed, 0 failed\n", ""))
            # (the executable that the gate left was taken, and nothing was built)
            self.assertEqual([it.split()[0] for it in here.calls()], ["ci"])
            self.assertEqual(here.call("check", "x")[2], "")

    def test_pages_that_differ(self):
        with played() as here:
            os.makedirs(here.root + "/examples")
            write(here.root + "/README.md", "```\n$ ./pochvean check a\nwrong\n```\n")
            code, _, err = self.call(here)
            self.assertEqual(code, 1)
            self.assertIn("README.md:2: $ ./pochvean check a", err)

    def test_a_refused_proof_ends_it(self):
        with played() as here:
            os.makedirs(here.root + "/examples")
            self.assertEqual(self.call(here, PLAYED="refused"), (1, "4 passed, 1 failed\n", ""))


SMALL = """import unittest
class Small(unittest.TestCase):
    def test(self):
        print("nothing of this is shown")
"""


if __name__ == "__main__":
    unittest.main()
