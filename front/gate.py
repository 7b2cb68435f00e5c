"""What the merge gate asks besides `rt ci`: the pages and the tests of the script. It prints nothing where all is well.

`rt ci` removes what lay in each crate's out/ before, and leaves the proved executable of the program there. It
passed, or this isn't run. So that executable is recorded as the proved build of the sources as they stand, unless
one of them was touched after it was made.
"""
import os
import subprocess
import sys

from front import build, places, sources
from front.telling import tell_as_is

CHECKS = {
    "docs/check": [os.path.join(places.ROOT, "docs", "check")],
    "the tests of the script": [
        *(sys.executable, "-B", "-W", "error"),
        *("-m", "unittest", "discover", "-s", "front/tests", "-t", "."),
    ],
}


def main():
    """Records the proved build, runs both checks, and returns the exit code."""
    if os.access(places.PROVED, os.X_OK):
        latest = sources.sum_of_marks(places.ROOT, sources.source_files())[1]
        if latest < os.stat(places.PROVED).st_mtime_ns:
            build.record_proved(sources.checksum())
    code = 0
    for what, words in CHECKS.items():
        how = {"cwd": places.ROOT, "stdin": subprocess.DEVNULL, "stdout": subprocess.PIPE, "stderr": subprocess.STDOUT}
        ran = subprocess.run(words, **how)
        if ran.returncode != 0:
            tell_as_is(ran.stdout.decode("utf-8", "replace").rstrip("\n"))
            tell_as_is(f"pochvean: {what} failed")
            code = 1
    return code


if __name__ == "__main__":
    sys.exit(main())
