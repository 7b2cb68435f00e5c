"""How pages are read, and how what they show is compared."""
import os
import unittest

from front import pages
from front.tests.support import folder, write

PAGE = """# A page

```
$ first
one
two
$ second \\
> more
```

```
not run
```
"""


class Reading(unittest.TestCase):
    """Commands and what they print."""

    def test_commands(self):
        found = [it for block in pages.blocks(PAGE) for it in pages.commands(*block)]
        self.assertEqual([(it.line, it.command, it.printed) for it in found], [(4, "first", ["one", "two"]), (7, "second \\\nmore", [])])

    def test_not_run(self):
        for it in ("./pochvean --prove", "bash .ci/run", "rt ci", "docs/check", "bench/measure", "./pochvean --install ~/bin"):
            self.assertTrue(pages.NOT_RUN.search(it), it)
        for it in ("./pochvean model a.sd flat:1:1", "cat start.log", "sort a"):
            self.assertFalse(pages.NOT_RUN.search(it), it)


class Comparing(unittest.TestCase):
    """What is shown, and what is printed."""

    def test_lines_left_out(self):
        came = list("abcde")
        for wanted in ("abcde", "a...e", "...e", "a...", "...", "a...c...e", "ab...bcde"[:2] + "...e", "abcde..."):
            lines = [it for part in wanted.replace("...", " . ").split() for it in (["..."] if part == "." else part)]
            self.assertTrue(pages.matches(lines, came), wanted)
        for lines in (["a", "...", "a"], ["...", "d"], ["b", "..."], list("abcd"), [*"abc", "...", *"cde"], ["...", "x", "..."]):
            self.assertFalse(pages.matches(lines, came), lines)

    def test_lines_of_refusals(self):
        shown = pages.Shown(1, "c", ["bad log: line 1 bad line"])
        came = pages.Printed([], ["bad log: line 1 bad line", "a.log:1:1: more"], 14)
        self.assertEqual(pages.differences("p", shown, came), [])
        self.assertEqual(len(pages.differences("p", shown._replace(printed=[]), came)), 1)
        self.assertEqual(pages.differences("p", shown._replace(printed=[]), came._replace(code=3)), [])

    def test_a_whole_page(self):
        text = "```\n$ echo one >f; (exit 3)\n$ echo $?\n3\n$ cat f\none\n$ cat docs/a\nhere\n$ false\n$ echo x\ny\n```\n"
        with folder() as room:
            write(os.path.join(room, "docs", "a"), "here\n")
            os.makedirs(os.path.join(room, "examples"))
            write(os.path.join(room, "README.md"), text)
            found = pages.check(room)
            self.assertEqual(len(found), 1, found)
            self.assertTrue(found[0].startswith("README.md:10: $ echo x\nshown:\ny\nprinted:\nx\n"), found)
            self.assertFalse(os.path.exists(os.path.join(room, "f")))

    def test_links(self):
        text = "# A title: `x`\n[a](README.md#a-title-x) [b](none.md) [c](#none) [d](https://x.y) `[e](f)`\n"
        with folder(**{"README.md": text}) as room:
            found = pages.check_links(room, "README.md", text)
            self.assertEqual(found, ["README.md:2: there is no none.md", "README.md:2: there is no heading #none"])


if __name__ == "__main__":
    unittest.main()
