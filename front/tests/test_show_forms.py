"""The forms of `show`: what each draws or writes, from answers that are stored or made."""
import json
import os
import tempfile
import unittest
from unittest import mock
from xml.etree import ElementTree

from front.show import text
from front.show.grid import Grid, Groups, level, nice_step
from front.show.logs import Unreadable, read_log
from front.tests.showing import (
    ROOT,
    STENCIL,
    Answer,
    Terminal,
    asking,
    file_of,
    folder_with,
    made,
    needed,
    said,
    stored,
)

LOG_1 = b"""bslog 1
chares 2 entries 1 rows 4
row 0 1 1 4
send 1 0 7 8 4
row 0 3 2 3
after 1
mail 3 1
emit 1
row 1 1 1 4
send 0 0 7 8 4
row 1 3 2 3
after 3
mail 1 1
emit 0
end
"""
LOG_2 = b"""bslog 2
chares 2 entries 1 rows 4
chare 0 2
row 1 1 4
send 1 0 7 8 4
row 3 2 3
after 1
mail 1 1 1
emit 1
chare 1 2
row 1 1 4
send 0 0 7 8 4
row 3 2 3
after 1
mail 0 1 1
emit 0
end
"""
SVG = "{http://www.w3.org/2000/svg}"


class Logs(unittest.TestCase):
    def test_both_versions(self):
        first, second = read_log(LOG_1), read_log(LOG_2)
        self.assertEqual(vars(first), vars(second))
        self.assertEqual(first.afters, [(), [1], (), [3]])
        self.assertEqual(first.mails, [(), [(3, 1)], (), [(1, 1)]])
        self.assertEqual(first.takers(), [[4], [2]])

    def test_no_log(self):
        cut = LOG_1.replace(b"row 0 3 2 3", b"row 0")
        for wrong in (b"", b"bslog 3\n", LOG_1.replace(b"after 1", b"after x"), cut):
            self.assertRaises(Unreadable, read_log, wrong)


class Grids(unittest.TestCase):
    def test_each_tick_counts_once(self):
        blocks = [(0, 3), (3, 4), (5, 17), (20, 21)]
        for cells in (1, 2, 5, 21, 40, 84):
            grid = Grid(1, cells, 21)
            for start, end in blocks:
                grid.add(0, start, end)
            busy = grid.line(0)
            self.assertEqual(sum(busy), cells * sum(end - start for start, end in blocks))
            for cell in range(cells):
                inside = sum(
                    max(0, min(end * cells, (cell + 1) * 21) - max(start * cells, cell * 21)) for start, end in blocks
                )
                self.assertEqual(busy[cell], inside)

    def test_shades(self):
        self.assertEqual([level(busy, 6, 4) for busy in range(7)], [0, 1, 2, 2, 3, 3, 4])

    def test_steps(self):
        self.assertEqual([nice_step(span, 5) for span in (1, 5, 6, 11, 100, 251)], [1, 1, 2, 5, 20, 100])

    def test_groups(self):
        sizes = [Groups([None] * count, 40).size for count in (0, 1, 40, 41, 81, 65_536)]
        self.assertEqual(sizes, [1, 1, 1, 2, 4, 2048])


class Drawings(unittest.TestCase):
    def test_lines_are_as_wide_as_is_said(self):
        for width in (40, 60, 80, 200):
            for more in ([], ["--ascii"]):
                code, out, err = said([*STENCIL, "--width", str(width), *more])
                self.assertEqual((code, err), (0, ""))
                lanes = [line for line in out.splitlines() if line.startswith("proc ")]
                self.assertEqual(len(lanes), 4)
                self.assertTrue(all(line.endswith(" 34.92 %") and len(line) <= width for line in lanes))
                self.assertIn("settled, span 126: 40 blocks on 4 processors, mean use 34.92 %", out)

    def test_plain_characters(self):
        self.assertTrue(said([*STENCIL, "--ascii"])[1].isascii())
        self.assertTrue(all(sign.isascii() for sign in text.signs("latin-1", False).values()))
        self.assertTrue(all(sign.isascii() for sign in text.signs(None, False).values()))
        self.assertFalse(text.signs("utf-8", False)["line"].isascii())

    def test_cells_are_whole_where_ticks_are_few(self):
        log, ask = made(1, 2)
        with folder_with("log", log) as name:
            _, out, _ = said([name, "flat:1:1", "--ascii"], ask)
        lane = next(line for line in out.splitlines() if line.startswith("proc "))
        self.assertEqual(set(lane.split("|")[1]), {"#", "."})

    def test_many_processors_share_lines(self):
        log, ask = made(100, 5)
        with folder_with("log", log) as name:
            _, out, _ = said([name, "flat:100:1"], ask)
        lanes = [line for line in out.splitlines() if line.startswith("proc ")]
        self.assertEqual(len(lanes), 25)
        self.assertTrue(lanes[0].startswith("proc 0-3 "))
        self.assertIn("a line is 4 processors", out)

    def test_colours_are_for_terminals_that_want_them(self):
        def drawn(term, no_colour):
            with mock.patch.dict(os.environ, TERM=term, NO_COLOR=no_colour):
                return said(STENCIL, kind=Terminal)[1]

        self.assertNotIn("\x1b", said(STENCIL)[1])
        self.assertIn("\x1b[38;5;25m", drawn("xterm", ""))
        self.assertNotIn("\x1b", drawn("xterm", "1"))
        self.assertNotIn("\x1b", drawn("dumb", ""))

    def test_no_blocks(self):
        def answers(words):
            return Answer(3, b"status deadlock\nspan 0\n" if words[0] == "predict" else b"", b"")

        with folder_with("log", "bslog 1\nchares 1 entries 1 rows 0\nwait 0 1 0 0\nend\n") as name:
            code, out, err = said([name, "flat:1:1"], answers)
            totals = "deadlock, span 0: 0 blocks on 0 processors, mean use 0.00 %"
            self.assertEqual((code, out.splitlines()[1:], err), (3, [totals], ""))
            ElementTree.fromstring(file_of("--svg", [name, "flat:1:1"], answers))
            json.loads(file_of("--perfetto", [name, "flat:1:1"], answers))


class Pictures(unittest.TestCase):
    def test_blocks_and_messages(self):
        picture = ElementTree.fromstring(file_of("--svg", STENCIL))
        titles = [title.text for title in picture.iter(f"{SVG}title")]
        self.assertIn("row 4: chare 0 stmt 8, ready 52, start 57, end 62", titles)
        self.assertIn("row 2 send 1: to chare 3, entry 0 ref 0, 8 bytes, left 2, came 52", titles)
        self.assertEqual(len(titles), 40 + 16)

    def test_the_picture_of_the_readme(self):
        with open(os.path.join(ROOT, "docs", "timeline.svg"), encoding="utf-8") as it:
            kept = it.read()
        self.assertEqual(file_of("--svg", STENCIL, stored), kept)
        if needed():
            self.assertEqual(file_of("--svg", STENCIL, asking), kept)

    def test_many_blocks_are_joined(self):
        log, ask = made(64, 2_000)
        with folder_with("log", log) as name:
            for by in ("chare", "stmt"):
                picture = file_of("--svg", [name, "flat:64:1", "--by", by], ask)
                ElementTree.fromstring(picture)
                self.assertLess(len(picture), 4_000_000)

    def test_many_processors_share_rows(self):
        log, ask = made(1_000, 4)
        with folder_with("log", log) as name:
            picture = file_of("--svg", [name, "flat:1000:1"], ask)
        self.assertIn("a row is 8 processors", picture)
        self.assertLess(len(picture), 1_000_000)
        ElementTree.fromstring(picture)

    def test_names_that_xml_needs_care_for(self):
        log, ask = made(2, 2)
        with folder_with("a<b>&\"'\x01.log", log) as name:
            picture = ElementTree.fromstring(file_of("--svg", [name, "flat:2:1"], ask))
        self.assertIn("a<b>&\"'?.log", picture.get("aria-label"))


class Traces(unittest.TestCase):
    def rules(self, trace):
        """The rules of the format that a viewer stands on."""
        events, slices = trace["traceEvents"], {}
        for event in events:
            if event["ph"] == "X":
                slices.setdefault(event["tid"], []).append((event["ts"], event["ts"] + event["dur"]))
        for times in slices.values():
            times.sort()
            self.assertTrue(all(end <= start for (_, end), (start, _) in zip(times, times[1:])))
        named = {event["tid"] for event in events if event["name"] == "thread_name"}
        self.assertEqual(named, set(slices))
        flows = {}
        for event in events:
            if event["ph"] in "sf":
                flows.setdefault(event["id"], []).append(event)
                self.assertTrue(any(start <= event["ts"] < end for start, end in slices[event["tid"]]))
        for begin, end in flows.values():
            self.assertEqual((begin["ph"], end["ph"], end["bp"]), ("s", "f", "e"))
            self.assertEqual((begin["name"], begin["cat"]), (end["name"], end["cat"]))
            self.assertLessEqual(begin["ts"], end["ts"])
        return slices, flows

    def test_stored(self):
        trace = json.loads(file_of("--perfetto", STENCIL))
        slices, flows = self.rules(trace)
        self.assertEqual((sum(map(len, slices.values())), len(flows)), (40, 16))
        block = next(event for event in trace["traceEvents"] if event.get("args", {}).get("row") == 4)
        self.assertEqual((block["name"], block["ts"], block["dur"]), ("chare 0 stmt 8", 57, 5))
        about = {"row": 4, "chare": 0, "stmt": 8, "ready": 52, "depth": 3, "cost": 5, "after": [2]}
        self.assertEqual(block["args"], {**about, "mail": ["row 32 send 2 came 52"]})

    def test_a_message_that_leaves_at_the_end_of_its_block(self):
        needed()
        trace = json.loads(file_of("--perfetto", ["examples/two_chares.sd", "flat:2:5"], asking))
        self.rules(trace)
        self.assertEqual([event["ts"] for event in trace["traceEvents"] if event["ph"] == "s"], [3.999, 3.999])


class Words(unittest.TestCase):
    def test_bad_words(self):
        wrong = [
            [],
            ["examples/stencil.sd"],
            [*STENCIL, "more"],
            [*STENCIL, "--colour"],
            [*STENCIL, "--by", "row"],
            [*STENCIL, "--width", "39"],
            [*STENCIL, "--width", "x"],
            [*STENCIL, "--svg", ""],
            [*STENCIL, "--svg", "examples/stencil.sd"],
            [*STENCIL, "--svg", "new.svg", "--csv", "./new.svg"],
            ["front/tests/show_data/stencil.log", "flat:4:50", "--limit", "5"],
        ]
        for words in wrong:
            with self.subTest(words=words):
                code, out, err = said(words)
                self.assertEqual((code, out, err.splitlines()[0]), (64, "", "bad words"))
                self.assertIn("usage: ./pochvean show", err)

    def test_help(self):
        code, out, err = said(["--help"])
        self.assertEqual((code, out.split()[0], err), (0, "usage:", ""))

    def test_options_are_passed_on(self):
        asked = []

        def listening(words):
            asked.append([words[0], *words[3:]])
            return stored(words)

        said([*STENCIL, "--limit", "40", "--waves", "9"], listening)
        self.assertEqual(asked, [["emulate", "--limit", "40"], ["predict", "--waves", "9"]])

    def test_several_forms_stand_together(self):
        with tempfile.TemporaryDirectory() as folder:
            names = [os.path.join(folder, name) for name in ("a.svg", "a.json", "a.csv")]
            files = ["--svg", names[0], "--perfetto", names[1], "--csv", names[2]]
            self.assertEqual(said([*STENCIL, *files]), (0, "", ""))
            self.assertEqual(sorted(os.listdir(folder)), ["a.csv", "a.json", "a.svg"])
        _, drawn, _ = said([*STENCIL, "--text"])
        _, tables, _ = said([*STENCIL, "--summary"])
        self.assertEqual(said([*STENCIL, "--text", "--summary"])[1], drawn + tables)

    def test_refusals_are_passed_on(self):
        for code, line in ((15, b"ambiguous: ..\n"), (13, b"bad machine: not toml\n"), (30, b"")):
            with tempfile.TemporaryDirectory() as folder:
                name = os.path.join(folder, "a.svg")
                refusing = lambda words: Answer(code, b"", line)
                answer, out, err = said([*STENCIL, "--svg", name, "--summary"], refusing)
                self.assertEqual((answer, out, os.listdir(folder)), (code, "", []))
                self.assertEqual(err, line.decode() or "pochvean: memory was wanting\n")
        code, out, err = said(["nowhere.sd", "flat:1:1"], lambda words: Answer(22, b"", b""))
        self.assertEqual((code, out, err), (22, "", "pochvean: there is no file nowhere.sd\n"))

    def test_the_log_of_another_run(self):
        log, _ = made(2, 2)
        with folder_with("log", log) as name:
            code, out, _ = said([name, "flat:4:50", "--summary"])
        self.assertEqual((code, out), (75, ""))


class Files(unittest.TestCase):
    def test_what_cannot_be_written(self):
        for name in ("/nowhere/a.svg", "/dev/full", ROOT):
            code, out, err = said([*STENCIL, "--svg", name])
            self.assertEqual((code, out, err.count("\n")), (74, "", 1))
            self.assertTrue(err.startswith(f"pochvean: can't write {name}: "))

    def test_an_older_file_stays_until_the_new_one_is_whole(self):
        def failing(words):
            return stored(words) if words[0] != "trace" else Answer(30, b"", b"")

        with folder_with("a.svg", "older") as name:
            self.assertEqual(said([*STENCIL, "--svg", name], failing)[0], 30)
            with open(name) as it:
                self.assertEqual(it.read(), "older")
            self.assertEqual(os.listdir(os.path.dirname(name)), ["a.svg"])
            os.chmod(name, 0o640)
            self.assertEqual(said([*STENCIL, "--svg", name])[0], 0)
            self.assertEqual(os.stat(name).st_mode & 0o777, 0o640)


if __name__ == "__main__":
    unittest.main()
