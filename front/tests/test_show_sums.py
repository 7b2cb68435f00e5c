"""The numbers of the table and of the summary add up to those of the report."""
import csv
import io
import unittest

from front.tests.showing import (
    STENCIL,
    Answer,
    asking,
    data,
    examples,
    file_of,
    folder_with,
    generated_stencil,
    needed,
    said,
    stored,
)


class Sums(unittest.TestCase):
    def check_all(self, words, ask):
        """Compares with the last report that was asked for."""
        reports = []

        def listening(asked):
            answer = ask(asked)
            if asked[0] == "predict":
                reports.append(answer.out.decode().splitlines())
            return answer

        sheet = list(csv.DictReader(io.StringIO(file_of("--csv", words, listening), newline="")))
        report = reports[-1]
        span = int(next(line for line in report if line.startswith("span ")).split()[1])
        procs = {w[1]: (int(w[3]), int(w[5]), int(w[7])) for w in map(str.split, report) if w[0] == "proc"}
        self.check_sheet(sheet, span, procs)
        code, summary, err = said([*words, "--summary"], listening)
        self.assertEqual((code in (0, 3, 4), err), (True, ""))
        self.check_summary(summary, sheet, span, procs)

    def check_sheet(self, sheet, span, procs):
        blocks = [line for line in sheet if line["kind"] == "block"]
        self.assertEqual({block["proc"] for block in blocks}, set(procs))
        self.assertEqual(max((int(block["end"]) for block in blocks), default=0), span)
        for proc, (count, busy, use) in procs.items():
            times = [int(block["end"]) - int(block["start"]) for block in blocks if block["proc"] == proc]
            self.assertEqual((len(times), sum(times), 10_000 * sum(times) // span), (count, busy, use))

    def check_summary(self, summary, sheet, span, procs):
        messages = [line for line in sheet if line["kind"] == "message"]
        tables = summary.split("\n\n")[1:]
        if not procs:
            self.assertEqual(tables, [])
            return
        of_procs, of_stmts = ([line.split() for line in table.splitlines()[1:]] for table in tables)
        for proc, blocks, busy, idle, use, *_ in of_procs[:-1]:
            self.assertEqual((int(blocks), int(busy)), procs[proc][:2])
            self.assertEqual(int(idle), span - int(busy))
            self.assertEqual(int(use.replace(".", "")), procs[proc][2])
        whole = of_procs[-1]
        self.assertEqual(int(whole[2]), sum(busy for _, busy, _ in procs.values()))
        self.assertEqual(int(whole[6]), len(messages))
        self.assertEqual(int(whole[7]), sum(int(message["bytes"]) for message in messages))
        latest = [int(message["came"]) - int(message["left"]) for message in messages]
        self.assertEqual(whole[9], str(max(latest)) if latest else "-")
        waits = sum(int(line["start"]) - int(line["ready"]) for line in sheet if line["kind"] == "block")
        self.assertEqual(int(whole[5]), waits)
        for column in (1, 2, 3, 4, 5, 6):
            self.assertEqual(sum(int(line[column]) for line in of_stmts[:-1]), int(of_stmts[-1][column]))
        self.assertEqual(of_stmts[-1][1:3], whole[1:3])

    def test_stored(self):
        self.check_all(STENCIL, stored)

    def test_examples(self):
        needed()
        for name in examples():
            for machine in ("flat:2:5", "flat:1:7", "flat:3:50"):
                with self.subTest(name=name, machine=machine):
                    self.check_all([name, machine], asking)

    def test_generated(self):
        needed()
        with folder_with("stencil.sd", generated_stencil(8, 3)) as name:
            for machine in ("flat:8:10", "flat:3:10", "examples/torus.toml"):
                with self.subTest(machine=machine):
                    self.check_all([name, machine], asking)

    def test_what_is_stored_is_what_the_program_answers(self):
        needed()
        logs = []

        def both(words):
            answer = asking(words)
            if words[0] == "emulate":
                with open(words[2], "rb") as it:
                    logs.append(it.read())
            else:
                self.assertEqual(answer, Answer(0, stored(words).out, b""))
            return answer

        self.assertEqual(file_of("--csv", STENCIL, both), file_of("--csv", STENCIL, stored))
        self.assertEqual(logs, [data("log")])


if __name__ == "__main__":
    unittest.main()
