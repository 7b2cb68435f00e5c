"""GOAL schedules: each line that they have, and each refusal."""
import unittest

from front.tests.importing import Imported

PAIR = """// two ranks
num_ranks 2
rank 0 {
l1: calc 100 cpu 0 /* before */
l2: send 400b to 1 tag 3 cpu 0 nic 1
l2 requires l1
}
/* the other
one */
rank 1 {
l1: recv 400b from 0 tag 3
calc 0
l3: calc 7
l3 requires l1
l3 requires l1
}
"""


class Mapping(unittest.TestCase):
    def test_a_vertex_is_a_row(self):
        done = Imported(PAIR.encode())
        self.assertEqual((done.code, done.error), (0, ""))
        self.assertEqual(done.log, [
            "bslog 1", "chares 2 entries 1 rows 5", "row 0 1 1 100", "row 0 2 2 1", "after 1", "send 1 0 0 400 1",
            "row 1 3 3 1", "mail 2 1", "row 1 1 1 1", "row 1 1 4 7", "after 3", "end"])
        self.assertEqual(done.out, "ranks 2 rows 5 messages 1 lines 9\nstmt 1 calc\nstmt 2 send\nstmt 3 recv\n")

    def test_longer_ticks(self):
        self.assertIn("row 0 1 1 10", Imported(PAIR.encode(), "--unit", "10").log)

    def test_vertices_stand_behind_what_they_require(self):
        done = Imported(b"num_ranks 1\nrank 0 {\na: calc 5\nb: calc 6\na requires b\n}\n")
        self.assertEqual(done.log[2:-1], ["row 0 1 1 6", "row 0 1 2 5", "after 1"])

    def test_ranks_in_any_order_and_none(self):
        done = Imported(b"num_ranks 3\nrank 2 {\nsend 1b to 0\n}\nrank 0 {\nrecv 1b from 2\n}\n")
        self.assertEqual(done.log[1:-1], ["chares 3 entries 1 rows 2", "row 0 3 2 1", "mail 2 1", "row 2 2 1 1",
                                          "send 0 0 2 1 1"])

    def test_receives_take_the_sends_of_their_tag_in_order(self):
        done = Imported(b"num_ranks 2\nrank 0 {\nsend 1b to 1 tag 1\nsend 2b to 1 tag 2\nsend 3b to 1 tag 1\n}\n"
                        b"rank 1 {\nrecv 2b from 0 tag 2\nrecv 1b from 0 tag 1\nrecv 3b from 0 tag 1\n}\n")
        self.assertEqual([line for line in done.log if line.startswith("mail")], ["mail 2 1", "mail 1 1", "mail 3 1"])

    def test_by_name(self):
        self.assertEqual(Imported(PAIR.encode(), "--from", "goal").code, 0)
        self.assertEqual(Imported(PAIR.encode(), "--from", "paje").code, 65)


class Refusals(unittest.TestCase):
    def refused(self, text, why):
        done = Imported(text.encode())
        self.assertEqual((done.code, done.log, done.out, done.left), (65, None, "", []))
        self.assertRegex(done.error, r"\Aimport: TRACE line [1-9][0-9]* [^\n]*\n\Z")
        self.assertRegex(done.error, why)

    def of_rank(self, text, why):
        self.refused(f"num_ranks 2\nrank 0 {{\n{text}\n}}\nrank 1 {{\n}}\n", why)

    def test_what_is_not_mapped(self):
        self.of_rank("l1: calc 1\nl2: calc 1\nl2 irequires l1", "line 5 is irequires")
        self.of_rank("calc 1 cpu 0\ncalc 1 cpu 1", "line 4 names cpu 1")
        self.of_rank("recv 1b from any tag 0", "line 3 names any and no rank: wildcards")
        self.of_rank("recv 1b from 1 tag *", "line 3 has the tag .*wildcards")

    def test_lines(self):
        self.of_rank("jump 3", "line 3 is no calc")
        self.of_rank("send 3b from 1", "line 3 is no calc")
        self.of_rank("l1: calc 1\nl1: calc 2", "line 4 has the label l1 again")
        self.of_rank("l1: calc 1\nl1 requires l7", "line 4 names l7, which no line")
        self.of_rank("send 1b to 2", "line 3 names rank 2, and there are 2")
        self.of_rank("a: calc 1\nb: calc 1\na requires b\nb requires a", "line 3 is a vertex of rank 0 that requires")
        self.refused("num_ranks 0\n", "line 1 isn't num_ranks")
        self.refused("num_ranks 1\ncalc 3\n", "line 2 isn't the beginning")
        self.refused("num_ranks 1\nrank 0 {\n}\nrank 0 {\n}\n", "line 4 isn't the beginning")

    def test_cut(self):
        self.refused("num_ranks 1\nrank 0 {\ncalc 3\n", "line 3 is the last, and the schedule isn't ended")
        self.refused("num_ranks 1\n/* \n", "line 2 is the last")

    def test_matches(self):
        self.of_rank("recv 1b from 1 tag 5", "line 3 is a receive of rank 0 from rank 1, tag 5, and no such message")
        self.refused("num_ranks 2\nrank 0 {\na: recv 1b from 1\nb: send 1b to 1\nb requires a\n}\n"
                     "rank 1 {\na: recv 1b from 0\nb: send 1b to 0\nb requires a\n}\n",
                     "line 3 begins a wait that goes round in a circle over ranks 0, 1")

    def test_limits(self):
        self.refused("num_ranks 65537\n", "has rank 65536, and a log has at most 65536 chares")
        self.of_rank("calc 4294967297", "line 3 ends a row that costs 4294967297 ticks.*--unit 2$")
        self.of_rank("send 1073741825b to 1", "line 3 sends 1073741825 bytes")
        self.of_rank("calc 1\n" * 262145, "line 262147 makes the log longer than 262144 lines")


if __name__ == "__main__":
    unittest.main()
