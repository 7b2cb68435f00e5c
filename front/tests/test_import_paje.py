"""Paje traces: each record, each call whose links are written twice, and each refusal."""
import gzip
import unittest

from front.tests.importing import OPTIONS, Imported, Trace


def pair():
    """Rank 0 works for 10, sends, and works for 5; rank 1 works for 3, receives, and works for 4."""
    trace = Trace(2).push(1, "computing").push(0, "computing").at(3).pop(1).at(10).pop(0).sends(0, 1, 7)
    trace.works(0, 10, 15)
    return trace.at(20).receives(1, 0, 7).works(1, 20, 24)


PAIR = ["bslog 1", "chares 2 entries 1 rows 3", "row 0 1 1 15", "send 1 0 0 8 10", "row 1 1 1 3", "row 1 2 2 4",
        "after 2", "mail 1 1", "end"]


class Mapping(unittest.TestCase):
    def log(self, trace, *words):
        done = Imported(trace.finish(), *words)
        self.assertEqual((done.code, done.error, done.left), (0, "", []))
        return done.log

    def test_rows_end_where_a_rank_waits(self):
        done = Imported(pair().finish())
        self.assertEqual(done.log, PAIR)
        self.assertEqual(done.out, "ranks 2 rows 3 messages 1 lines 6\nended 24\nstmt 1 start\nstmt 2 MPI_Recv\n")

    def test_packed_traces_are_read(self):
        self.assertEqual(Imported(gzip.compress(pair().finish().bytes())).log, PAIR)

    def test_longer_ticks(self):
        log = self.log(pair(), "--unit", "10")
        self.assertEqual(log[2:4], ["row 0 1 1 2", "send 1 0 0 8 1"])
        self.assertEqual(log[5], "row 1 2 2 1")

    def test_waits_with_nothing_between_make_one_row(self):
        trace = Trace(3).sends(0, 2, 1).sends(1, 2, 1)
        trace.at(5).receives(2, 0, 1).receives(2, 1, 1).works(2, 5, 9)
        self.assertEqual(self.log(trace)[2:-1], ["row 0 1 1 1", "send 2 0 0 8 1", "row 1 1 1 1", "send 2 0 1 8 1",
                                                 "row 2 2 2 4", "mail 1 1", "mail 2 1"])

    def test_any_tag_takes_the_first_that_is_left(self):
        trace = Trace(2).sends(0, 1, 5).sends(0, 1, 4).sends(0, 1, 5)
        trace.at(9).receives(1, 0, 4).works(1, 9, 10).receives(1, 0, -444).works(1, 10, 11).receives(1, 0, 5)
        mails = [line for line in self.log(trace) if line.startswith("mail")]
        self.assertEqual(mails, ["mail 1 2", "mail 1 1", "mail 1 3"])

    def test_references_run_on_for_each_pair(self):
        trace = Trace(3)
        for _ in range(2):
            trace.sends(0, 2, 1).sends(1, 2, 1)
        for _ in range(2):
            trace.at(5).receives(2, 0, 1).receives(2, 1, 1)
        sends = [line for line in self.log(trace) if line.startswith("send")]
        self.assertEqual(sends, ["send 2 0 0 8 1", "send 2 0 3 8 1", "send 2 0 1 8 1", "send 2 0 4 8 1"])

    def test_sleep_is_work(self):
        self.assertIn("row 0 1 1 6", self.log(Trace(1).push(0, "sleeping").at(6).pop(0)))

    def test_rank_that_does_nothing(self):
        self.assertEqual(self.log(Trace(2)), ["bslog 1", "chares 2 entries 1 rows 0", "end"])

    def test_lines_of_the_source(self):
        trace = Trace(2, located=True)
        place = ' "/src/a.c" 33'
        trace.push(0, "PMPI_Send", place).start(0, 1, 1).pop(0).at(5).push(1, "PMPI_Recv", place).end(1, 0, 1).pop(1)
        for rank in range(2):
            trace.push(rank, "PMPI_Finalize", place).pop(rank).add(f"7 {trace.stamp()} 1 {rank + 1}")
        done = Imported(trace)
        self.assertIn("row 1 33 2 1", done.log)
        self.assertIn("stmt 33 MPI_Recv a.c:33\n", done.out)

    def test_other_records_change_nothing(self):
        trace = pair().add("1 8 1 power \"0 0 0\"").add("3 9 1 mark").add("2 10 1 MIGRATE_STATE")
        trace.add("8 0.1 8 1 5").add("9 0.1 8 1 5").add("10 0.1 8 1 5").add("17 0.1 9 1 mark")
        trace.add("11 0.1 10 1 x").add("14 0.1 10 1")
        self.assertEqual(self.log(trace), PAIR)

    def test_cut_in_time(self):
        done = Imported(pair(), "--until", "0.000000012")
        self.assertEqual((done.code, done.error), (0, ""))
        self.assertEqual(done.log[2:-1], ["row 0 1 1 12", "send 1 0 0 8 10", "row 1 1 1 3"])
        self.assertIn("cut 12\n", done.out)

    def test_messages_that_nobody_receives_are_told(self):
        done = Imported(Trace(2).sends(0, 1, 3).finish())
        self.assertEqual(done.code, 0)
        self.assertRegex(done.error, "note: 1 messages are never received, the first of rank 0 to rank 1, in line")


class Twice(unittest.TestCase):
    """What SMPI 3.32 writes twice, or under a wrong number, counts once."""

    def rows(self, trace):
        done = Imported(trace.finish())
        self.assertEqual((done.code, done.error), (0, ""))
        return done.log[2:-1]

    def test_starts_of_sends_that_do_not_block(self):
        for call in ("PMPI_Isend", "PMPI_Issend", "PMPI_Ssend", "PMPI_Ibsend"):
            trace = Trace(2).push(0, call).start(0, 1, 1).start(0, 1, 1).pop(0).at(5).receives(1, 0, 1)
            self.assertEqual(self.rows(trace), ["row 0 1 1 1", "send 1 0 0 8 1", "row 1 2 2 1", "mail 1 1"])

    def test_wait(self):
        trace = Trace(2).sends(0, 1, 1).sends(0, 1, 1).at(5)
        for _ in range(2):
            trace.push(1, "PMPI_Wait").end(1, 0, 1).pop(1).end(1, 0, 1)
        self.assertEqual(self.rows(trace)[-3:], ["row 1 2 2 1", "mail 1 1", "mail 1 2"])

    def test_wait_for_a_collective(self):
        trace = Trace(2).sends(0, 1, -779).sends(0, 1, -779).at(5).push(1, "PMPI_Wait").end(1, 0, -779).pop(1)
        self.assertEqual(self.rows(trace.end(1, 0, -779))[-2:], ["mail 1 1", "mail 1 2"])

    def test_waits_for_all_and_any(self):
        for call in ("PMPI_Waitall", "PMPI_Waitany"):
            trace = Trace(2).sends(0, 1, 1).at(5).push(1, call).end(1, 0, 1).end(1, 0, 1).pop(1)
            self.assertEqual(self.rows(trace)[-2:], ["row 1 2 2 1", "mail 1 1"])

    def test_wait_for_all_from_any_source(self):
        trace = Trace(3).sends(0, 2, 1).sends(1, 2, 1).at(5).push(2, "PMPI_Waitall").end(2, 1, 1).end(2, 0, 1)
        trace.end(2, -556, 1).end(2, -556, 1).pop(2)
        self.assertEqual(self.rows(trace)[-3:], ["row 2 2 2 1", "mail 1 1", "mail 2 1"])

    def test_wait_for_all_with_a_collective(self):
        trace = Trace(2).sends(0, 1, -4446).sends(0, 1, 8).at(5).push(1, "PMPI_Waitall").end(1, 0, -4446)
        trace.end(1, 0, 8).end(1, 0, 8).pop(1)
        self.assertEqual(self.rows(trace)[-2:], ["mail 1 1", "mail 1 2"])

    def test_wait_that_is_never_ended(self):
        trace = Trace(2).sends(0, 1, 1).at(5).push(1, "PMPI_Waitany").works(1, 5, 8).receives(1, 0, 1)
        self.assertEqual(self.rows(trace)[-4:], ["row 1 1 1 3", "row 1 2 2 1", "after 2", "mail 1 1"])

    def test_exchange(self):
        trace = Trace(2)
        for rank in range(2):
            trace.push(rank, "PMPI_Sendrecv").start(rank, 1 - rank - 1, 1).start(rank, 1 - rank, 1)
        trace.at(5)
        for rank in range(2):
            trace.end(rank, 1 - rank, 1).end(rank, 1 - rank - 1, 1).pop(rank)
        self.assertEqual(self.rows(trace), [
            "row 0 1 1 1", "send 1 0 0 8 1", "row 0 2 2 1", "after 1", "mail 3 1",
            "row 1 1 1 1", "send 0 0 1 8 1", "row 1 2 2 1", "after 3", "mail 1 1"])

    def test_exchange_with_itself(self):
        trace = Trace(1).push(0, "PMPI_Sendrecv").start(0, -1, 1).end(0, -1, 1).pop(0).works(0, 0, 2)
        self.assertEqual(self.rows(trace), ["row 0 1 1 2"])


class Refusals(unittest.TestCase):
    def refused(self, trace, why, *words):
        done = Imported(trace, *words)
        self.assertEqual((done.code, done.log, done.out, done.left), (65, None, "", []))
        self.assertRegex(done.error, r"\Aimport: TRACE line [1-9][0-9]* [^\n]*\n\Z")
        self.assertRegex(done.error, why)

    def test_of_another_origin(self):
        self.refused(b"hello\n", "line 1 begins no trace")
        self.refused(b"\n\n", "line 2 isn't there or is blank")
        self.refused(b"", "line 1 isn't there")
        self.refused(b"x" * 100000, "line 1 is longer")
        self.refused(pair().finish().bytes()[:-1], "has no line feed")
        self.refused(Trace(1, version="3.36").finish(), "line 1 names SimGrid 3.36")
        self.refused("\n".join(Trace(1).lines[2:]).encode() + b"\n", "line 1 isn't the first line")
        self.refused("\n".join(Trace(1).lines[:1] + Trace(1).lines[2:]).encode() + b"\n", "line 2 doesn't say how")

    def test_options(self):
        for option in OPTIONS[:3]:
            rest = [each for each in OPTIONS if each != option]
            self.refused(Trace(1, options=rest).finish(), f"line 2 lacks .*--cfg={option}")
        done = Imported(Trace(1, options=OPTIONS[:3]).finish())
        self.assertEqual(done.code, 0)
        self.assertRegex(done.error, "note: times are rounded")

    def test_packed_and_damaged(self):
        packed = gzip.compress(pair().finish().bytes())
        self.refused(packed[:-9], "the gzip file is cut")
        self.refused(packed[:-8] + b"\0" * 8, "the gzip file is damaged")

    def test_definitions(self):
        lines = Trace(1).lines
        self.refused("\n".join(lines[:2] + ["%EventDef PajeOther 3"]).encode() + b"\n", "line 3 defines PajeOther")
        self.refused("\n".join(lines[:2] + ["%EndEventDef"]).encode() + b"\n", "line 3 is no definition")
        short = [line for line in lines if line != "%       Key any"]
        self.refused("\n".join(short).encode() + b"\n", "without the field Key")
        self.refused("\n".join(lines[:2]).encode() + b"\n", "without ranks")

    def test_records(self):
        self.refused(Trace(1).add("99 0"), "begins with 99 0, which is no record")
        self.refused(Trace(1).add("13 0.0 2"), "ends before its last field")
        self.refused(Trace(1).add("13 x 2 1"), "has the time x")
        self.refused(pair().at(1).finish(), "goes back in time")
        self.refused(Trace(1).add("13 0 2 1"), "which is in none")
        self.refused(Trace(1).add("13 0 2 5"), "names the container 5")
        self.refused(Trace(1).add("12 0 2 1 77 NA"), "begins the state 77")
        self.refused(Trace(1).add("11 0 2 1 6"), "sets a state")
        self.refused(Trace(1).add("14 0 2 1"), "sets a state")
        self.refused(Trace(1).add('6 0 9 1 0 "rank-0"'), "no new rank")
        self.refused(Trace(1).add('6 0 9 1 0 "rank-2"').finish(), "without rank 1")
        self.refused(Trace(1).add('6 0 9 1 0 "rank-65536"'), "at most 65536 chares")
        located = Trace(1, located=True).push(0, "PMPI_Send", " here there")
        self.refused(located, "has there in place of a line of the source")

    def test_links(self):
        self.refused(Trace(2).add("15 0 3 0 PTP 1 2_1_0_1 8"), "is a start of rank 0 with the key 2_1_0_1")
        self.refused(Trace(2).add("16 0 3 0 PTP 1 1_2_0_1"), "is an end of rank 0 with the key 1_2_0_1")
        self.refused(Trace(2).add("15 0 3 0 PTP 1 a_b 8"), "has the key a_b")
        self.refused(Trace(2).add("15 0 3 0 PTP 1 1_2_0_1 x"), "without its size")
        self.refused(Trace(2).push(0, "PMPI_Put"), "one-sided")
        self.refused(Trace(2).sends(0, 6, 1).finish(), "sends to rank 6")
        self.refused(Trace(2).receives(1, 0, 4).finish(), "receive of rank 1 from rank 0, tag 4, and no such message")
        early = Trace(2).receives(1, 0, 4).at(3).sends(0, 1, 4).finish()
        self.refused(early, "before the message is sent .*a wrong match")

    def test_links_that_are_not_twice(self):
        self.refused(Trace(2).push(0, "PMPI_Isend").start(0, 1, 1).pop(0), "starts that don't come in pairs")
        self.refused(Trace(2).sends(0, 1, 1).push(1, "PMPI_Waitall").end(1, 0, 1).pop(1), "ends that don't come twice")
        self.refused(Trace(2).push(0, "PMPI_Sendrecv").start(0, 1, 1).pop(0), "1 starts and 0 ends")

    def test_circle(self):
        trace = Trace(2)
        for rank in range(2):
            trace.receives(rank, 1 - rank, 1)
        for rank in range(2):
            trace.sends(rank, 1 - rank, 1)
        self.refused(trace.finish(), "goes round in a circle over ranks 0, 1")

    def test_runs_that_are_cut(self):
        self.refused(pair(), "rank 0 hasn't ended: the trace is cut")
        self.refused(Trace(1).push(0, "PMPI_Wait").add("7 0 1 1"), "ends rank 0 in MPI_Wait, before MPI_Finalize")
        self.refused(Trace(1).add("7 0 1 1"), "ends rank 0 in the program, before MPI_Finalize")

    def test_limits(self):
        self.refused(Trace(1).works(0, 0, 2 ** 32 + 1).finish(), "costs 4294967297 ticks.*--unit 2$")
        self.assertEqual(Imported(Trace(1).works(0, 0, 2 ** 32).finish()).code, 0)
        self.refused(Trace(2).sends(0, 1, 1, 2 ** 30 + 1), "sends 1073741825 bytes")
        long = Trace(1)
        for _ in range(131073):
            long.start(0, 0, 1).end(0, 0, 1)
        self.refused(long, "longer than 262144 lines; .*--until")


if __name__ == "__main__":
    unittest.main()
