"""What reads are offered: small histories worked out by hand, and the counts of logs that sim wrote."""

import os
import subprocess
import tempfile
import unittest

from samples import TWO_WRITERS, history_of, log_text, offers, program
from monkeyloop.history import History
from monkeyloop.logs import LogFault, read_log


def read(session, cell, source, value="10"):
    return "read %d %s %d 1 0 %s" % (session, cell, source, value)


class ReadCommitted(unittest.TestCase):
    def test_all_committed_writes(self):
        self.assertEqual(offers(log_text("rc", *TWO_WRITERS, "open 2", "begin 2 rc", read(2, "f.0.1.1", 1))), [[0, 1, 2]])

    def test_nothing_older_than_what_the_transaction_has_read_from(self):
        # from T2, which wrote f.0.1.1 after T1 in its session: T1 would have to stand after it
        lines = ("open 2", "begin 2 rc", read(2, "f.0.1.1", 2), read(2, "f.0.1.1", 2))
        self.assertEqual(offers(log_text("rc", *TWO_WRITERS, *lines)), [[0, 1, 2], [2]])

    def test_a_fractured_read(self):
        # the state before all of row 1, and then T1 of row 2
        lines = ("open 2", "begin 2 rc", read(2, "p.0.1", 0, "false"), read(2, "p.0.2", 1, "true"), read(2, "p.0.1", 1, "true"))
        self.assertEqual(offers(log_text("rc", *TWO_WRITERS, *lines)), [[0, 1], [0, 1], [1]])

    def test_a_session_misses_its_own_write(self):
        self.assertEqual(offers(log_text("rc", *TWO_WRITERS, "begin 1 rc", read(1, "f.0.1.1", 0))), [[0, 1, 2]])

    def test_what_is_pending_or_rolled_back_is_never_offered(self):
        lines = ("open 2", "begin 2 rc", "write 2 f.0.1.1 30", "open 3", "begin 3 rc", read(3, "f.0.1.1", 0), "rollback 2", read(3, "f.0.1.1", 0))
        self.assertEqual(offers(log_text("rc", *TWO_WRITERS, *lines)), [[0, 1, 2], [0, 1, 2]])

    def test_an_order_that_other_reads_demand(self):
        # session 2 and 3 write x at once; session 4 reads from T3 and then from T4, so T3 stands before T4. Session 5 has read from T4
        lines = [
            *TWO_WRITERS,
            *("open 2", "open 3", "open 4", "open 5"),
            *("begin 2 rc", "begin 3 rc", "write 2 f.0.1.1 30", "write 3 f.0.1.1 40", "commit 2", "commit 3"),
            *("begin 4 rc", read(4, "f.0.1.1", 3, "30"), read(4, "f.0.1.1", 4, "40"), "commit 4"),
            *("begin 5 rc", read(5, "f.0.1.1", 4, "40"), read(5, "f.0.1.1", 4, "40")),
        ]
        # T1 and T2 may still stand after T4, as nobody read them after it
        self.assertEqual(offers(log_text("rc", *lines))[2:], [[0, 1, 2, 3, 4], [1, 2, 4]])


class ReadAtomic(unittest.TestCase):
    def test_own_session_is_seen(self):
        lines = (*TWO_WRITERS, "begin 1 ra", read(1, "f.0.1.1", 2, "20"))
        self.assertEqual(offers(log_text("ra", *lines)), [[2]])

    def test_a_transaction_is_seen_whole(self):
        # row 1 was missed, so T1 can't be read of row 2; and the other way round
        lines = ("open 2", "begin 2 ra", read(2, "p.0.1", 0, "false"), read(2, "p.0.2", 0, "false"))
        self.assertEqual(offers(log_text("ra", *TWO_WRITERS, *lines)), [[0, 1], [0]])
        lines = ("open 2", "begin 2 ra", read(2, "p.0.1", 1, "true"), read(2, "p.0.2", 1, "true"))
        self.assertEqual(offers(log_text("ra", *TWO_WRITERS, *lines)), [[0, 1], [1]])

    def test_a_scan_reads_what_it_does_not_list(self):
        lines = (
            *("open 1", "define 1 x74", "define 1 x75", "open 2", "begin 2 ra", "scan 2 0"),
            *("begin 1 ra", "write 1 p.0.1 true", "write 1 p.1.1 true", "commit 1"),
            read(2, "p.1.1", 0, "false"),
        )
        self.assertEqual(offers(log_text("ra", *lines)), [[0]])
        self.assertEqual(offers(log_text("rc", *(line.replace(" ra", " rc") for line in lines))), [[0, 2]])

    def test_an_effect_without_its_cause(self):
        self.assertEqual(offers(log_text("ra", *replies("ra")))[-1], [0, 1])


class CausalConsistency(unittest.TestCase):
    def test_a_cause_is_seen(self):
        self.assertEqual(offers(log_text("cc", *replies("cc")))[-1], [1])

    def test_the_causal_past_goes_on_in_the_session(self):
        # session 3 saw the reply in one transaction and looks for the post in the next
        lines = replies("cc")
        lines[-1:] = ["commit 3", "begin 3 cc", lines[-1]]
        self.assertEqual(offers(log_text("cc", *lines))[-1], [1])

    def test_a_past_that_an_earlier_read_forbids(self):
        # the post was missed, so the reply can't be read: its transaction has seen the post
        lines = [line for line in replies("cc") if line != read(3, "p.0.2", 2, "true")]
        lines.append(read(3, "p.0.2", 0, "false"))
        self.assertEqual(offers(log_text("cc", *lines))[-1], [0])

    def test_what_was_rolled_back_demands_nothing(self):
        # T1 scans the first table, T2 writes a row of it and rolls back, T3 of the same session writes one of the second table
        lines = ("open 1", "define 1 x74", "define 1 x75", "open 2", "begin 2 cc", "scan 2 0", "begin 1 cc", "write 1 p.0.1 true", "rollback 1")
        lines += ("begin 1 cc", "write 1 p.1.1 true", "commit 1", read(2, "p.1.1", 3, "true"))
        self.assertEqual(offers(log_text("cc", *lines)), [[0, 3]])

    def test_levels_are_those_of_transactions(self):
        lines = replies("cc")
        lines[lines.index("begin 3 cc")] = "begin 3 ra"
        self.assertEqual(offers(log_text("cc", *lines))[-1], [0, 1])


def replies(level):
    """T1 posts (row 1), T2 sees the post and replies (row 2), T3 sees the reply and looks for the post, which it misses."""
    lines = ["open 1", "define 1 x74", "open 2", "open 3", "begin 1 rc", "write 1 p.0.1 true", "commit 1"]
    lines += ["begin 2 rc", read(2, "p.0.1", 1, "true"), "write 2 p.0.2 true", "commit 2"]
    lines += ["begin 3 rc", read(3, "p.0.2", 2, "true"), read(3, "p.0.1", 0, "false")]
    return [line[:-2] + level if line.startswith("begin") else line for line in lines]


class Newest(unittest.TestCase):
    def test_it_committed_last(self):
        lines = ["open 2", "open 3", "begin 2 rc", "begin 3 rc", "write 2 f.0.1.1 30", "write 3 f.0.1.1 40", "commit 3", "commit 2"]
        history = history_of(log_text("rc", *TWO_WRITERS, *lines, "open 4", "begin 4 rc", read(4, "f.0.1.1", 4, "40"), read(4, "f.0.1.1", 3, "30")))
        self.assertEqual([it.newest for it in history.reads], [3, 3])
        self.assertEqual([it.event for it in history.stale()], [22])

    def test_the_state_before_all_is_the_oldest(self):
        history = history_of(log_text("rc", *TWO_WRITERS, "open 2", "begin 2 rc", read(2, "p.0.9", 0, "false"), read(2, "p.0.1", 0, "false")))
        self.assertEqual([(it.newest, it.source) for it in history.reads], [(0, 0), (1, 0)])

    def test_it_is_offered(self):
        # row 1 was missed, so of row 2 only the state before all is offered, which isn't stale
        lines = ("open 2", "begin 2 ra", read(2, "p.0.1", 0, "false"), read(2, "p.0.2", 0, "false"))
        history = history_of(log_text("ra", *TWO_WRITERS, *lines))
        self.assertEqual([(it.newest, it.latest) for it in history.reads], [(1, 1), (0, 1)])
        self.assertEqual(len(history.stale()), 1)


class Judged(unittest.TestCase):
    def test_values_of_transactions(self):
        text = log_text("ra", "open 1", "define 1 x74", initial=["initial p.0.1 true", "initial f.0.1.1 7"])
        history = history_of(text)
        cells = list(history.log.initial)
        self.assertEqual([history.value(0, cell) for cell in cells], [True, 7])
        self.assertEqual(history.value(0, cells[0]._replace(key=2)), False)

    def test_wrong_counts(self):
        history = history_of(log_text("rc", *TWO_WRITERS, "open 2", "begin 2 rc", "read 2 f.0.1.1 1 3 1 10", "read 2 f.0.1.1 1 4 1 10"))
        self.assertEqual([it.event for it in history.wrong()], [15])

    def test_switches(self):
        lines = ["open 1", "open 2", "begin 1 rc", "begin 2 rc", "commit 1", "commit 2"]
        self.assertEqual(history_of(log_text("rc", *lines)).switches(), 2)
        lines = ["open 1", "open 2", "begin 1 rc", "commit 1", "begin 2 rc", "commit 2"]
        self.assertEqual(history_of(log_text("rc", *lines)).switches(), 0)

    def test_events_that_do_not_follow(self):
        for lines, event in (
            (["open 2"], 1),
            (["open 1", "begin 2 rc"], 2),
            (["open 1", "commit 1"], 2),
            (["open 1", "begin 1 rc", "begin 1 rc"], 3),
            (["open 1", "begin 1 rc", "close 1"], 3),
            (["open 1", "close 1", "begin 1 rc"], 3),
            (["open 1", "begin 1 rc", "write 1 p.0.1 true"], 3),
            ([*TWO_WRITERS, "begin 1 rc", "read 1 p.0.1 3 1 0 true"], 13),
            ([*TWO_WRITERS, "begin 1 rc", "read 1 p.0.1 2 1 0 true"], 13),
            ([*TWO_WRITERS, "begin 1 rc", "write 1 p.0.1 true", "read 1 p.0.1 1 1 0 true"], 14),
        ):
            with self.assertRaisesRegex(LogFault, "^event %d doesn't fit" % event):
                history_of(log_text("rc", *lines))


class Simulations(unittest.TestCase):
    """Logs of the proved program: each read's count is the length of its offer."""

    def test_counts(self):
        for level in ("rc", "ra", "cc"):
            for words in (["7", "8", "20"], ["3", "8", "40"], ["5", "32", "5"]):
                with tempfile.TemporaryDirectory() as room:
                    path = os.path.join(room, "log")
                    line = subprocess.run([program(), "sim", level, *words, "--log", path], stdout=subprocess.PIPE, universal_newlines=True).stdout
                    with open(path, "rb") as file:
                        history = History(read_log(file.read()))
                told = dict(zip(line.split()[3::2], line.split()[4::2]))
                with self.subTest(line=line):
                    self.assertEqual(history.wrong(), [])
                    self.assertEqual(len(history.reads), int(told["reads"]))
                    self.assertEqual(sum(len(it.offer) for it in history.reads), int(told["offered"]))
                    self.assertEqual(sum(it.source != it.latest for it in history.reads), int(told["weak"]))


if __name__ == "__main__":
    unittest.main()
