"""What show says: counts, stale reads, pairs, pieces, and where the log counts another offer."""

import os
import tempfile
import unittest

from samples import TWO_WRITERS, history_of, log_text, loop
from monkeyloop.show import Story

STALE = log_text("rc", *TWO_WRITERS, "open 2", "begin 2 rc", "read 2 p.0.1 1 2 1 true", "read 2 f.0.1.1 1 2 2 10", "commit 2", order="0 1 2 3")
SKEW = log_text(
    "cc",
    *("open 1", "define 1 x646f63746f72", "open 2", "open 3"),
    *("begin 2 cc", "begin 3 cc"),
    *("read 2 f.0.1.1 0 1 0 true", "read 2 f.0.2.1 0 1 0 true", "read 3 f.0.1.1 0 1 0 true", "read 3 f.0.2.1 0 1 0 true"),
    *("write 2 f.0.1.1 false", "commit 2", "write 3 f.0.2.1 false", "rollback 3", "close 2", "close 3"),
    initial=("initial p.0.1 true", "initial p.0.2 true", "initial f.0.1.1 true", "initial f.0.2.1 true"),
    order="0 1 2",
)


def told(text, everything=False):
    return Story(history_of(text), everything).text()


class Lines(unittest.TestCase):
    def test_counts(self):
        first = "2 sessions, 3 transactions at rc; 2 reads, 2 with a choice, 1 stale; 0 switches between open transactions."
        self.assertEqual(told(STALE).splitlines()[0], first)
        first = "3 sessions, 2 transactions at cc; 4 reads, 0 with a choice, 0 stale; 4 switches between open transactions."
        self.assertEqual(told(SKEW).splitlines()[0], first)

    def test_a_stale_read(self):
        line = "  session 2 in T3 reads t[1].column 2 = 10, of T1 of session 1. Newest: 20, of T2 of session 1, committed before T3 began (event 15)."
        self.assertIn(line, told(STALE).splitlines())

    def test_a_stale_read_of_a_presence(self):
        lines = ("open 2", "begin 2 rc", "read 2 p.0.2 0 2 0 false", "commit 2")
        found = told(log_text("rc", *TWO_WRITERS, *lines)).splitlines()
        line = "  session 2 in T3 reads that t[2] isn't there, of the state before all. "
        self.assertIn(line + "Newest: it is there, of T1 of session 1, committed before T3 began (event 14).", found)
        self.assertIn("  Hint: what session 1 made was missed. Rows that every test starts from belong into --setup, which no read misses.", found)

    def test_a_stale_read_of_the_same_value(self):
        lines = ("begin 1 rc", "write 1 f.0.1.1 20", "commit 1", "open 2", "begin 2 rc", "read 2 f.0.1.1 2 4 2 20")
        self.assertIn("Newest: the same, of T3 of session 1, committed before T4 began (event 17)", told(log_text("rc", *TWO_WRITERS, *lines)))

    def test_pieces(self):
        self.assertEqual(
            told(STALE).splitlines()[5:],
            [
                "T1, session 1, commits",
                "    inserts t[1]: column 2 = 10; t[2]: column 2 = 10",
                "T2, session 1, commits",
                "    sets t[1]: column 2 = 20",
                "T3, session 2, commits",
                "  ! STALE: reads t[1].column 2 = 10, of T1 of session 1. Newest: 20, of T2 of session 1, committed before T3 began",
            ],
        )

    def test_pairs_pieces_and_a_rollback(self):
        # T2 rolled back, so there is no pair
        self.assertNotIn("ran at once", told(SKEW))
        found = told(SKEW.replace("rollback 3", "commit 3"))
        self.assertIn("No read is stale: what transactions did at once alone makes this history.", found)
        self.assertIn("  T1 (session 2) and T2 (session 3) ran at once: T1 read doctor[2].column 2 without T2, and T2 wrote it.", found)
        self.assertIn("  T2 (session 3) and T1 (session 2) ran at once: T2 read doctor[1].column 2 without T1, and T1 wrote it.", found)
        self.assertEqual(
            told(SKEW).splitlines()[4:],
            [
                "T1, session 2",
                "T2, session 3",
                "T1, session 2, goes on",
                "    reads of the state before all: doctor[1]: column 2 = true; doctor[2]: column 2 = true",
                "T2, session 3, goes on",
                "    reads of the state before all: doctor[1]: column 2 = true; doctor[2]: column 2 = true",
                "T1, session 2, goes on, commits",
                "    sets doctor[1]: column 2 = false",
                "T2, session 3, goes on, rolls back",
                "    sets doctor[2]: column 2 = false",
            ],
        )

    def test_both_wrote(self):
        lines = ["open 2", "open 3", "begin 2 rc", "begin 3 rc", "read 2 f.0.1.1 2 3 2 20", "read 3 f.0.1.1 2 3 2 20"]
        lines += ["write 2 f.0.1.1 21", "write 3 f.0.1.1 21", "commit 2", "commit 3"]
        found = told(log_text("rc", *TWO_WRITERS, *lines))
        self.assertIn("T3 (session 2) and T4 (session 3) ran at once: T3 read t[1].column 2 without T4, and both wrote it.", found)

    def test_a_newer_write_that_is_not_offered(self):
        lines = ("open 2", "begin 2 ra", "read 2 p.0.1 0 2 0 false", "read 2 p.0.2 0 1 0 false", "commit 2")
        found = told(log_text("ra", *TWO_WRITERS, *lines))
        self.assertIn("    reads of the state before all (T1 is newer, and the level doesn't offer it): no t[2]", found)

    def test_a_transaction_of_another_level(self):
        self.assertIn("T3, session 2 at cc, commits", told(log_text("rc", *TWO_WRITERS, "open 2", "begin 2 cc", "write 2 p.0.1 false", "commit 2")))

    def test_deletes_nulls_and_texts(self):
        lines = ("begin 1 rc", "write 1 p.0.x61 true", "write 1 f.0.x61.1 null", "write 1 f.0.x61.2 x610a27", "write 1 p.0.2 false", "commit 1")
        found = told(log_text("rc", *TWO_WRITERS, *lines))
        self.assertIn("    inserts t['a']: column 2 = null, column 3 = 'a\\n''", found)
        self.assertIn("    deletes t[2]", found)

    def test_all(self):
        lines = ("begin 1 rc", "scan 1 0 1 2", "write 1 f.0.1.1 5", "own 1 f.0.1.1 5", "commit 1")
        text = log_text("rc", *TWO_WRITERS, *lines)
        self.assertNotIn("lists", told(text))
        self.assertIn("    lists t: 2 keys\n    sets t[1]: column 2 = 5\n    reads its own t[1]: column 2 = 5", told(text, True))

    def test_another_count(self):
        text = STALE.replace("read 2 f.0.1.1 1 2 2 10", "read 2 f.0.1.1 1 3 1 10")
        self.assertIn("Event 15: the log counts 3 offered, the axioms 2 (T1, T2).", told(text))

    def test_a_source_that_is_not_offered(self):
        text = log_text("ra", *TWO_WRITERS, "begin 1 ra", "read 1 f.0.1.1 1 1 0 10")
        self.assertIn("Event 13: the log counts 1 offered, the axioms 1 (T2). The source, T1, isn't among them.", told(text))


class Command(unittest.TestCase):
    def setUp(self):
        self.room = tempfile.TemporaryDirectory()
        self.addCleanup(self.room.cleanup)

    def file(self, name, text):
        path = os.path.join(self.room.name, name)
        os.makedirs(os.path.dirname(path), exist_ok=True)
        with open(path, "w") as file:
            file.write(text)
        return path

    def test_a_log(self):
        self.assertEqual(loop("show", self.file("a.log", STALE)), (0, told(STALE), ""))
        self.assertEqual(loop("show", "--all", self.file("a.log", STALE)), (0, told(STALE, True), ""))

    def test_a_case_says_what_its_command_said(self):
        self.file("cc-7/log", STALE)
        case = os.path.dirname(self.file("cc-7/output", "one\nE       assert 4 <= 3\ntwo\n"))
        self.assertEqual(loop("show", case), (0, "E       assert 4 <= 3\n" + told(STALE), ""))

    def test_wrong_usage_is_one_line(self):
        log = self.file("a.log", "monkey-log 2 rc\nopen 1\nopen one\n")
        odd = self.file("b.log", log_text("rc", "open 2"))
        nothing = os.path.join(self.room.name, "nothing")
        for words, said in (
            (["show", nothing], "monkeydb show: there is no case and no log %s" % nothing),
            (["page", nothing], "monkeydb page: there is no case and no log %s" % nothing),
            (["show", self.room.name], "monkeydb show: %s is no case: it has no file log" % self.room.name),
            (["show", log], "monkeydb show: %s: log fault: line 3" % log),
            (["show", odd], "monkeydb show: %s: event 1 doesn't fit what comes before it: session 2 isn't the next one" % odd),
            (["show"], "monkeydb show: the following arguments are required: CASE|LOG"),
            (["show", log, log], "monkeydb: unrecognized arguments: %s" % log),
            (["page", "--outer", log], "monkeydb: unrecognized arguments: --outer"),
        ):
            self.assertEqual(loop(*words), (2, "", said + "\n"))


if __name__ == "__main__":
    unittest.main()
