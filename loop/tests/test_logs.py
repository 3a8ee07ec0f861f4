"""The reading of logs: each version, each form, each fault."""

import unittest

from samples import log_text
from monkeyloop.logs import UNSET, Cell, LogFault, read_log

ROW = ("open 1", "define 1 x74", "begin 1 rc", "read 1 p.0.1 0 1 0 false", "write 1 p.0.1 true", "write 1 f.0.1.1 10", "commit 1")


def fault(text):
    try:
        read_log(text if isinstance(text, bytes) else text.encode())
    except LogFault as found:
        return str(found)
    return None


class Versions(unittest.TestCase):
    def test_version_1_has_the_level_of_the_head(self):
        log = read_log(b"monkey-log 1 cc\nopen 1\nbegin 1\ncommit 1\norder 0 1\nend\n")
        self.assertEqual((log.version, log.level, log.events[1].level), (1, "cc", "cc"))
        self.assertEqual(fault("monkey-log 1 cc\nopen 1\nbegin 1 cc\norder 0 1\nend\n"), "log fault: line 3")

    def test_version_2(self):
        log = read_log(log_text("rc", *ROW, order="0 1").encode())
        self.assertEqual((log.version, log.level, log.order, log.initial), (2, "rc", [0, 1], {}))
        self.assertEqual([event.kind for event in log.events], ["open", "define", "begin", "read", "write", "write", "commit"])
        read = log.events[3]
        self.assertEqual((read.session, read.cell, read.source, read.count, read.word, read.value), (1, Cell(0, 1, None), 0, 1, 0, False))
        self.assertEqual(log.events[1].name, "t")

    def test_version_3_has_an_initial_state(self):
        log = read_log(log_text("ra", "open 1", initial=["initial p.0.-5 true", "initial p.0.x61 true", "initial f.0.-5.1 x6f6e65"]).encode())
        self.assertEqual(log.initial, {Cell(0, -5, None): True, Cell(0, "a", None): True, Cell(0, -5, 1): "one"})
        self.assertEqual(fault("monkey-log 3 ra\nopen 1\norder\nend\n"), "log fault: line 2")

    def test_an_initial_state_ascends_and_has_its_presences(self):
        for wrong in (
            ["initial p.0.2 true", "initial p.0.1 true"],
            ["initial p.0.1 true", "initial p.0.1 true"],
            ["initial p.0.1 false"],
            ["initial f.0.1.1 3"],
            ["initial p.0.1 true", "initial f.0.1.1 unset"],
            ["initial p.0.x61 true", "initial p.0.1 true"],
        ):
            self.assertEqual(fault(log_text("ra", initial=wrong)), "log fault: line %d" % (1 + len(wrong)), wrong)
        self.assertEqual(fault(log_text("ra", "open 1", "initial p.0.2 true", initial=["initial p.0.1 true"])), "log fault: line 4")

    def test_values(self):
        words = {"unset": UNSET, "null": None, "true": True, "false": False, "0": 0, "-9223372036854775808": -(2**63), "x": "", "xc3a4": "ä"}
        for word, value in words.items():
            log = read_log(log_text("rc", "write 1 f.0.1.1 " + word).encode())
            self.assertIs(type(log.events[0].value), type(value))
            self.assertEqual(log.events[0].value, value)

    def test_scan(self):
        log = read_log(log_text("rc", "scan 1 0", "scan 1 0 1 x61").encode())
        self.assertEqual([event.keys for event in log.events], [(), (1, "a")])


class Faults(unittest.TestCase):
    def test_cut(self):
        whole = log_text("rc", *ROW, order="0 1")
        self.assertEqual(fault(""), "log fault: cut")
        self.assertEqual(fault("monkey-log 2 rc"), "log fault: cut")
        self.assertEqual(fault(whole[:-1]), "log fault: cut")
        self.assertEqual(fault(whole[:-4]), "log fault: cut")
        self.assertEqual(fault(whole + "x"), "log fault: cut")

    def test_version(self):
        for head in ("monkey-log 4 rc", "monkey-log 2 xx", "monkey-log 2", "log", "", "monkey-log  2 rc", "monkey-log 2 rc "):
            self.assertEqual(fault(head + "\nend\n"), "log fault: version", head)

    def test_lines(self):
        for line in (
            "",
            "open",
            "open 01",
            "open +1",
            "open 1 ",
            " open 1",
            "open  1",
            "open 4294967296",
            "opens 1",
            "begin 1",
            "begin 1 xx",
            "define 1 74",
            "define 1 x7",
            "define 1 x7F",
            "define 1 xff",
            "read 1 p.0.1 0 1 0",
            "read 1 p.0.1.1 0 1 0 false",
            "read 1 f.0.1 0 1 0 1",
            "read 1 q.0.1 0 1 0 1",
            "own 1 p.0.1",
            "write 1 p.0.-0 true",
            "write 1 p.0.9223372036854775808 true",
            "write 1 p.0.1 TRUE",
            "scan 1",
            "initial p.0.1 true",
            "end",
            "open 1\r",
        ):
            self.assertEqual(fault(log_text("rc", "open 1", line, "close 1")), "log fault: line 3", repr(line))
        self.assertEqual(fault(b"monkey-log 2 rc\nopen \xff\norder\nend\n"), "log fault: line 2")
        self.assertEqual(fault("monkey-log 2 rc\norder 0\norder 0\nend\n"), "log fault: line 3")
        self.assertEqual(fault("monkey-log 2 rc\norder 0\nend\nend\n"), "log fault: line 4")
        self.assertEqual(fault("monkey-log 2 rc\norder 0\nopen 1\nend\n"), "log fault: line 3")


if __name__ == "__main__":
    unittest.main()
