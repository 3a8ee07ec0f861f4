"""What the tests share: the package's folder on the path, logs, and runs of the command line."""

import os
import subprocess
import sys
import unittest

HERE = os.path.dirname(os.path.abspath(__file__))
LOOP = os.path.dirname(HERE)
TOP = os.path.dirname(LOOP)
SCRIPT = os.path.join(TOP, "monkeydb")
sys.path.insert(0, LOOP)

from monkeyloop.history import History  # noqa: E402
from monkeyloop.logs import read_log  # noqa: E402


def log_text(level, *lines, initial=(), order=""):
    """A log's text: of version 3 where initial lines are given, else of version 2."""
    head = "monkey-log %d %s" % (3 if initial else 2, level)
    last = ("order " + order).strip()
    return "\n".join([head, *initial, *lines, last, "end", ""])


def history_of(text):
    return History(read_log(text.encode()))


def offers(text):
    """What each read of a log is offered."""
    return [read.offer for read in history_of(text).reads]


def loop(*words, **options):
    """Runs the package as the script monkeydb does: status, what it printed, what it said on standard error."""
    done = subprocess.run(
        [sys.executable, "-B", LOOP, *words], stdout=subprocess.PIPE, stderr=subprocess.PIPE, universal_newlines=True, timeout=120, **options
    )
    return done.returncode, done.stdout, done.stderr


# Session 1 makes the table and writes the rows 1 and 2 (T1), and the row 1 anew (T2).
TWO_WRITERS = (
    "open 1",
    "define 1 x74",
    "begin 1 rc",
    "write 1 p.0.1 true",
    "write 1 f.0.1.1 10",
    "write 1 p.0.2 true",
    "write 1 f.0.2.1 10",
    "commit 1",
    "begin 1 rc",
    "write 1 f.0.1.1 20",
    "commit 1",
)


def program():
    """The path of the proved or tried program, built where it lacks; without a toolchain the test is skipped."""
    if not hasattr(program, "path"):
        done = subprocess.run([SCRIPT, "--program"], stdout=subprocess.PIPE, universal_newlines=True)
        program.path = done.stdout.strip() if done.returncode == 0 else None
    if program.path is None:
        raise unittest.SkipTest("there is no program")
    return program.path
