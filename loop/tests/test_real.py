"""The loop over the server itself: explore, show and page of what it kept, the plug-in for pytest, the applications; and faults as check has them."""

import os
import subprocess
import sys
import tempfile
import unittest
from xml.etree import ElementTree

from samples import HERE, SCRIPT, TOP, log_text, loop, program
from monkeyloop.cases import Case
from monkeyloop.logs import LogFault, read_log

NOTES = [sys.executable, "-B", os.path.join(HERE, "notes.py")]
SETUP = "CREATE TABLE note (id bigint PRIMARY KEY, words text NOT NULL); INSERT INTO note VALUES (1, 'old');\n"
PLUGIN = os.path.join(TOP, "examples", "pytest")


def python_with(*modules):
    """A Python that has these modules, or the test is skipped."""
    for python in (sys.executable, "/usr/bin/python3"):
        if os.path.exists(python) and subprocess.run([python, "-c", "import " + ", ".join(modules)], stderr=subprocess.DEVNULL).returncode == 0:
            return python
    raise unittest.SkipTest("no Python has " + " and ".join(modules))


class Rooms(unittest.TestCase):
    def setUp(self):
        self.program = program()
        room = tempfile.TemporaryDirectory()
        self.addCleanup(room.cleanup)
        self.room = room.name

    def write(self, name, text):
        path = os.path.join(self.room, name)
        with open(path, "w") as file:
            file.write(text)
        return path


class Explored(Rooms):
    def test_from_the_first_break_to_the_page(self):
        setup = self.write("notes.sql", SETUP)
        words = ["explore", "--level", "rc,cc", "--seeds", "0-11", "--jobs", "2", "--setup", setup, "--", *NOTES]
        status, said, complaint = loop(*words, cwd=self.room)
        self.assertEqual(status, 1, said + complaint)
        self.assertRegex(said, r"\d+ said: broke: found \['old'\]\n")
        for name in os.listdir(os.path.join(self.room, "broken")):
            path = os.path.join(self.room, "broken", name)
            history = Case(path).history
            self.assertEqual(history.wrong(), [])
            checked = subprocess.run([self.program, "check", os.path.join(path, "log")], stdout=subprocess.PIPE, universal_newlines=True)
            self.assertEqual(checked.stdout, "ok\n")
            status, said, _ = loop("show", path)
            self.assertEqual(status, 0)
            self.assertRegex(said, r"(?m)^  session 3 in T2 reads note\[1\]\.column 2 = 'old', of the state before all\. Newest: 'new', of T1 of session 2, ")
            self.assertEqual(loop("page", path)[0], 0)
            ElementTree.parse(os.path.join(path, "page.html"))

    def test_offers_with_scans_and_rollbacks(self):
        setup = self.write("mixed.sql", "CREATE TABLE t (k bigint PRIMARY KEY, v bigint); CREATE TABLE u (k bigint PRIMARY KEY, v bigint);")
        mixed = [sys.executable, "-B", os.path.join(HERE, "mixed.py")]
        status, said, _ = loop("explore", "--seeds", "0-7", "--setup", setup, "--", *mixed, cwd=self.room)
        self.assertEqual(status, 1, said)
        kinds = set()
        for name in os.listdir(os.path.join(self.room, "broken")):
            history = Case(os.path.join(self.room, "broken", name)).history
            kinds |= {event.kind for event in history.log.events}
            self.assertEqual(history.wrong(), [], name)
        self.assertTrue({"scan", "read", "own", "write", "commit", "rollback"} <= kinds)

    def test_by_the_script(self):
        setup = self.write("notes.sql", SETUP)
        server = "'%s' serve --workers 3" % SCRIPT
        words = [SCRIPT, "explore", "--server", server, "--level", "rc", "--seeds", "0-9", "--setup", setup, "--", *NOTES]
        done = subprocess.run(words, stdout=subprocess.PIPE, stderr=subprocess.PIPE, universal_newlines=True, cwd=self.room)
        self.assertEqual(done.returncode, 1, done.stderr)
        self.assertIn("next: %s show broken/rc-" % SCRIPT, done.stdout)

    def test_a_setup_that_fails(self):
        setup = self.write("notes.sql", SETUP + "SELECT 1 / 0;")
        status, said, _ = loop("explore", "--level", "rc", "--setup", setup, "--", *NOTES, cwd=self.room)
        self.assertEqual(status, 3)
        cause = "serve: --setup %s: statement 3 failed: 22012 division by zero" % setup
        self.assertIn("the first run failed: server: it ended with status 1 before it listened: " + cause, said)

    def test_a_command_that_leaves_its_sessions_open(self):
        script = "%s & sleep 0.2; exec %s" % (" ".join("'%s'" % it for it in [sys.executable, "-c", OPEN]), " ".join(NOTES))
        setup = self.write("notes.sql", SETUP)
        status, said, _ = loop("explore", "--level", "cc", "--seeds", "0-1", "--setup", setup, "--", "sh", "-c", script, cwd=self.room)
        self.assertIn(status, (0, 1), said)


OPEN = "import os, socket, time; s = socket.create_connection((os.environ[\"PGHOST\"], int(os.environ[\"PGPORT\"]))); time.sleep(1000)"


class Faults(Rooms):
    """Whatever check says of a text's form, the script's reader says too."""

    def test_cut_and_changed_logs(self):
        path = os.path.join(self.room, "log")
        subprocess.run([self.program, "sim", "ra", "3", "2", "2", "--log", path], stdout=subprocess.DEVNULL)
        with open(path, "rb") as file:
            whole = file.read()
        lines = whole.split(b"\n")
        middle = len(lines) // 2
        texts = [whole[:50], whole[:-1], whole + b"end\n", whole.replace(b"monkey-log 2", b"monkey-log 1"), whole.replace(b"\norder", b"\norders")]
        texts.append(whole.replace(b"monkey-log 2", b"monkey-log 3"))
        for number, (old, new) in enumerate(((b" ", b"  "), (b" ", b""), (b"1", b"01"), (b"1", b"x1"), (b"1", b"\xff"), (b"1", b"-1"), (b"1", b"99999999999"))):
            place = middle + number
            texts.append(b"\n".join(lines[:place] + [lines[place].replace(old, new, 1)] + lines[place + 1 :]))
        initial = ["initial p.0.1 true", "initial p.0.2 true", "initial f.0.1.1 5"]
        for change in (initial, initial[::-1], initial[1:], initial[:1] * 2, ["initial p.0.1 false"], [*initial[:2], "initial f.0.1.1 unset"]):
            texts.append(log_text("cc", "open 1", initial=change, order="0").encode())
        for text in texts:
            with open(path, "wb") as file:
                file.write(text)
            told = subprocess.run([self.program, "check", path], stdout=subprocess.PIPE, universal_newlines=True).stdout.strip()
            try:
                read_log(text)
                mine = ""
            except LogFault as fault:
                mine = str(fault)
            self.assertEqual(mine, told if told.startswith("log fault") else "", text[:200])


class Pytest(Rooms):
    def pytest(self, *words, **environment):
        python = python_with("pytest", "psycopg2")
        done = subprocess.run(
            [python, "-B", "-m", "pytest", "-q", "-p", "no:cacheprovider", "--basetemp", os.path.join(self.room, "temp"), *words],
            stdout=subprocess.PIPE,
            universal_newlines=True,
            cwd=PLUGIN,
            env={**os.environ, **environment},
        )
        return done.returncode, done.stdout

    def test_own_servers_break_and_hold(self):
        broke = held = 0
        for seed in range(12):
            status, said = self.pytest("--monkey-level", "cc", "--monkey-seed", str(seed))
            self.assertIn(status, (0, 1), said)
            held += status == 0
            broke += status == 1
            if status == 1:
                self.assertIn("1 failed, 1 passed", said)
                self.assertIn("E       assert 4 <= 3", said)
                self.assertIn("level cc, seed %d\n" % seed, said)
                self.assertIn("again: pytest test_stock.py::test_no_more_is_sold_than_there_is --monkey-level cc --monkey-seed %d\n" % seed, said)
                log = next(line for line in said.splitlines() if line.startswith("its log: ")).split(" show ")[1]
                self.assertIn("Newest: 1, of T1 of session 2, committed before T2 began", loop("show", log)[1])
            if broke and held:
                return
        self.fail("%d broke, %d held" % (broke, held))

    def test_level_and_seed_of_the_environment(self):
        status, said = self.pytest("-k", "a_clerk", MONKEY_LEVEL="xx")
        self.assertEqual(status, 4, said)
        status, said = self.pytest("-k", "a_clerk", "--monkey-seed", "1x")
        self.assertEqual(status, 4, said)
        status, said = self.pytest("-k", "a_clerk", MONKEY_LEVEL="ra", MONKEY_SEED="3")
        self.assertEqual(status, 0, said)

    def test_under_explore(self):
        python = python_with("pytest", "psycopg2")
        command = [python, "-B", "-m", "pytest", "-q", "-p", "no:cacheprovider", PLUGIN]
        words = ["explore", "--level", "rc", "--seeds", "0-11", "--broke", "1", "--setup", os.path.join(PLUGIN, "stock.sql"), "--", *command]
        status, said, _ = loop(*words, cwd=self.room)
        self.assertEqual(status, 1, said)
        self.assertRegex(said, r"\d+ said: E       assert 4 <= 3\n")
        name = os.listdir(os.path.join(self.room, "broken"))[0]
        with open(os.path.join(self.room, "broken", name, "output")) as file:
            self.assertIn("again: monkeydb explore --level rc --seeds %s .., with the same command after --" % name[3:], file.read())


class Applications(Rooms):
    def test_the_zeros(self):
        python = python_with("psycopg2")
        path = os.path.join(TOP, "examples", "applications", "run")
        done = subprocess.run([python, "-B", path, "--seeds", "0-2", "--keep", self.room], stdout=subprocess.PIPE, universal_newlines=True)
        self.assertEqual(done.returncode, 0, done.stdout)
        rows = {line.split()[0]: line.split()[1:] for line in done.stdout.splitlines()[1:]}
        self.assertEqual((rows["fractured_read"][1:], rows["effect_without_cause"][2:]), (["0", "0"], ["0"]))
        for application in rows:
            for name in os.listdir(os.path.join(self.room, application)):
                self.assertEqual(Case(os.path.join(self.room, application, name)).history.wrong(), [])


if __name__ == "__main__":
    unittest.main()
