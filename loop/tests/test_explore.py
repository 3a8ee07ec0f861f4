"""Explore over a stub of the server: statuses, the table, cases, and all that may go wrong."""

import json
import os
import pty
import select
import signal
import subprocess
import sys
import tempfile
import time
import unittest
from unittest import mock

from samples import HERE, LOOP, loop
from monkeyloop import serving
from monkeyloop.explore import Asked, Exploration, median_wait
from monkeyloop.telling import tail, telling_line

STUB = "%s -B %s" % (sys.executable, os.path.join(HERE, "stub_server.py"))
CLIENT = [sys.executable, "-B", os.path.join(HERE, "client.py")]
HEAD = "level   runs  broke failed  first seeds    median runs to the first break"


def is_running(number):
    try:
        with open("/proc/%d/stat" % number) as file:
            return file.read().rsplit(")", 1)[1].split()[0] != "Z"
    except OSError:
        return False


class Rooms(unittest.TestCase):
    def setUp(self):
        room = tempfile.TemporaryDirectory()
        self.addCleanup(room.cleanup)
        self.room = room.name

    def explore(self, *words, server=STUB):
        """Explores in the room; the options stand before the command."""
        return loop("explore", "--server", server, *words, cwd=self.room)

    def read(self, *names):
        with open(os.path.join(self.room, *names)) as file:
            return file.read()

    def write(self, name, text, mode=0o755):
        path = os.path.join(self.room, name)
        with open(path, "w") as file:
            file.write(text)
        os.chmod(path, mode)
        return path

    def kept(self, folder="broken"):
        path = os.path.join(self.room, folder)
        return sorted(os.listdir(path)) if os.path.isdir(path) else []


class Statuses(Rooms):
    def test_none_broke(self):
        status, said, _ = self.explore("--level", "rc,ra", "--seeds", "0-2", "--", *CLIENT, "always", "0")
        self.assertEqual(status, 0)
        self.assertEqual(said.splitlines(), [HEAD, "rc         3      0      0  -              -", "ra         3      0      0  -              -"])
        self.assertEqual(self.kept(), [])

    def test_some_broke(self):
        status, said, _ = self.explore("--level", "rc,cc", "--seeds", "0-3,7", "--", *CLIENT, "odd", "1")
        self.assertEqual(status, 1)
        self.assertEqual(
            said.splitlines(),
            [
                HEAD,
                "rc         5      3      0  1 3 7          1",
                "cc         5      3      0  1 3 7          1",
                "6 said: broke: seed 1",
                "next: monkeydb show broken/cc-1",
                "      monkeydb page broken/cc-1",
            ],
        )
        self.assertEqual(self.kept(), ["cc-1", "cc-3", "cc-7", "rc-1", "rc-3", "rc-7"])

    def test_many_jobs_say_the_same(self):
        words = ("--level", "rc", "--seeds", "0-11", "--jobs", "4", "--", *CLIENT, "odd", "1")
        status, said, _ = self.explore(*words)
        self.assertEqual((status, said.splitlines()[:2]), (1, [HEAD, "rc        12      6      0  1 3 5 7 9 ..   1.5"]))
        self.assertEqual(len(self.kept()), 6)

    def test_a_later_run_fails(self):
        status, said, _ = self.explore("--level", "rc", "--seeds", "0-4", "--", *CLIENT, "at", "2", "127", "odd", "1")
        self.assertEqual(status, 3)
        self.assertIn("rc         5      2      1  1 3            2\n", said)
        self.assertIn("1 failed, first rc-2: status 127, no program to run\n", said)
        self.assertEqual(self.kept(), ["rc-1", "rc-2", "rc-3"])

    def test_broke_says_which_statuses_do(self):
        status, said, _ = self.explore("--level", "rc", "--seeds", "0-4", "--broke", "1,5-6", "--", *CLIENT, "at", "2", "7", "at", "1", "5", "odd", "1")
        self.assertEqual(status, 3)
        self.assertIn("rc         5      2      1  1 3", said)
        self.assertIn("1 failed, first rc-2: status 7\n", said)

    def test_the_first_run_of_a_level_fails(self):
        script = self.write("unrunnable", "", 0o644)
        for words, why in (
            (["/nowhere/at/all"], "status 127, no program to run"),
            ([script], "status 126, no program to run"),
            (["sh", "-c", "exit 126"], "status 126, no program to run"),
            (["sh", "-c", "kill -9 $$"], "signal 9"),
            (["sleep", "100"], "longer than 0.5 s"),
        ):
            status, said, _ = self.explore("--level", "ra,rc", "--seeds", "4-9", "--timeout", "0.5", "--", *words)
            self.assertEqual((status, said.splitlines()[0]), (3, "at ra, seed 4, the first run failed: " + why))
            self.assertNotIn(HEAD, said)
            self.assertEqual(self.kept(), [])

    def test_what_a_failed_first_run_said(self):
        status, said, _ = self.explore("--broke", "1", "--level", "rc", "--", "sh", "-c", "echo one; echo two >&2; exit 2")
        self.assertEqual((status, said), (3, "at rc, seed 0, the first run failed: status 2\n    one\n    two\n"))

    def test_no_session(self):
        said = "at rc, seed 0, the command opened no session: does it connect to PGHOST and PGPORT, or to DATABASE_URL? It held\n"
        self.assertEqual(self.explore("--level", "rc", "--", "true"), (3, said, ""))
        status, said, _ = self.explore("--level", "rc", "--setup", self.write("a.sql", ""), "--", "false")
        self.assertEqual((status, said[-9:], self.kept()), (3, "It broke\n", []))
        status, said, _ = self.explore("--level", "rc", "--seeds", "0", "--setup", self.write("a.sql", ""), "--", *CLIENT)
        self.assertEqual(status, 0)


class Cases(Rooms):
    def test_a_case_holds_what_is_needed(self):
        setup = self.write("a.sql", "")
        command = ["sh", "-c", 'echo "two  words"; exec "$@"', "a\nb", *CLIENT, "odd", "3"]
        self.explore("--level", "ra", "--seeds", "0-1", "--setup", "a.sql", "--keep", "kept", "--", *command)
        self.assertEqual(sorted(os.listdir(os.path.join(self.room, "kept", "ra-1"))), ["case", "log", "output"])
        facts = json.loads(self.read("kept", "ra-1", "case"))
        real = os.path.realpath(self.room)
        self.assertEqual(facts, {"command": command, "level": "ra", "seed": 1, "setup": os.path.join(real, "a.sql"), "folder": real, "status": 3})
        self.assertEqual(self.read("kept", "ra-1", "output"), "two  words\nlevel ra\nbroke: seed 1\n")
        self.assertEqual(self.read("kept", "ra-1", "log"), "monkey-log 2 ra\nopen 1\nopen 2\norder 0\nend\n")
        self.assertTrue(os.path.exists(setup))

    def test_earlier_cases_are_kept(self):
        words = ("--level", "rc", "--seeds", "1", "--", *CLIENT, "odd", "1")
        self.explore(*words)
        before = self.read("broken", "rc-1", "case")
        status, said, _ = self.explore(*words)
        self.assertEqual(said.splitlines()[0], "broken holds what an earlier call kept: the cases go to broken-2")
        self.assertIn("next: monkeydb show broken-2/rc-1\n", said)
        self.assertIn("next: monkeydb show broken-3/rc-1\n", self.explore("--keep", "./broken/", *words)[1])
        self.assertEqual((self.kept(), self.kept("broken-2"), self.read("broken", "rc-1", "case")), (["rc-1"], ["rc-1"], before))

    def test_what_a_command_finds(self):
        names = "PGHOST PGPORT PGUSER PGDATABASE PGSSLMODE PGGSSENCMODE DATABASE_URL MONKEY_LEVEL MONKEY_SEED PGHOSTADDR PGSERVICE".split()
        script = "for n in %s; do printenv $n || echo; done; %s always 1" % (" ".join(names), " ".join(CLIENT))
        self.explore("--level", "cc", "--seeds", "18446744073709551615", "--", "sh", "-c", "PGHOSTADDR= ; " + script)
        found = dict(zip(names, self.read("broken", "cc-18446744073709551615", "output").splitlines()))
        port = found.pop("PGPORT")
        self.assertEqual(
            found,
            {
                "PGHOST": "127.0.0.1",
                "PGUSER": "monkey",
                "PGDATABASE": "monkey",
                "PGSSLMODE": "disable",
                "PGGSSENCMODE": "disable",
                "DATABASE_URL": "postgresql://monkey@127.0.0.1:%s/monkey?sslmode=disable" % port,
                "MONKEY_LEVEL": "cc",
                "MONKEY_SEED": "18446744073709551615",
                "PGHOSTADDR": "",
                "PGSERVICE": "",
            },
        )

    def test_standard_input_is_empty(self):
        self.assertEqual(self.explore("--level", "rc", "--seeds", "0", "--", "sh", "-c", "cat; exec " + " ".join(CLIENT))[0], 0)

    def test_a_folder_that_cannot_be_made(self):
        self.write("file", "")
        status, said, complaint = self.explore("--level", "rc", "--seeds", "0-3", "--keep", "file/broken", "--", *CLIENT, "odd", "1")
        self.assertEqual((status, complaint), (3, ""))
        self.assertIn("rc         1      0      0", said)
        self.assertIn("ended: file/broken/rc-1: Not a directory\n", said)


class Servers(Rooms):
    def first(self, fault):
        return self.explore("--level", "rc", "--seeds", "0-1", "--", *CLIENT, server=STUB + " --fault " + fault)

    def test_one_that_does_not_start(self):
        start = "at rc, seed 0, the first run failed: server: "
        self.assertEqual(self.first("start"), (3, start + "it ended with status 1 before it listened: setup: statement 2 failed: 23505\n", ""))
        self.assertEqual(self.explore("--", "true", server="/nowhere/serve"), (3, start + "/nowhere/serve: No such file or directory\n", ""))

    def test_one_that_ends_badly(self):
        start = "at rc, seed 0, the first run failed: server: "
        status, said, _ = self.first("end")
        self.assertEqual((status, said[: len(start) + 23]), (3, start + "it ended with status 4:"))
        self.assertEqual(self.first("log"), (3, start + "it wrote no log\n", ""))

    def test_one_that_says_nothing_or_hears_nothing(self):
        for fault, said in (("silent", "it doesn't say 'listening at' within 1 s"), ("deaf", "it doesn't end within 1 s")):
            with mock.patch.object(serving, "START_SECONDS", 1), mock.patch.object(serving, "END_SECONDS", 1):
                out = open(os.path.join(self.room, "out"), "w+")
                asked = Asked(CLIENT, ["rc"], [0], keep=os.path.join(self.room, "broken"))
                exploration = Exploration(asked, (STUB + " --fault " + fault).split(), out=out)
                self.assertEqual(exploration.go(), 3)
                out.seek(0)
                self.assertIn(said, out.read())
                out.close()
            self.assertEqual(serving.PROCESSES.running, set())


class Ends(Rooms):
    def test_children_that_a_command_leaves_are_ended(self):
        script = "sleep 1000 & echo $! > %s/child; exec %s" % (self.room, " ".join(CLIENT))
        self.assertEqual(self.explore("--level", "rc", "--seeds", "0", "--", "sh", "-c", script)[0], 0)
        self.assertFalse(is_running(int(self.read("child"))))

    def test_children_of_a_command_that_takes_too_long(self):
        script = "sleep 1000 & echo $! > %s/child; wait" % self.room
        self.assertEqual(self.explore("--level", "rc", "--seeds", "0", "--timeout", "0.5", "--", "sh", "-c", script)[0], 3)
        self.assertFalse(is_running(int(self.read("child"))))

    def interrupted(self, number):
        script = "echo $$ >> %s/children; test $MONKEY_SEED -lt 2 || sleep 1000; exec %s odd 1" % (self.room, " ".join(CLIENT))
        words = [sys.executable, "-B", LOOP, "explore", "--server", STUB, "--level", "rc", "--seeds", "0-9", "--jobs", "2", "--", "sh", "-c", script]
        process = subprocess.Popen(
            words,
            stdout=subprocess.PIPE,
            stderr=subprocess.PIPE,
            universal_newlines=True,
            cwd=self.room,
            # a shell has what it starts in the background ignore Ctrl-C
            preexec_fn=lambda: signal.signal(signal.SIGINT, signal.SIG_DFL),
        )
        self.addCleanup(process.kill)
        end = time.monotonic() + 60
        while time.monotonic() < end:
            path = os.path.join(self.room, "children")
            if os.path.exists(path) and len(self.read("children").split()) == 4:
                break
            time.sleep(0.05)
        servers = [int(it) for it in subprocess.run(["pgrep", "-P", str(process.pid)], stdout=subprocess.PIPE, universal_newlines=True).stdout.split()]
        self.assertEqual(len(servers), 4)
        process.send_signal(number)
        said, complaint = process.communicate(timeout=60)
        self.assertEqual((process.returncode, complaint), (130, ""))
        self.assertEqual(said.splitlines()[:3], ["stopped after 2 of 10 runs", HEAD, "rc         2      1      0  1              1.5"])
        for number in servers + [int(it) for it in self.read("children").split()]:
            self.assertFalse(is_running(number))

    def test_control_c(self):
        self.interrupted(signal.SIGINT)

    def test_terminate(self):
        self.interrupted(signal.SIGTERM)

    def test_who_reads_goes(self):
        words = " ".join("'%s'" % word for word in [sys.executable, "-B", LOOP, "explore", "--help"])
        done = subprocess.run(["bash", "-c", words + " | true; exit ${PIPESTATUS[0]}"], stderr=subprocess.PIPE, universal_newlines=True)
        self.assertEqual(done.stderr, "")


class Terminal(Rooms):
    def test_progress(self):
        mine, theirs = pty.openpty()
        words = [sys.executable, "-B", LOOP, "explore", "--server", STUB, "--level", "rc", "--seeds", "0-3", "--", "sh", "-c"]
        words.append("sleep 0.3; exec %s odd 1" % " ".join(CLIENT))
        process = subprocess.Popen(words, stdout=subprocess.DEVNULL, stderr=theirs, cwd=self.room)
        os.close(theirs)
        said = b""
        while True:
            if select.select([mine], [], [], 30)[0]:
                try:
                    part = os.read(mine, 4096)
                except OSError:
                    break
                if not part:
                    break
                said += part
        self.assertEqual(process.wait(), 1)
        self.assertRegex(said.decode(), r"\r3 of 4 runs, 1 broke, \d+ s left")
        # the line is gone at the end
        self.assertRegex(said.decode(), r"\r +\r$")
        os.close(mine)

    def test_none_elsewhere(self):
        self.assertEqual(self.explore("--level", "rc", "--seeds", "0", "--", *CLIENT)[2], "")


class Usage(Rooms):
    def test_one_line_each(self):
        for words, said in (
            ([], "no command: monkeydb explore [OPTIONS] -- COMMAND .."),
            (["--"], "no command: monkeydb explore [OPTIONS] -- COMMAND .."),
            (["--seeds", "3-1", "--", "true"], "argument --seeds: no seeds: 3-1"),
            (["--seeds", "1,,2", "--", "true"], "argument --seeds: no seeds: "),
            (["--seeds", "x", "--", "true"], "argument --seeds: no seeds: x"),
            (["--seeds", "18446744073709551616", "--", "true"], "argument --seeds: no seeds: 18446744073709551616"),
            (["--seeds", "0-9999999", "--", "true"], "argument --seeds: too many seeds: 0-9999999"),
            (["--level", "rc,serializable", "--", "true"], "argument --level: no level: serializable (there are rc, ra and cc)"),
            (["--broke", "0-3", "--", "true"], "argument --broke: no statuses from 1 to 125: 0-3"),
            (["--broke", "126", "--", "true"], "argument --broke: no statuses from 1 to 125: 126"),
            (["--jobs", "0", "--", "true"], "argument --jobs: a number from 1 to 64"),
            (["--timeout", "0", "--", "true"], "argument --timeout: seconds above 0"),
            (["--timeout", "-1", "--", "true"], "argument --timeout: seconds above 0"),
            (["--setup", "nowhere.sql", "--", "true"], "argument --setup: nowhere.sql: No such file or directory"),
            (["--stale", "0", "--", "true"], None),
        ):
            status, printed, complaint = loop("explore", *words, cwd=self.room)
            self.assertEqual((status, printed, complaint.count("\n")), (2, "", 1), words)
            if said:
                self.assertEqual(complaint, "monkeydb explore: %s\n" % said)

    def test_no_word(self):
        status, _, complaint = loop()
        self.assertEqual((status, complaint.count("\n")), (2, 1))


class Parts(unittest.TestCase):
    def test_median(self):
        broke = [place in (0, 1, 5, 7) for place in range(8)]
        self.assertEqual(median_wait(broke), 1.5)
        self.assertEqual(median_wait([place in (0, 5) for place in range(8)]), 2.5)
        self.assertEqual(median_wait([False, False]), None)
        self.assertEqual(median_wait([]), None)

    def test_telling_line(self):
        self.assertEqual(telling_line("a\nE       assert 4 <= 3\nE        +  where\nb\n"), "E       assert 4 <= 3")
        self.assertEqual(telling_line("Traceback\n  x\npsycopg2.errors.UniqueViolation: key\n"), "psycopg2.errors.UniqueViolation: key")
        self.assertEqual(telling_line("one\ntwo\n\n"), "two")
        self.assertEqual(telling_line("a\tb\x1b[31mc\n"), "a\\tb\\x1b[31mc")
        self.assertEqual(telling_line(""), "")
        self.assertLessEqual(len(telling_line("x" * 1000)), 160)

    def test_the_end_of_an_output(self):
        with tempfile.NamedTemporaryFile() as file:
            file.write(b"first\n" + b"x" * 200000 + b"\nlast\n")
            file.flush()
            self.assertEqual((len(tail(file.name)), telling_line(tail(file.name))), (65536, "last"))


if __name__ == "__main__":
    unittest.main()
