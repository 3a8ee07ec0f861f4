"""What a signal does to a server that the script has started: over a program that stands in for it."""

import os
import shutil
import signal
import subprocess
import tempfile
import time
import unittest

from samples import HERE, SCRIPT


class Signals(unittest.TestCase):
    def setUp(self):
        room = tempfile.TemporaryDirectory()
        self.addCleanup(room.cleanup)
        self.room = room.name
        os.makedirs(self.path("docs/help"))
        self.write("docs/help/version.txt", "monkeydb 1, proved\n")
        shutil.copy(SCRIPT, self.path("monkeydb"))
        shutil.copy(os.path.join(HERE, "stub_program.py"), self.path("program"))
        os.chmod(self.path("program"), 0o755)
        self.write("listens", "")

    def path(self, name):
        return os.path.join(self.room, name)

    def write(self, name, text):
        with open(self.path(name), "w") as file:
            file.write(text)

    def read(self, name):
        with open(self.path(name)) as file:
            return file.read()

    def wait_for(self, name):
        end = time.time() + 60
        while not os.path.exists(self.path(name)):
            self.assertLess(time.time(), end, f"no {name}")
            time.sleep(0.02)

    def serve(self, *words):
        """The script with a server below it, which serves."""
        self.script = subprocess.Popen(
            [self.path("monkeydb"), "serve", *words], stdout=subprocess.PIPE, stderr=subprocess.PIPE, text=True, start_new_session=True
        )
        self.addCleanup(self.kill_all)
        self.wait_for("serving")

    def kill_all(self):
        try:
            os.killpg(self.script.pid, signal.SIGKILL)
        except ProcessLookupError:
            pass
        self.script.wait()

    def end(self):
        """Status, what was printed, what was said."""
        printed, said = self.script.communicate(timeout=60)
        return self.script.returncode, printed, said

    def test_each_signal_asks_the_server_to_stop(self):
        for number in (signal.SIGINT, signal.SIGTERM, signal.SIGHUP):
            with self.subTest(number):
                self.serve("--quiet", "--listen", "127.0.0.1:7")
                self.script.send_signal(number)
                status, printed, said = self.end()
                self.assertEqual((status, printed), (3, "served\n"))
                self.assertIn("monkeydb: stopping:", said)
                self.assertEqual(self.read("asked"), "127.0.0.1:7")
                self.assertEqual(self.read("serving"), "--quiet --listen 127.0.0.1:7")
                os.remove(self.path("asked"))
                os.remove(self.path("serving"))

    def test_a_terminal_signals_the_whole_group(self):
        self.serve()
        os.killpg(self.script.pid, signal.SIGINT)
        self.assertEqual(self.end()[:2], (3, "served\n"))
        self.assertEqual(self.read("asked"), "127.0.0.1:5433")

    def test_an_address_after_an_equals_sign(self):
        self.serve("--listen=[::1]:7")
        self.script.send_signal(signal.SIGTERM)
        self.assertEqual(self.end()[0], 3)
        self.assertEqual(self.read("asked"), "[::1]:7")

    def test_a_second_signal_kills_it(self):
        self.write("deaf", "")
        self.serve()
        self.script.send_signal(signal.SIGINT)
        self.wait_for("asked")
        time.sleep(0.3)
        self.script.send_signal(signal.SIGINT)
        status, printed, said = self.end()
        self.assertEqual((status, printed), (137, ""))
        self.assertIn("monkeydb: killed: no log is written", said)

    def test_where_nobody_listens_it_is_killed(self):
        os.remove(self.path("listens"))
        self.serve()
        self.script.send_signal(signal.SIGTERM)
        status, printed, said = self.end()
        self.assertEqual((status, printed), (137, ""))
        self.assertIn("monkeydb: killed before it listened at 127.0.0.1:5433", said)

    def test_without_a_signal_the_status_is_the_programs(self):
        self.serve()
        self.write("asked", "")
        self.assertEqual(self.end(), (3, "served\n", ""))

    def test_at_a_port_of_the_systems_choice_a_signal_ends_the_program(self):
        self.serve("--listen", "127.0.0.1:0")
        self.script.send_signal(signal.SIGTERM)
        self.assertEqual(self.end()[:2], (-signal.SIGTERM, ""))


if __name__ == "__main__":
    unittest.main()
