"""A run: a command against a server of its own."""

import os
import subprocess
import tempfile
import time

from .serving import PROCESSES, Server, status_words

HELD, BROKE, FAILED = "held", "broke", "failed"
# what a shell answers where a command can't be run
NOT_RUN = (126, 127)


class Run:
    """What a run came to: its verdict, the command's status (None where the time limit ended it), and the paths of its log and its output."""

    def __init__(self, verdict, status, log, output, limit):
        self.verdict, self.status, self.log, self.output, self.limit = verdict, status, log, output, limit

    def sessions(self):
        """How many sessions its log has."""
        with open(self.log, "rb") as file:
            return sum(line.startswith(b"open ") for line in file)

    def why(self):
        """The command's end in words."""
        if self.status is None:
            return "longer than %g s" % self.limit
        return status_words(self.status) + (", no program to run" if self.status in NOT_RUN else "")


def verdict_of(status, broke):
    if status == 0:
        return HELD
    return BROKE if status in broke else FAILED


def run(command, server, level, seed, room, setup=None, timeout=60, broke=range(1, 126)):
    """Runs the command, a list of words, in the folder of the caller. Its log and its output stay in the folder `room`."""
    room = tempfile.mkdtemp(prefix="%s-%d." % (level, seed), dir=room)
    served = Server(server, level, seed, room, setup)
    try:
        output = os.path.join(room, "output")
        status = run_command(command, output, served.environment(), timeout)
        log = served.stop()
    finally:
        served.end()
    return Run(verdict_of(status, broke), status, log, output, timeout)


def run_command(command, output, environment, timeout):
    """The command's status, as a shell has it where it can't be run; None where it took too long. What is left of its group is ended."""
    with open(output, "wb") as file:
        try:
            process = PROCESSES.start(command, stdout=file, stderr=file, env=environment)
        except OSError as fault:
            file.write(("%s: %s\n" % (command[0], fault.strerror)).encode(errors="surrogateescape"))
            return 127 if isinstance(fault, FileNotFoundError) else 126
        end = time.monotonic() + timeout
        try:
            return process.wait(max(0, end - time.monotonic()))
        except subprocess.TimeoutExpired:
            return None
        finally:
            PROCESSES.end(process)
