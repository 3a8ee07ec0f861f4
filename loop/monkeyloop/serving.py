"""A server of its own: started at a free port, asked to end, and ended where it doesn't."""

import os
import shlex
import shutil
import signal
import socket
import struct
import subprocess
import threading
import time

# an installed package is reached by a link as well
TOP = os.path.dirname(os.path.dirname(os.path.dirname(os.path.realpath(__file__))))
SCRIPT = os.path.join(TOP, "monkeydb")
# a cancel request of the protocol, with the two numbers that a server ends at
STOP = struct.pack("!II", 16, 80877102) + b"STOPSTOP"
LISTENS = "listening at"
CANT_LISTEN = 6
START_SECONDS, END_SECONDS = 30, 30
TRIES = 5


class ServerFault(Exception):
    """A server didn't start, or didn't end as it should."""


class Ended(Exception):
    """All that was started is to be ended."""


class Processes:
    """The processes that this program started, each at the head of a group of its own."""

    def __init__(self):
        self.lock, self.running, self.ended = threading.Lock(), set(), False

    def start(self, words, **options):
        with self.lock:
            if self.ended:
                raise Ended
            process = subprocess.Popen(words, stdin=subprocess.DEVNULL, start_new_session=True, **options)
            self.running.add(process)
            return process

    def end(self, process):
        """Ends what is left of its group, and the process. Only once: later the group's number may be another's."""
        with self.lock:
            if process not in self.running:
                return
            self.running.discard(process)
        kill_group(process)
        process.wait()

    def end_all(self):
        """Ends all, now and from now on. Who waits for one of them sees its end."""
        with self.lock:
            self.ended = True
            for process in self.running:
                kill_group(process)


def kill_group(process):
    # a group has its number until its last process is gone, and a process that wasn't waited for keeps it
    try:
        os.killpg(process.pid, signal.SIGKILL)
    except (ProcessLookupError, PermissionError):
        pass


PROCESSES = Processes()


def program():
    """The words of the server's command: the program that ./monkeydb runs, built first where it lacks, and `serve`."""
    found = subprocess.run([SCRIPT, "--program"], stdout=subprocess.PIPE, universal_newlines=True)
    if found.returncode != 0:
        raise ServerFault("there is no program: %s ended with status %d" % (SCRIPT, found.returncode))
    return [found.stdout.strip(), "serve"]


def called(word=SCRIPT):
    """How a user calls the script that was called by this word: by its name alone, where the path leads to it."""
    found = shutil.which("monkeydb")
    return "monkeydb" if found and os.path.realpath(found) == os.path.realpath(word) else word


def command_of(text):
    """The words of a server's command as a shell cuts them; without one, the program of these sources."""
    if not text:
        return program()
    words = shlex.split(text)
    # the script builds the program where it lacks, for which no server's start leaves time
    if words and os.path.exists(words[0]) and os.path.samefile(words[0], SCRIPT):
        words[0] = program()[0]
    return words


def free_port():
    with socket.socket() as probe:
        probe.bind(("127.0.0.1", 0))
        return probe.getsockname()[1]


def environment(port, level, seed):
    """What a client finds in its environment."""
    found = dict(os.environ)
    # the first two would lead a client of libpq elsewhere
    for name in ("PGHOSTADDR", "PGSERVICE", "MONKEYDB_CALLED"):
        found.pop(name, None)
    found.update(
        PGHOST="127.0.0.1",
        PGPORT=str(port),
        PGUSER="monkey",
        PGDATABASE="monkey",
        PGSSLMODE="disable",
        PGGSSENCMODE="disable",
        DATABASE_URL="postgresql://monkey@127.0.0.1:%d/monkey?sslmode=disable" % port,
        MONKEY_LEVEL=level,
        MONKEY_SEED=str(seed),
    )
    return found


class Server:
    """A server that listens. What it prints goes to the file `said` of the folder `room`, and its history to `log` there."""

    def __init__(self, command, level, seed, room, setup=None):
        self.command, self.level, self.seed, self.room, self.setup = command, level, seed, room, setup
        self.log, self.said = os.path.join(room, "log"), os.path.join(room, "said")
        self.process = None
        # another program may take the free port first
        for _ in range(TRIES):
            self.port = free_port()
            if self.starts():
                return
        raise ServerFault("it can't listen: %s" % self.words())

    def starts(self):
        """Whether it listens; not where another program has its port."""
        words = ["--level", self.level, "--seed", str(self.seed), "--listen", "127.0.0.1:%d" % self.port, "--log", self.log]
        if self.setup:
            words += ["--setup", self.setup]
        with open(self.said, "wb") as said:
            try:
                self.process = PROCESSES.start(self.command + words, stdout=said, stderr=said)
            except OSError as fault:
                raise ServerFault("%s: %s" % (self.command[0], fault.strerror)) from None
        try:
            return self.listens()
        except BaseException:
            PROCESSES.end(self.process)
            raise

    def listens(self):
        end, wait = time.monotonic() + START_SECONDS, 0.002
        while time.monotonic() < end:
            ended = self.process.poll()
            if LISTENS in self.words():
                return True
            if ended is not None:
                PROCESSES.end(self.process)
                if ended == CANT_LISTEN:
                    return False
                raise ServerFault("it ended with %s before it listened%s" % (status_words(ended), said_words(self.words())))
            time.sleep(wait)
            wait = min(0.05, wait * 1.5)
        raise ServerFault("it doesn't say '%s' within %d s%s" % (LISTENS, START_SECONDS, said_words(self.words())))

    def words(self):
        """What it printed."""
        with open(self.said, "rb") as file:
            return file.read(65536).decode(errors="replace").strip()

    def environment(self):
        return environment(self.port, self.level, self.seed)

    def stop(self):
        """Asks it to end, and gives the path of its log."""
        try:
            with socket.create_connection(("127.0.0.1", self.port), timeout=END_SECONDS) as link:
                link.sendall(STOP)
            self.process.wait(END_SECONDS)
        except (OSError, subprocess.TimeoutExpired):
            if self.process.poll() is None:
                raise ServerFault("it doesn't end within %d s" % END_SECONDS) from None
        finally:
            self.end()
        if self.process.returncode != 0:
            raise ServerFault("it ended with %s%s" % (status_words(self.process.returncode), said_words(self.words())))
        if not os.path.exists(self.log):
            raise ServerFault("it wrote no log")
        return self.log

    def end(self):
        """Ends it without asking."""
        PROCESSES.end(self.process)


def status_words(status):
    return "status %d" % status if status >= 0 else "signal %d" % -status


def said_words(text):
    """What a server printed, as the end of a line: the last lines that are no news of connections."""
    lines = [line.strip() for line in text.splitlines() if line.strip() and not line.startswith("monkeydb: not proved")]
    return ": " + "; ".join(lines[-3:]) if lines else ""
