"""Explore: a command over levels and seeds, each run on a server of its own."""

import os
import queue
import re
import shutil
import statistics
import sys
import tempfile
import threading
import time

from .cases import fresh_folder, keep
from .logs import LEVELS
from .runs import BROKE, FAILED, HELD, run
from .serving import PROCESSES, Ended, ServerFault, called
from .telling import tail, telling_line

FIRST_SEEDS = 5
CAUSES = 5
LAST_LINES = 20
# a terminal is told which run is at work once it takes so long
LONG_SECONDS = 5


class Asked:
    """What a call of explore asks for."""

    def __init__(self, command, levels=LEVELS, seeds=range(20), setup=None, jobs=1, timeout=60, broke=range(1, 126), keep="broken"):
        self.command, self.levels, self.seeds, self.setup = command, list(levels), list(seeds), setup
        self.jobs, self.timeout, self.broke, self.keep = jobs, timeout, broke, keep


class Result:
    """What a run came to, without its files: a verdict, the line that tells it best, and the path of its case."""

    def __init__(self, verdict, line, sessions=0, output=""):
        self.verdict, self.line, self.sessions, self.output = verdict, line, sessions, output
        self.case = None

    def is_hopeless(self):
        """Whether further runs of its level would tell nothing."""
        return self.verdict == FAILED or self.sessions <= 0


class Progress:
    """One line on a terminal that is written over; nothing elsewhere."""

    def __init__(self, total, stream):
        self.total, self.done, self.broke, self.begun = total, 0, 0, time.monotonic()
        self.stream, self.shows, self.width = stream, stream.isatty(), 0

    def step(self, broke):
        self.done += 1
        self.broke += broke

    def text(self, running):
        text = "%d of %d runs, %d broke" % (self.done, self.total, self.broke)
        if self.done:
            left = (time.monotonic() - self.begun) / self.done * (self.total - self.done)
            text += ", %d s left" % max(1, round(left))
        if running:
            (level, seed), since = min(running.items(), key=lambda item: item[1])
            taken = time.monotonic() - since
            if taken >= LONG_SECONDS:
                text += ", %s-%d takes %d s" % (level, seed, taken)
        return text

    def show(self, running):
        if self.shows:
            text = self.text(running)
            self.stream.write("\r" + text.ljust(self.width))
            self.stream.flush()
            self.width = len(text)

    def clear(self):
        if self.shows and self.width:
            self.stream.write("\r" + " " * self.width + "\r")
            self.stream.flush()
            self.width = 0


class Exploration:
    """The runs of one call, over a server's command. `look(level, seed, run)` is called for each run while its files are there."""

    def __init__(self, asked, server, look=None, out=None):
        self.asked, self.server, self.look = asked, server, look
        self.out = out or sys.stdout
        self.results, self.running = {}, {}
        # what fails here would fail everywhere
        self.first = [(level, asked.seeds[0]) for level in asked.levels]
        self.folder, self.room = fresh_folder(asked.keep), None
        self.progress = Progress(len(asked.levels) * len(asked.seeds), sys.stderr)
        # in words what ended all, as a full disk; and what went wrong in a thread and is raised here
        self.fault, self.error = None, None

    def go(self):
        """Runs all, prints the table, and gives the status."""
        if self.folder != self.asked.keep:
            self.say("%s holds what an earlier call kept: the cases go to %s" % (self.asked.keep, self.folder))
        jobs = [(level, seed) for level in self.asked.levels for seed in self.asked.seeds]
        interrupted = False
        with tempfile.TemporaryDirectory(prefix="monkeydb-") as self.room:
            try:
                for job in self.first:
                    self.work([job], 1)
                    if self.fault is None and self.results[job].is_hopeless():
                        self.say_hopeless(job)
                        return 3
                if self.fault is None:
                    self.work([job for job in jobs if job not in self.first], self.asked.jobs)
            except KeyboardInterrupt:
                interrupted = True
            finally:
                self.progress.clear()
        if interrupted:
            self.say("stopped after %d of %d runs" % (len(self.results), len(jobs)))
        self.table()
        if self.fault is not None:
            self.say("ended: %s" % self.fault)
        return 130 if interrupted else self.status()

    def say(self, text):
        print(text, file=self.out, flush=True)

    def work(self, jobs, threads):
        """Runs these jobs in so many threads; a fault that is no run's, as a full disk, ends the rest."""
        left = queue.Queue()
        for job in jobs:
            left.put(job)

        def worker():
            while self.fault is None and self.error is None:
                try:
                    job = left.get_nowait()
                except queue.Empty:
                    return
                self.running[job] = time.monotonic()
                try:
                    result = self.one(job)
                except Ended:
                    return
                except OSError as fault:
                    self.fault = "%s: %s" % (fault.filename or "a file", fault.strerror)
                    return
                except Exception as error:
                    self.error = error
                    return
                finally:
                    self.running.pop(job, None)
                if PROCESSES.ended:
                    return
                self.results[job] = result
                self.progress.step(result.verdict == BROKE)

        workers = [threading.Thread(target=worker) for _ in range(min(threads, len(jobs)))]
        try:
            for thread in workers:
                thread.start()
            while any(thread.is_alive() for thread in workers):
                for thread in workers:
                    thread.join(0.2 if self.progress.shows else 1)
                    self.progress.show(dict(self.running))
        except KeyboardInterrupt:
            PROCESSES.end_all()
            for thread in workers:
                if thread.ident is not None:
                    thread.join()
            raise
        if self.error is not None:
            raise self.error

    def one(self, job):
        """A run, and what is kept of it."""
        level, seed = job
        asked = self.asked
        room = tempfile.mkdtemp(dir=self.room)
        try:
            try:
                made = run(asked.command, self.server, level, seed, room, asked.setup, asked.timeout, asked.broke)
            except ServerFault as fault:
                return Result(FAILED, "server: %s" % fault)
            if self.look:
                self.look(level, seed, made)
            if made.verdict == HELD:
                return Result(HELD, "", self.sessions(made))
            facts = {
                "command": asked.command,
                "level": level,
                "seed": seed,
                "setup": os.path.abspath(asked.setup) if asked.setup else None,
                "folder": os.getcwd(),
            }
            output = tail(made.output)
            line = telling_line(output) if made.verdict == BROKE else made.why()
            result = Result(made.verdict, line, self.sessions(made), output)
            if not (job in self.first and result.is_hopeless()):
                result.case = keep(self.folder, made, facts)
            return result
        finally:
            shutil.rmtree(room, ignore_errors=True)

    def sessions(self, made):
        """How many sessions a run's clients opened: with a setup the first one is its own."""
        return made.sessions() - (1 if self.asked.setup else 0)

    def say_hopeless(self, job):
        """Why the first run of a level ends it all."""
        result = self.results[job]
        at = "at %s, seed %d" % job
        if result.verdict == FAILED:
            self.say("%s, the first run failed: %s" % (at, result.line))
            for line in result.output.splitlines()[-LAST_LINES:]:
                self.say("    " + line)
        else:
            self.say("%s, the command opened no session: does it connect to PGHOST and PGPORT, or to DATABASE_URL? It %s" % (at, result.verdict))

    def jobs_of(self, verdict):
        """The jobs with this verdict, in order."""
        places = {(level, seed): place for place, (level, seed) in enumerate((level, seed) for level in self.asked.levels for seed in self.asked.seeds)}
        return sorted((job for job, result in self.results.items() if result.verdict == verdict), key=places.get)

    def table(self):
        self.say("%-6s %5s %6s %6s  %-14s %s" % ("level", "runs", "broke", "failed", "first seeds", "median runs to the first break"))
        for level in self.asked.levels:
            seeds = [seed for seed in self.asked.seeds if (level, seed) in self.results]
            verdicts = [self.results[level, seed].verdict for seed in seeds]
            broke = [seed for seed, verdict in zip(seeds, verdicts) if verdict == BROKE]
            first = " ".join(str(seed) for seed in broke[:FIRST_SEEDS]) + (" .." if len(broke) > FIRST_SEEDS else "")
            median = median_wait([verdict == BROKE for verdict in verdicts])
            row = (level, len(seeds), len(broke), verdicts.count(FAILED), first or "-", "-" if median is None else "%g" % median)
            self.say("%-6s %5d %6d %6d  %-14s %s" % row)
        self.causes(BROKE, "said")
        self.causes(FAILED, "failed")
        broke = self.jobs_of(BROKE)
        if broke:
            # what the strongest level permits tells most
            strongest = max((level for level, _ in broke), key=LEVELS.index)
            path = self.results[next(job for job in broke if job[0] == strongest)].case
            script = called(os.environ.get("MONKEYDB_CALLED") or "monkeydb")
            self.say("next: %s show %s" % (script, quoted(path)))
            self.say("      %s page %s" % (script, quoted(path)))

    def causes(self, verdict, word):
        """What runs said, with how many said so; numbers in it aside."""
        found = {}
        for job in self.jobs_of(verdict):
            found.setdefault(re.sub("[0-9]+", "0", self.results[job].line), []).append(job)
        ranked = sorted(found.values(), key=len, reverse=True)
        for jobs in ranked[:CAUSES]:
            result = self.results[jobs[0]]
            first = "" if verdict == BROKE else ", first %s-%d" % jobs[0]
            self.say("%d %s%s: %s" % (len(jobs), word, first, result.line or "nothing"))
        if len(ranked) > CAUSES:
            self.say("%d %s something else" % (sum(map(len, ranked[CAUSES:])), word))

    def status(self):
        if self.fault is not None or self.jobs_of(FAILED):
            return 3
        return 1 if self.jobs_of(BROKE) else 0


def quoted(path):
    return path if re.fullmatch(r"[\w./+-]+", path) else "'" + path.replace("'", "'\\''") + "'"


def median_wait(broke):
    """The median, over all runs as a start, of the runs up to the first that broke; after the last one it goes on with the first."""
    if not any(broke):
        return None
    size = len(broke)
    return statistics.median(next(n for n in range(1, size + 1) if broke[(start + n - 1) % size]) for start in range(size))
