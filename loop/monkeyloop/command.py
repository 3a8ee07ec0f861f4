"""The command line."""

import argparse
import os
import re
import signal
import sys

from . import page, show
from .cases import Case, NoCase
from .explore import Asked, Exploration
from .logs import LEVELS, LogFault
from .serving import TOP, ServerFault, command_of

MOST_SEED = 2**64 - 1
MOST_RUNS = 1000000
MOST_JOBS = 64

HELP = os.path.join(TOP, "docs", "help")


class Parser(argparse.ArgumentParser):
    """Tells wrong usage in one line. Its help is the text that the script monkeydb prints too."""

    def format_help(self):
        with open(os.path.join(HELP, self.prog.split()[-1] + ".txt"), encoding="utf-8") as file:
            return file.read()

    def error(self, message):
        print("%s: %s" % (self.prog, message), file=sys.stderr)
        sys.exit(2)


def ranges(text, what, most):
    """Numbers and ranges of them with commas between, as 0-19,40: the numbers, each once."""
    found = []
    for part in text.split(","):
        pair = re.fullmatch(r"([0-9]{1,20})(?:-([0-9]{1,20}))?", part)
        if not pair:
            raise argparse.ArgumentTypeError("no %s: %s" % (what, part))
        first, last = int(pair.group(1)), int(pair.group(2) or pair.group(1))
        if last < first or last > most:
            raise argparse.ArgumentTypeError("no %s: %s" % (what, part))
        if last - first >= MOST_RUNS:
            raise argparse.ArgumentTypeError("too many %s: %s" % (what, part))
        found += range(first, last + 1)
    return list(dict.fromkeys(found))


def seeds(text):
    return ranges(text, "seeds", MOST_SEED)


def statuses(text):
    found = ranges(text, "statuses from 1 to 125", 125)
    if 0 in found:
        raise argparse.ArgumentTypeError("no statuses from 1 to 125: %s" % text)
    return set(found)


def levels(text):
    found = list(dict.fromkeys(text.split(",")))
    for level in found:
        if level not in LEVELS:
            raise argparse.ArgumentTypeError("no level: %s (there are rc, ra and cc)" % level)
    return found


def jobs(text):
    if not re.fullmatch("[0-9]{1,2}", text) or not 1 <= int(text) <= MOST_JOBS:
        raise argparse.ArgumentTypeError("a number from 1 to %d" % MOST_JOBS)
    return int(text)


def seconds(text):
    if not re.fullmatch(r"[0-9]{1,6}(\.[0-9]{1,3})?", text) or float(text) == 0:
        raise argparse.ArgumentTypeError("seconds above 0")
    return float(text)


def folder(text):
    """The folder's path, to whose end a number can be added."""
    found = os.path.normpath(text)
    return os.path.abspath(found) if os.path.basename(found) in (".", "..") else found


def file(text):
    try:
        with open(text, "rb"):
            return text
    except OSError as fault:
        raise argparse.ArgumentTypeError("%s: %s" % (text, fault.strerror)) from None


def parser():
    top = Parser(prog="monkeydb", allow_abbrev=False)
    verbs = top.add_subparsers(dest="verb", required=True, parser_class=Parser)
    it = verbs.add_parser("explore", allow_abbrev=False)
    it.add_argument("--level", type=levels, default=list(LEVELS))
    it.add_argument("--seeds", type=seeds, default=list(range(20)))
    it.add_argument("--setup", type=file)
    it.add_argument("--jobs", type=jobs, default=1)
    it.add_argument("--timeout", type=seconds, default=60)
    it.add_argument("--broke", type=statuses, default=set(range(1, 126)))
    it.add_argument("--keep", type=folder, default="broken")
    it.add_argument("--server")
    it = verbs.add_parser("show", allow_abbrev=False)
    it.add_argument("--all", action="store_true")
    it.add_argument("case", metavar="CASE|LOG")
    it = verbs.add_parser("page", allow_abbrev=False)
    it.add_argument("--out")
    it.add_argument("case", metavar="CASE|LOG")
    return top


def asked_of(words):
    """The options, and the command that stands after `--`."""
    cut = words.index("--") if "--" in words and words[:1] == ["explore"] else len(words)
    top = parser()
    given = top.parse_args(words[:cut])
    given.command = words[cut + 1 :]
    if given.verb == "explore" and not given.command:
        print("monkeydb explore: no command: monkeydb explore [OPTIONS] -- COMMAND ..", file=sys.stderr)
        sys.exit(2)
    return given


def explore(given):
    def stop(number, frame):
        raise KeyboardInterrupt

    # what ends this program ends its servers and commands first; under nohup a hangup doesn't
    for number in (signal.SIGTERM, signal.SIGHUP):
        if signal.getsignal(number) != signal.SIG_IGN:
            signal.signal(number, stop)
    asked = Asked(given.command, given.level, given.seeds, given.setup, given.jobs, given.timeout, given.broke, given.keep)
    return Exploration(asked, command_of(given.server)).go()


def main(words=None):
    try:
        given = asked_of(sys.argv[1:] if words is None else words)
        if given.verb == "explore":
            status = explore(given)
        else:
            case = Case(given.case)
            if given.verb == "show":
                print(show.story(case, given.all), end="")
            else:
                print(page.write(case, given.out))
            status = 0
        sys.stdout.flush()
        return status
    except (NoCase, LogFault) as fault:
        print("monkeydb %s: %s" % (given.verb, fault), file=sys.stderr)
        return 2
    except ServerFault as fault:
        print("monkeydb %s: %s" % (given.verb, fault), file=sys.stderr)
        return 3
    except BrokenPipeError:
        # who read this has gone; what is left to be printed goes nowhere
        os.dup2(os.open(os.devnull, os.O_WRONLY), 1)
        return 3
    except OSError as fault:
        print("monkeydb %s: %s: %s" % (given.verb, fault.filename or "standard output", fault.strerror), file=sys.stderr)
        return 3
    except KeyboardInterrupt:
        return 130
