"""A case: a folder LEVEL-SEED with the log of a run, what the command printed, and all that is needed to run it again."""

import json
import os
import shutil
import tempfile

from .history import History
from .logs import LogFault, read_log
from .telling import tail, telling_line

FACTS = "case"


class NoCase(Exception):
    """A path is neither a case nor a log."""


def fresh_folder(path):
    """The path, or where that folder holds something, the first of PATH-2, PATH-3 .. that doesn't."""
    number, found = 1, path
    while os.path.lexists(found) and not (os.path.isdir(found) and not os.listdir(found)):
        number += 1
        found = "%s-%d" % (path, number)
    return found


def keep(folder, run, facts):
    """Keeps a run as a case of the folder, whole or not at all, and gives its path."""
    path = os.path.join(folder, "%s-%d" % (facts["level"], facts["seed"]))
    part = None
    try:
        os.makedirs(folder, exist_ok=True)
        part = tempfile.mkdtemp(prefix=".", dir=folder)
        shutil.copyfile(run.log, os.path.join(part, "log"))
        shutil.copyfile(run.output, os.path.join(part, "output"))
        with open(os.path.join(part, FACTS), "w") as file:
            json.dump(dict(facts, status=run.status), file, indent=2)
            file.write("\n")
        os.chmod(part, 0o777 & ~umask())
        os.rename(part, path)
    except BaseException as fault:
        if part:
            shutil.rmtree(part, ignore_errors=True)
        if isinstance(fault, OSError):
            # a full disk doesn't say whose
            raise OSError(fault.errno, fault.strerror, path) from None
        raise
    return path


def umask():
    mask = os.umask(0o022)
    os.umask(mask)
    return mask


class Case:
    """What there is to show of a case, or of a log alone."""

    def __init__(self, path):
        self.path = path
        self.is_folder = os.path.isdir(path)
        log = os.path.join(path, "log") if self.is_folder else path
        try:
            with open(log, "rb") as file:
                self.history = History(read_log(file.read()))
            self.told = self.telling() if self.is_folder else ""
        except FileNotFoundError:
            raise NoCase("%s is no case: it has no file log" % path if self.is_folder else "there is no case and no log %s" % path) from None
        except OSError as fault:
            raise NoCase("%s: %s" % (log, fault.strerror)) from None
        except LogFault as fault:
            raise LogFault("%s: %s" % (log, fault)) from None

    def telling(self):
        output = os.path.join(self.path, "output")
        return telling_line(tail(output)) if os.path.exists(output) else ""

    def name(self):
        return os.path.basename(os.path.normpath(self.path))
