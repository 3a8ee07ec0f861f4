"""A plug-in for pytest: its fixture `monkeydb` gives a test a server.

    PYTHONPATH=.../examples/pytest pytest -p monkeydb_pytest --monkey-level cc --monkey-seed 7

Where MonkeyDB is installed, the system's pytest needs no path and no -p. Under ./monkeydb explore that is the run's server. Else each test
has one of its own, which the fixture `monkey_setup` can give rows: it is the path of a file of SQL, or None. A failure says with which level
and seed to run the test again, and where the log of its server is.
"""

import os
import shlex
import sys

import pytest

TOP = os.path.dirname(os.path.dirname(os.path.dirname(os.path.realpath(__file__))))
sys.path.insert(0, os.path.join(TOP, "loop"))

from monkeyloop.logs import LEVELS  # noqa: E402
from monkeyloop.serving import Server, called, command_of  # noqa: E402

MOST_SEED = 2**64 - 1


class MonkeyServer:
    """What a test is told of its server, and what a failure says."""

    def __init__(self, host, port, user, database, level, seed, again):
        self.host, self.port, self.user, self.database, self.level, self.seed, self.again = host, port, user, database, level, seed, again
        self.url = f"postgresql://{user}@{host}:{port}/{database}?sslmode=disable"


def pytest_addoption(parser):
    group = parser.getgroup("monkeydb")
    group.addoption("--monkey-level", choices=LEVELS, help="the level of each test's server; without it MONKEY_LEVEL, or rc")
    group.addoption("--monkey-seed", help="the seed of each test's server; without it MONKEY_SEED, or 0")
    group.addoption("--monkey-setup", metavar="FILE", help="a file of SQL that is run before each test's clients come")
    group.addoption("--monkey-server", metavar="COMMAND", help="another server's command, as './monkeydb serve --workers 32'")


def level_and_seed(config):
    level = config.getoption("--monkey-level") or os.environ.get("MONKEY_LEVEL") or "rc"
    seed = config.getoption("--monkey-seed") or os.environ.get("MONKEY_SEED") or "0"
    if level not in LEVELS:
        raise pytest.UsageError(f"no level: {level} (there are rc, ra and cc)")
    if not (seed.isascii() and seed.isdigit()) or int(seed) > MOST_SEED:
        raise pytest.UsageError(f"no seed: {seed}")
    return level, int(seed)


def is_explored():
    """Whether the run has a server already."""
    return bool(os.environ.get("MONKEY_SEED") and os.environ.get("PGPORT"))


def pytest_configure(config):
    if not is_explored():
        level_and_seed(config)


@pytest.fixture
def monkey_setup(request):
    """The path of a file of SQL whose rows are there from the start, for a server of the test's own. To be overridden."""
    return request.config.getoption("--monkey-setup")


@pytest.fixture(scope="session")
def monkey_command(request):
    """The words of the server's command; where there is no program yet, it is built."""
    return command_of(request.config.getoption("--monkey-server"))


@pytest.fixture
def monkeydb(request):
    """A server: the run's under explore, else one of the test's own."""
    if is_explored():
        yield explored()
        return
    level, seed = level_and_seed(request.config)
    room = str(request.getfixturevalue("tmp_path_factory").mktemp("monkeydb"))
    server = Server(request.getfixturevalue("monkey_command"), level, seed, room, request.getfixturevalue("monkey_setup"))
    try:
        again = f"pytest {shlex.quote(request.node.nodeid)} --monkey-level {level} --monkey-seed {seed}"
        yield MonkeyServer("127.0.0.1", server.port, "monkey", "monkey", level, seed, f"again: {again}\nits log: {called()} show {server.log}")
        server.stop()
    finally:
        server.end()


def explored():
    level, seed = os.environ.get("MONKEY_LEVEL", ""), os.environ["MONKEY_SEED"]
    again = f"again: monkeydb explore --level {level} --seeds {seed} .., with the same command after --"
    place = (os.environ.get("PGHOST", "127.0.0.1"), int(os.environ["PGPORT"]))
    return MonkeyServer(*place, os.environ.get("PGUSER", "monkey"), os.environ.get("PGDATABASE", "monkey"), level, int(seed), again)


@pytest.hookimpl(hookwrapper=True)
def pytest_runtest_makereport(item, call):
    report = (yield).get_result()
    server = getattr(item, "funcargs", {}).get("monkeydb")
    if report.when == "call" and report.failed and isinstance(server, MonkeyServer):
        report.sections.append(("monkeydb", f"level {server.level}, seed {server.seed}\n{server.again}"))
