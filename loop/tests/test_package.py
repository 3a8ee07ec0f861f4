"""The Debian package, unpacked into a folder, and the same files put there by install: used from another folder, without the toolchain."""

import filecmp
import glob
import gzip
import os
import re
import shutil
import subprocess
import sys
import tempfile
import unittest

from samples import HERE, SCRIPT, TOP
from monkeyloop.command import parser

NOTES = [sys.executable, "-B", os.path.join(HERE, "notes.py")]
SETUP = "CREATE TABLE note (id bigint PRIMARY KEY, words text NOT NULL); INSERT INTO note VALUES (1, 'old');\n"
SESSION = os.path.join(TOP, "examples", "session.bin")


def run(*words, **options):
    """Status, what was printed, what was said on standard error."""
    done = subprocess.run(words, stdout=subprocess.PIPE, stderr=subprocess.PIPE, universal_newlines=True, **options)
    return done.returncode, done.stdout, done.stderr


def files_below(folder):
    return sorted(os.path.relpath(os.path.join(at, it), folder) for at, folders, names in os.walk(folder) for it in names + folders)


class Packaged(unittest.TestCase):
    @classmethod
    def setUpClass(cls):
        if not shutil.which("dpkg-deb"):
            raise unittest.SkipTest("there is no dpkg-deb")
        room = tempfile.TemporaryDirectory()
        cls.addClassCleanup(room.cleanup)
        cls.room = room.name
        cls.trial = []
        status, said, complaint = run(SCRIPT, "package", cls.room)
        if status == 125:
            cls.trial = ["--trial"]
            status, said, complaint = run(SCRIPT, "package", "--trial", cls.room)
        if status == 125:
            raise unittest.SkipTest("there is no program")
        assert status == 0, complaint
        cls.package = said.strip()
        cls.root = os.path.join(cls.room, "unpacked")
        subprocess.run(["dpkg-deb", "-x", cls.package, cls.root], check=True)
        cls.usr = os.path.join(cls.root, "usr")
        cls.elsewhere = os.path.join(cls.room, "elsewhere")
        os.mkdir(cls.elsewhere)
        with open(os.path.join(cls.elsewhere, "notes.sql"), "w") as file:
            file.write(SETUP)

    def there(self, *words, **options):
        """Runs the words where the package is unpacked: in another folder, with a path on which the toolchain isn't."""
        path = os.path.join(self.usr, "bin") + ":/usr/bin:/bin"
        return run(*words, cwd=self.elsewhere, env={**os.environ, "PATH": path, **options.pop("env", {})}, **options)

    def test_the_first_row_of_pipe(self):
        with open(SESSION, "rb") as session:
            path = os.path.join(self.usr, "bin", "monkeydb")
            done = subprocess.run([path, "pipe", "rc", "1,0,2"], stdin=session, stdout=subprocess.PIPE, stderr=subprocess.PIPE, cwd=self.elsewhere)
        self.assertEqual((done.returncode, len(done.stdout)), (0, 284))
        self.assertRegex(done.stdout, rb"(?s)CREATE TABLE\0.*INSERT 0 1\0.*SELECT 0\0")

    def test_a_loop_with_its_page(self):
        words = ["explore", "--level", "rc,cc", "--seeds", "0-11", "--setup", "notes.sql", "--keep", "cases", "--", *NOTES]
        status, said, complaint = self.there("monkeydb", *words)
        self.assertEqual(status, 1, said + complaint)
        self.assertRegex(said, r"next: monkeydb show cases/cc-\d+\n      monkeydb page cases/cc-\d+\n$")
        case = re.search("show (.*)", said).group(1)
        self.assertIn("1 stale", self.there("monkeydb", "show", case)[1])
        self.assertEqual(self.there("monkeydb", "page", case)[:2], (0, case + "/page.html\n"))
        self.assertEqual(self.there("monkeydb", "check", case + "/log")[:2], (0, "ok\n"))

    def test_the_version_says_whether_it_is_a_trial(self):
        status, said, _ = self.there("monkeydb", "--version")
        self.assertEqual((status, "a trial that isn't proved" in said), (0, self.trial != []))
        self.assertEqual(said.replace(", a trial that isn't proved", ""), run(SCRIPT, "--version")[1])
        self.assertEqual(self.package.endswith("~trial_amd64.deb"), self.trial != [])
        said = self.there("monkeydb", "pipe", "rc", "0", stdin=subprocess.DEVNULL)[2]
        self.assertEqual("monkeydb: not proved: this is a trial" in said, self.trial != [])

    def test_what_needs_a_clone(self):
        for word in ("--prove", "package", "install"):
            said = "monkeydb: %s needs a clone of the sources, and this is an installed program\n" % word
            self.assertEqual(self.there("monkeydb", word), (2, "", said))

    def test_help(self):
        for path in glob.glob(os.path.join(TOP, "docs", "help", "*.txt")):
            name = os.path.basename(path)[: -len(".txt")]
            if name in ("monkeydb", "version", "loop", "clone", "package", "install"):
                continue
            with open(path) as file:
                self.assertEqual(self.there("monkeydb", name, "--help"), (0, file.read(), ""))
        said = self.there("monkeydb", "--help")[1]
        self.assertIn("\n  explore ", said)
        self.assertNotIn("clone", said)

    def test_man_pages(self):
        pages = glob.glob(os.path.join(self.usr, "share", "man", "man1", "*"))
        self.assertEqual(len(pages), 10)
        for page in pages:
            with gzip.open(page, "rt") as file:
                self.assertRegex(file.read(), r"(?s)^\.TH .*\n\.SH NAME\nmonkeydb\S* \\- .*\n\.SH SYNOPSIS\n\.B monkeydb .*\n\.SH EXAMPLE\n")
            if shutil.which("man"):
                self.assertEqual(run("man", "--warnings", "-l", page, env={**os.environ, "MANWIDTH": "100"})[::2], (0, ""))

    def completed(self, *words):
        """What is offered for the last word."""
        script = os.path.join(self.usr, "share", "bash-completion", "completions", "monkeydb")
        # outside of a completion there is no compopt
        text = 'compopt() { :; }; . "$0"; COMP_WORDS=("$@"); COMP_CWORD=$(($# - 1)); _monkeydb; printf "%s\\n" "${COMPREPLY[@]}"'
        status, said, complaint = self.there("bash", "-c", text, script, "monkeydb", *words)
        self.assertEqual((status, complaint), (0, ""))
        return said.split("\n")[:-1]

    def test_completion(self):
        self.assertEqual(self.completed("s"), ["serve", "stop", "sim", "show"])
        self.assertEqual(self.completed("serve", "--se"), ["--seed", "--setup"])
        self.assertEqual(self.completed("serve", "--level", ""), ["rc", "ra", "cc"])
        self.assertEqual(self.completed("serve", "--level", "=", "r"), ["rc", "ra"])
        self.assertEqual(self.completed("pipe", ""), ["rc", "ra", "cc"])
        self.assertEqual(self.completed("serve", "--setup", "no"), ["notes.sql"])
        self.assertEqual(self.completed("serve", "--seed", ""), [""])
        self.assertEqual(self.completed("check", "no"), ["notes.sql"])
        self.assertEqual(self.completed("explore", "--", "no.such", "no"), ["notes.sql"])

    def test_the_plug_in_for_pytest(self):
        if run("/usr/bin/python3", "-c", "import pytest, psycopg2")[0] != 0:
            self.skipTest("the system's Python has no pytest and psycopg2")
        examples = os.path.join(self.usr, "share", "doc", "monkeydb", "examples", "pytest")
        words = ["-q", "-p", "no:cacheprovider", "--basetemp", os.path.join(self.room, "temp"), "--monkey-level", "ra", "-k", "own_sale", examples]
        packages = os.path.join(self.usr, "lib", "python3", "dist-packages")
        status, said, _ = self.there("/usr/bin/python3", "-B", "-m", "pytest", *words, env={"PYTHONPATH": packages})
        self.assertEqual(status, 0, said)
        self.assertIn("1 passed", said)

    def test_install_puts_the_same_files_there(self):
        prefix = os.path.join(self.room, "below", "prefix")
        # the second time over the first
        for _ in range(2):
            status, said, complaint = run(SCRIPT, "install", *self.trial, "--prefix", prefix)
            self.assertEqual((status, said), (0, prefix + "/bin/monkeydb\n"), complaint)
        names = files_below(self.usr)
        self.assertEqual(files_below(prefix), names)
        for name in names:
            ours, theirs = os.path.join(prefix, name), os.path.join(self.usr, name)
            self.assertEqual(os.lstat(ours).st_mode, os.lstat(theirs).st_mode, name)
            if os.path.isfile(ours):
                self.assertTrue(filecmp.cmp(ours, theirs, shallow=False), name)
        self.assertEqual(self.there(os.path.join(prefix, "bin", "monkeydb"), "--version")[0], 0)

    def test_what_cant_be_done(self):
        nowhere, other = os.path.join(self.room, "nowhere"), os.path.join(self.room, "other")
        os.makedirs(os.path.join(other, "lib", "monkeydb"))
        file = os.path.join(self.elsewhere, "notes.sql")
        for words, status, said in (
            (["package", *self.trial, nowhere], 6, "%s: No such file or directory" % nowhere),
            (["package", *self.trial, file], 6, "%s: Not a directory" % file),
            (["install", *self.trial, "--prefix", file], 6, "%s: File exists" % file),
            (["install", *self.trial, "--prefix", other], 6, "%s/lib/monkeydb is there, and is no installed MonkeyDB" % other),
            (["install"], 2, "the following arguments are required: --prefix; try ./monkeydb install --help"),
            (["install", "--prefix"], 2, "argument --prefix: expected one argument; try ./monkeydb install --help"),
            (["install", "here"], 2, None),
            (["package", "--proved"], 2, None),
            (["package", "a", "b"], 2, None),
        ):
            found = run(SCRIPT, *words)
            self.assertEqual((found[0], found[1], found[2].count("\n")), (status, "", 1), words)
            if said:
                self.assertEqual(found[2], "monkeydb: %s: %s\n" % (words[0], said))
        if self.trial:
            said = "there is no proved program of these sources: run ./monkeydb --prove first, or take a trial by --trial"
            self.assertEqual(run(SCRIPT, "package", self.room), (125, "", "monkeydb: package: %s\n" % said))


class Texts(unittest.TestCase):
    def test_the_loops_texts_have_its_options(self):
        for name, it in parser()._subparsers._group_actions[0].choices.items():
            options = {option for action in it._actions for option in action.option_strings} - {"-h", "--help"}
            self.assertEqual(set(re.findall(r"^  (--[a-z]+)", it.format_help(), re.M)), options, name)


if __name__ == "__main__":
    unittest.main()
