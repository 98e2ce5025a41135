"""`wanekupo ship-journal`, as a user gives it: what is at the other place, and that nothing there is replaced."""

import contextlib
import io
import os
import shutil
import unittest
from unittest import mock

import support  # noqa: F401  (it puts the package into Python's path)

from support import FolderCase

from wanekupo.cli.main import main
from wanekupo.seat.journal import Journal

NEEDS_RSYNC = unittest.skipUnless(shutil.which("rsync"), "there is no rsync")


def ran(*words, **environment):
    """The status of the command, its output and what it told on standard error."""
    out, err = io.StringIO(), io.StringIO()
    with contextlib.redirect_stdout(out), contextlib.redirect_stderr(err):
        with mock.patch.dict(os.environ, environment):
            status = main([str(word) for word in words])
    return status, out.getvalue(), err.getvalue()


class Shipping(FolderCase):
    def setUp(self):
        self.addCleanup(os.umask, os.umask(0o022))  # as of a service
        super().setUp()
        self.to = self.folder / "to"
        self.to.mkdir()
        self.own = self.made("own")

    def made(self, name):
        """A folder with the journal of a day in which a number was asked for."""
        (self.folder / name).mkdir()
        with contextlib.closing(Journal(self.folder / name, "a1")) as journal:
            journal.resynchronized(1)
        return self.folder / name

    def ship(self, journal, to=None, **environment):
        return ran("ship-journal", to or self.to, "--journal", journal, **environment)

    def there(self):
        """What is at the other place: the bytes and the mode of each file, by its name."""
        found = sorted(self.to.rglob("*.journal"))
        return [(path.name, path.read_bytes(), path.stat().st_mode & 0o777) for path in found]

    @NEEDS_RSYNC
    def test_what_is_there(self):
        """All journals and nothing else, with their bytes, for a group to read; again with what is new."""
        (self.own / "a1.token").write_text("abc")
        for _ in range(2):
            done = self.ship(self.own)
            self.assertEqual(done, (0, '{"files":1,"to":"%s"}\n' % self.to, ""))
            (file,) = self.own.glob("*.journal")
            self.assertEqual(self.there(), [(file.name, file.read_bytes(), 0o640)])
            with contextlib.closing(Journal(self.own, "a1")) as journal:
                journal.resynchronized(2)
        self.assertEqual(len([it for it in self.to.rglob("*") if it.is_file()]), 1)

    @NEEDS_RSYNC
    def test_a_new_machine(self):
        """The journal of the same seat and day, on a machine in the place of one that is dead, replaces nothing."""
        self.ship(self.own)
        first = self.there()
        shutil.rmtree(self.own)
        other = self.made("other")
        with contextlib.closing(Journal(other, "a1")) as journal:
            journal.resynchronized(7)
        self.assertEqual(self.ship(other)[0], 0)
        (file,) = other.glob("*.journal")
        self.assertEqual(sorted(self.there()), sorted([*first, (file.name, file.read_bytes(), 0o640)]))

    @unittest.skipUnless(shutil.which("rrsync"), "there is no rrsync")
    def test_through_ssh(self):
        """To a user's account that may do nothing but write there, by rsync's own rrsync; a script stands for ssh."""
        ssh = self.folder / "ssh"
        told = f'SSH_ORIGINAL_COMMAND="$*" SSH_CONNECTION=x exec rrsync -wo -no-del -munge "{self.to}"'
        ssh.write_text(f'#!/bin/sh\nwhile [ "$1" != rsync ]; do shift; done\n{told}\n', encoding="ascii")
        ssh.chmod(0o700)
        status, _, err = self.ship(self.own, "journals@store.example:", RSYNC_RSH=str(ssh))
        (file,) = self.own.glob("*.journal")
        self.assertEqual((status, err), (0, ""))
        self.assertEqual(self.there(), [(file.name, file.read_bytes(), 0o640)])

    @NEEDS_RSYNC
    def test_one_file(self):
        """A journal that is one file."""
        file = self.folder / "a1.journal"
        with contextlib.closing(Journal(file)) as journal:
            journal.resynchronized(3)
        self.assertEqual(self.ship(file)[0], 0)
        self.assertEqual(self.there(), [("a1.journal", file.read_bytes(), 0o640)])

    def test_what_goes_wrong(self):
        """A place that isn't there, no rsync, no journal that is named: a sentence each, and status 2."""
        (self.folder / "bin").mkdir()
        none = {"PATH": str(self.folder / "bin")}
        cases = [
            (self.ship(self.own, **none), "There is no rsync. Install it"),
            (ran("ship-journal", self.to, HOME=str(self.folder)), "No journal is named. Give --journal"),
        ]
        if shutil.which("rsync"):
            told = "The journals weren't shipped: rsync ended with status 11: "
            cases.append((self.ship(self.own, self.folder / "none/none"), told))
        for (status, out, err), line in cases:
            with self.subTest(line):
                self.assertEqual((status, out), (2, ""))
                self.assertTrue(err.startswith(line), err)
                self.assertEqual(err.count("\n"), 1)
