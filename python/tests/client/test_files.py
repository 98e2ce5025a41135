"""The files of a station: whose they are, who can put or replace them, and what of a key stays in them."""

import contextlib
import json
import os
import unittest
from unittest import mock

from support import DIGEST, FLASH_KEY, MAC, MAP, ORDER, WISHES, StationCase

from wanekupo.common.errors import BadJournal, BadStateFile, NoReply, Refused, UnsafeFile
from wanekupo.seat.journal import Journal, strict_lines, requests_of
from wanekupo.common.files import own_path, replace_bytes

# Another user than the one that runs the tests, who has to be root to give a file away.
OTHER = 65_534
NEEDS_ROOT = unittest.skipUnless(os.name == "posix" and os.geteuid() == 0, "only root gives files to another user")


def key_words():
    """What a chip shows of the flash key, which espefuse burns from the end of its file."""
    return [FLASH_KEY[::-1][place : place + 4][::-1].hex() for place in range(0, 32, 4)]


@unittest.skipUnless(os.name == "posix", "modes, owners and links are those of POSIX")
class Owners(StationCase):
    def setUp(self):
        super().setUp()
        self.victim = self.folder / "victim"
        self.victim.write_text("x", encoding="ascii")
        self.victim.chmod(0o644)

    def begun(self):
        """A state file, its lock and a log, which nobody has open."""
        with contextlib.closing(self.journal()) as journal, self.station(journal=journal) as station:
            station.import_map(MAP)

    def test_links_are_not_followed(self):
        """The state's lock, and the file that takes its place: what a link leads to stays as it is."""
        (self.folder / "a1.json.lock").symlink_to(self.victim)
        with self.assertRaises(UnsafeFile):
            self.station()
        (self.folder / "a1.json.lock").unlink()
        (self.folder / "a1.json.new").symlink_to(self.victim)
        self.station().import_map(MAP)
        self.assertEqual((self.victim.read_text(encoding="ascii"), self.victim.stat().st_mode & 0o777), ("x", 0o644))

    def test_whose_link_is_followed(self):
        """The user's own leads to one file with one lock; another user's, also of a folder on the way, leads nowhere."""
        (self.folder / "own").symlink_to(self.victim)
        (self.folder / "way").symlink_to(self.folder)
        names = ("own", "way/own", "way/new.json")
        wanted = [self.victim, self.victim, self.folder / "new.json"]
        self.assertEqual([own_path(self.folder / it) for it in names], [it.resolve() for it in wanted])
        other = mock.patch("os.geteuid", return_value=os.geteuid() + 1)
        if os.geteuid() == 0:  # whose own links everybody follows
            other = contextlib.nullcontext()
            for name in ("own", "way"):
                os.chown(self.folder / name, 65534, 65534, follow_symlinks=False)
        with other, mock.patch("wanekupo.common.files.tested_folder"):
            for name in names:
                self.assertRaisesRegex(UnsafeFile, "another user's link", own_path, self.folder / name)
            self.assertEqual(own_path(self.victim), self.victim.resolve())

    def test_a_file_in_the_new_ones_place(self):
        """It goes, whatever its mode was: the state is this process's alone. A hard link's file stays as it is."""
        new = self.folder / "a1.json.new"
        os.link(self.victim, new)
        new.chmod(0o666)
        with self.station() as station:
            station.import_map(MAP)
            self.assertEqual(((self.folder / "a1.json").stat().st_mode & 0o777, new.exists()), (0o600, False))
        self.assertEqual(self.victim.read_text(encoding="ascii"), "x")

    def test_a_write_that_fails(self):
        """As on a full disk: what was there stays, and nothing is left beside it."""
        with mock.patch("os.fsync", side_effect=OSError(28, "No space left on device")):
            with self.assertRaises(OSError):
                replace_bytes(self.victim, b"y", 0o600)
        self.assertEqual([it.name for it in self.folder.glob("victim*")], ["victim"])
        self.assertEqual(self.victim.read_text(encoding="ascii"), "x")

    def test_modes(self):
        old, state = os.umask(0), self.folder / "a1.json"
        try:
            self.begun()
        finally:
            os.umask(old)
        files = [state, self.folder / "a1.json.lock", self.folder / "a1.journal"]
        self.assertEqual([file.stat().st_mode & 0o777 for file in files], [0o600] * 3)
        files[1].chmod(0o666)
        self.station().close()
        self.assertEqual(files[1].stat().st_mode & 0o777, 0o600)
        for file, call in ((state, self.station), (files[2], lambda: self.journal())):
            for mode in (0o620, 0o602):
                file.chmod(mode)
                with self.assertRaises(UnsafeFile) as found:
                    call()
                self.assertIn("chmod 600", str(found.exception))
            file.chmod(0o600)
            call().close()

    def test_folders_that_others_can_write(self):
        """Of the group, of all, and sticky as /tmp: neither a state nor a log is begun in one."""
        folder = self.folder / "open"
        folder.mkdir()
        for mode in (0o770, 0o707, 0o1777):
            folder.chmod(mode)
            for call in (lambda: self.station(file="open/a1.json"), lambda: self.journal("open/a1.journal")):
                with self.assertRaises(UnsafeFile) as found:
                    call()
                self.assertIn("chmod go-w", str(found.exception))
            self.assertEqual(list(folder.iterdir()), [])
        folder.chmod(0o755)
        self.station(file="open/a1.json").close()
        (self.folder / "link").symlink_to("open")
        folder.chmod(0o777)
        with self.assertRaises(UnsafeFile):
            self.station(file="link/a1.json")

    @NEEDS_ROOT
    def test_files_and_folders_of_another_user(self):
        folder = self.folder / "others"
        folder.mkdir()
        os.chown(folder, OTHER, OTHER)
        with self.assertRaises(UnsafeFile):
            self.station(file="others/a1.json")
        os.chown(folder, 0, 0)
        self.begun()
        for name, call in (("a1.json.lock", self.station), ("a1.json", self.station), ("a1.journal", self.journal)):
            os.chown(self.folder / name, OTHER, OTHER)
            with self.assertRaises(UnsafeFile) as found:
                call()
            self.assertIn("another user's", str(found.exception))
            os.chown(self.folder / name, 0, 0)
        self.station().close()

    def test_what_is_no_plain_file(self):
        for name in ("a1.json.lock", "a1.json"):
            os.mkfifo(self.folder / name)
            with self.assertRaises(UnsafeFile):
                self.station()
            (self.folder / name).unlink()
        with self.assertRaises((UnsafeFile, OSError)):
            self.journal("/dev/null")


class Keys(StationCase):
    """What a read-back shows of a key is in the state file until its reply is there, or the one to a later request where
    it was refused, and no longer."""

    def setUp(self):
        super().setUp()
        self.proxy_of = self.proxy()
        self.seat = self.prepared(url=self.proxy_of.url, patience=0)
        self.held = self.chip()
        self.seat.register(MAC, "o1", DIGEST, self.held.read())
        self.seat.plan(MAC, WISHES)
        self.held.burn(self.seat.device(MAC).batch1)

    def words_in(self, file="a1.json"):
        return [word for word in key_words() if word in (self.folder / file).read_text(encoding="ascii")]

    def test_until_its_reply(self):
        self.proxy_of.faults = ["lost reply"]
        with self.assertRaises(NoReply):
            self.seat.read_back(MAC, self.held.read())
        self.assertEqual(self.words_in(), key_words())
        self.seat.close()
        with self.station() as seat:  # after a restart too the same bytes are sent again
            done = seat.finish()
            self.assertEqual((done.path, done.reply["outcome"]), ("/v1/readback", "match"))
            self.assertEqual(self.words_in(), [])
            self.assertEqual((done.members["chip"], seat.finish()), (MAC, done))
            self.assertEqual(seat.read_back(MAC, self.held.read()).outcome, "short")
            self.assertEqual((self.words_in(), (self.folder / "a1.json.new").exists()), ([], False))
        self.assertEqual([note for event, note in self.ledger() if event == "read"], ["match", "short"])

    def test_refused(self):
        """A read-back that is refused may come late, and is kept for that, byte for byte; behind the next request that
        is accepted nothing of it is left."""
        self.seat.settle(MAC, self.held)
        self.held.chip.blocks[0] &= ~(1 << 16)  # the read lock, so that the key is shown again
        with self.assertRaises(Refused):
            self.seat.read_back(MAC, self.held.read())
        self.assertEqual(self.words_in(), key_words())
        self.seat.import_map(MAP)
        self.assertEqual((self.words_in(), (self.folder / "a1.json.new").exists()), ([], False))

    def test_of_an_earlier_version(self):
        """A state file that has them in its last request loses them when it is opened."""
        blocks = self.held.read()
        self.seat.read_back(MAC, blocks)
        self.seat.close()
        file = self.folder / "a1.json"
        state = json.loads(file.read_text(encoding="ascii"))
        state["last"]["body"] = json.dumps({"nr": state["next"] - 1, "chip": MAC, "blocks": blocks})
        file.write_text(json.dumps(state), encoding="ascii")
        with self.assertRaises(BadStateFile):
            self.station(token="hello")
        self.assertEqual(self.words_in(), key_words())
        with self.station() as seat:
            self.assertEqual(self.words_in(), [])
            self.assertEqual(seat.finish().reply["outcome"], "match")


class Cut(StationCase):
    """A log whose last line a crash cut, at each of its bytes."""

    def test_at_each_byte_of_the_last_line(self):
        """Of a reply and of a request: the whole lines stay, what follows is read, and a cut end alone is passed over."""
        with self.station(journal=self.journal()) as station:
            station.import_map("# \u0416\n" + MAP)
            station.make_order(**ORDER)
        whole = (self.folder / "a1.journal").read_bytes().splitlines(keepends=True)
        self.enterContext(mock.patch.object(os, "fsync"))  # nothing is cut here by a power failure
        for lines in (whole, whole[:-1]):
            before, last = b"".join(lines[:-1]), lines[-1]
            for end in range(len(last) + 1):
                file = self.folder / f"cut{end}"
                file.write_bytes(before + last[:end])
                file.chmod(0o600)
                kept = before + (last if end == len(last) else b"")
                self.assertEqual(len(list(strict_lines(file))), kept.count(b"\n"), end)
                journal = Journal(file)
                self.assertEqual(file.read_bytes(), kept, end)
                journal.asked("/v1/ship", json.dumps({"nr": 3, "chip": MAC}))
                journal.answered(3, 404, {"error": "unknown_device", "no": 15})
                journal.close()
                self.assertEqual([it.path for it in requests_of(file)][-1], "/v1/ship", end)
                self.assertEqual(file.read_bytes().count(b"\n"), kept.count(b"\n") + 2)
                file.unlink()

    def test_zeros_in_its_place(self):
        """As a file system may leave them where a line was to be."""
        file = self.folder / "zeros"
        for before in (b"", b'{"at":"2026-11-27T06:00:00Z","resynchronized":1}\n'):
            file.write_bytes(before + bytes(100))
            Journal(file).close()
            self.assertEqual(file.read_bytes(), before)

    def test_a_file_of_another_kind(self):
        """One that was named by mistake, and has no line feed or doesn't begin as a log, stays as it is."""
        file = self.folder / "notes"
        for text in (b"remember", b"one\ntwo", b"PK\3\4" + bytes(9)):
            file.write_bytes(text)
            with self.assertRaises(BadJournal):
                Journal(file)
            self.assertEqual(file.read_bytes(), text)
