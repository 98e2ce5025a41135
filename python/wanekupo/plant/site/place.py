"""Where a store and its site are, and the programs that python/bin/station-site runs there.

The program runs as the store's user (store_user.py): whatever a file may bring a program to do is done as that user,
and never as root (docs/decisions.md#15-a-backup-is-made-by-the-stores-user). It gets texts by descriptors, and no name.
"""

import argparse
import re
import shlex
import shutil
import subprocess
from collections.abc import Iterator
from contextlib import AbstractContextManager, contextmanager
from functools import cached_property
from pathlib import Path

from wanekupo.plant.trial_copy import Backup, copy_files, copy_running, newest_backup
from wanekupo.common.process import own_command
from wanekupo.common.rooms import room
from wanekupo.common.store_user import (
    MINUTE, SMALL, SQLITE, StoreFolder, StoreUser, read_small, readable, reader_for, shown,
)  # fmt: skip
from wanekupo.common.token_file import TokenError


def text_in(path: Path) -> str:
    """A text as it is, with its ends of lines: of a plain file, as another user may have put a pipe or a link there."""
    data = read_small(path, most=SMALL + 1)  # of one that is too long the program says so
    try:
        return data.decode()
    except UnicodeDecodeError as error:
        line = data.count(b"\n", 0, error.start) + 1
        raise TokenError(1, f"{path}:{line}: a byte that is no UTF-8 (the program: cannot read {path})") from None


class Place:
    """The files and the commands of one store."""

    def __init__(self, args: argparse.Namespace):
        self.site, self.db, self.backups = (Path(it).absolute() for it in (args.site, args.db, args.backups))
        self.next = self.site.with_name(f"{self.site.stem}.next{self.site.suffix}")
        self.plan = self.site.with_name(f"{self.site.stem}.growth")
        self.closed = self.site.with_name(f"{self.site.stem}.closed.json")
        self.tokens = Path(args.tokens)
        self.program = args.program
        self.args = args

    def token_words(self) -> list[str]:
        """The command station-token, for this site's tokens."""
        return [own_command("station-token"), "--file", str(self.tokens), *shlex.split(self.args.token_words)]

    @cached_property
    def store(self) -> StoreFolder:
        """The store's folder and its user; the store is there."""
        found = StoreFolder(self.db)
        found.size()
        return found

    @property
    def user(self) -> StoreUser:
        return self.store.user

    def ran(self, *words: str, given: str = "") -> "subprocess.CompletedProcess[str]":
        try:
            return subprocess.run(words, input=given, capture_output=True, text=True, errors="replace", check=False)
        except OSError as error:
            raise TokenError(1, f"{words[0]}: {error.strerror}") from None

    def service(self, command: str) -> tuple[bool, str]:
        """Whether a command of the service did it, and what it said."""
        done = self.ran(*shlex.split(command))
        return done.returncode == 0, (done.stderr or done.stdout).strip()

    @cached_property
    def reader(self) -> StoreUser:
        """As whom the program reads a text. It need not be there."""
        if not shutil.which(self.program):
            raise TokenError(1, f"there is no program {self.program}, which says what a text is: --program P")
        return reader_for(self.db)

    def refusal(self, command: str, text: str, old: str | None = None) -> str:
        """What `check-site`, from an old text where there is one, or `check-map` says of a text; nothing where the
        program takes it."""
        with readable(text) as new, readable(old or "") as before:
            more = [] if old is None else ["--from", f"/proc/self/fd/{before}"]
            words = [self.program, command, f"/proc/self/fd/{new}", *more]
            return refused(self.reader.run(*words, fds=(new, before), seconds=MINUTE))

    def store_refusal(self, text: str, copy: Path) -> str:
        """What the program says of a copy of the store under a text; nothing where it opens it."""
        with readable(text) as site:
            words = [self.program, "replay", "--site", f"/proc/self/fd/{site}", "--db", str(copy), "--existing"]
            return refused(self.user.run(*words, fds=(site,)))

    def newest_backup(self) -> Backup | None:
        return newest_backup(self.user, self.backups)

    def room(self, needed: int) -> AbstractContextManager[Path]:
        """A folder of the store's user for a copy, which is gone at the end."""
        return room(self.user, needed, Path(self.args.room))

    @contextmanager
    def copied(self, db: Path, size: int) -> Iterator[Path]:
        """A copy of a store's two files, as the store's user made it."""
        with self.room(size) as own:
            yield copy_files(self.user, db, own / "store")

    @contextmanager
    def copied_running(self) -> Iterator[Path]:
        """A copy of the store as it is now, though its server runs: by a snapshot, as backups are made."""
        with self.room(self.size()) as own:
            yield copy_running(self.db, self.backups, self.args.snapshot, own / "store")

    def size(self) -> int:
        return self.store.size() + self.store.size("-wal")

    def held_text(self, texts: list[str]) -> str:
        """The text that the store holds, whose server is stopped. The program opens a copy first, by one of the texts:
        so it is a store and nothing else. sqlite3 reads another copy, in its safe mode."""
        with self.copied(self.db, self.size()) as opened:
            said = [self.store_refusal(text, opened) for text in texts]
            if all(said):
                raise TokenError(4, f"the program opens no copy of {self.db}: {said[0]}")
        with self.copied(self.db, self.size()) as copy:
            words = (*SQLITE, str(copy), "SELECT hex(body) FROM site_text")
            done = self.user.run(*words)
        if done.returncode or not re.fullmatch(r"[0-9A-F]+\n", done.stdout):
            raise TokenError(4, f"sqlite3 can't read {self.db}: {shown(done.stderr).strip()}")
        return bytes.fromhex(done.stdout.strip()).decode()


def refused(done: "subprocess.CompletedProcess[str]") -> str:
    """Why the program refused what it was given; nothing where it took it."""
    return "" if done.returncode == 0 else (shown(done.stderr).strip() or f"status {done.returncode}")
