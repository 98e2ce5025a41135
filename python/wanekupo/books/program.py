"""A proved program that answers requests over a store in memory, which goes with it."""

import contextlib
import os
import shutil
import stat
import subprocess
import threading
from itertools import islice
from pathlib import Path
from typing import Any, Self

from wanekupo.common.errors import BadSettings, StationError
from wanekupo.common.store_user import LONGEST, opened

# The longest line of a reply's head, the most lines of one, and how much is read of what it says in the end. A reply is
# longer than a server's may be: the ledger of a chip that a bench read back for days has some megabytes.
LONGEST_LINE, MOST_FIELDS, SAID, LONGEST_REPLY = 8192, 64, 200, 1 << 28


class Unanswered(StationError):
    """The program ended, or answered otherwise than by HTTP."""

    advice = "Give the program of the release that served this store."


def program_named(name: str) -> Path:
    """The program of a name. Root runs none that another user may write, or replace."""
    found = shutil.which(name)
    if not found:
        told = "Install the package wanekupo of the same version, or name its station by --program."
        raise BadSettings(f"there is no program {name}, and an audit has it answer all lines once more", told)
    path = Path(found).resolve()
    if os.geteuid() == 0:
        os.close(opened(path.parent))
        if (state := path.stat()).st_uid or state.st_mode & (stat.S_IWGRP | stat.S_IWOTH):
            told = f"another user may write {path}, so root doesn't run it"
            raise BadSettings(told, f"chown root {path}; chmod go-w {path}")
    return path


class Program:
    """The program as a child of this process, for some seconds. It has the words of a site in a folder."""

    def __init__(self, path: Path, site: str, folder: Path, seconds: float = LONGEST):
        (folder / "site.toml").write_text(site, encoding="utf-8")
        try:
            self._child = subprocess.Popen(
                [str(path), "replay", "--site", "site.toml"], cwd=folder, env=dict[str, str](), start_new_session=True,
                stdin=subprocess.PIPE, stdout=subprocess.PIPE, stderr=subprocess.PIPE,
            )  # fmt: skip
        except OSError as error:
            raise Unanswered(f"{path} can't be run: {error.strerror}") from error
        assert self._child.stdin and self._child.stdout and self._child.stderr
        self._in, self._out, self._said = self._child.stdin, self._child.stdout, self._child.stderr
        self._limit = threading.Timer(seconds, self._child.kill)
        self._limit.start()

    def __enter__(self) -> Self:
        return self

    def __exit__(self, *_: Any) -> None:
        self._limit.cancel()
        with contextlib.suppress(OSError), self._child:  # what was written may be left
            self._child.kill()

    def ask(self, token: str, method: str, target: str, body: bytes = b"") -> tuple[int, str]:
        """The status and the body of the reply to a request."""
        head = f"{method} {target} HTTP/1.1\r\nAuthorization: Bearer {token}\r\nContent-Length: {len(body)}\r\n\r\n"
        try:
            self._in.write(head.encode() + body)
            self._in.flush()
        except OSError as error:
            raise self._ended() from error
        lines = [it.rstrip() for it in islice(iter(lambda: self._out.readline(LONGEST_LINE), b"\r\n"), MOST_FIELDS)]
        fields = {name.lower(): value.strip() for name, _, value in (it.partition(b":") for it in lines[1:])}
        status, length = b"".join(lines[:1]).split(b" ")[1:2], fields.get(b"content-length", b"")
        if not (status and status[0].isdigit() and length.isdigit() and int(length) <= LONGEST_REPLY):
            raise self._ended()
        return int(status[0]), self._out.read(int(length)).decode("utf-8", "replace")

    def _ended(self) -> Unanswered:
        self._child.kill()
        said = self._said.read(SAID).decode("utf-8", "replace").strip()
        return Unanswered(f"the program ended with status {self._child.wait()}: {said or 'it said nothing'}")
