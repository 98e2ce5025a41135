"""Whether the station syncs what it keeps before it sends a request, by strace's lines.

A file is changed by a write, a folder by a rename in it; fsync, fdatasync, sync and files that were opened with O_SYNC
or O_DSYNC keep it. Where a POST request goes to the proxy, no file of the station's state and not its log may be
changed and unkept. What another process of a database does, or a ring of io_uring, isn't seen.
"""

from __future__ import annotations

import os
import re
import shutil
import subprocess
from dataclasses import dataclass, field
from pathlib import Path
from typing import Iterator, Sequence

WRITES = ("write", "writev", "pwrite64", "pwritev", "pwritev2", "ftruncate", "truncate", "sendfile", "copy_file_range")
SENDS = ("write", "writev", "sendto", "sendmsg")
KEEPS = ("fsync", "fdatasync", "msync", "sync", "syncfs")
RENAMES = ("rename", "renameat", "renameat2", "link", "linkat")
CALLS = sorted({*WRITES, *SENDS, *KEEPS, *RENAMES, "openat", "open"})

LINE = re.compile(r"(\d+) +(?:<\.\.\. (\w+) resumed>|(\w+)\()(.*)")
FILE = re.compile(r"(?:\d+|AT_FDCWD)<(/[^>]*)>")
NAMES = re.compile(r'"((?:[^"\\]|\\.)*)"')
PEER = re.compile(r"\d+<TCP(?:v6)?:\[.*?:(\d+)->.*?:(\d+)\]>")


def tracing(out: Path) -> list[str]:
    """The words before a command that have its calls written into a file."""
    options = ["-f", "-qq", "-yy", "-s", "8", "--seccomp-bpf", "-e", "signal=none", "-e", f"trace={','.join(CALLS)}"]
    return ["strace", *options, "-o", str(out), "--"]


def can_trace() -> bool:
    """Whether there is a strace that may trace here."""
    if not shutil.which("strace"):
        return False
    done = subprocess.run([*tracing(Path(os.devnull)), "true"], stdin=subprocess.DEVNULL, capture_output=True)
    return not done.returncode


@dataclass
class Unkept:
    """A POST request that was sent by a port of the station's, its place on that connection, and what wasn't synced."""

    port: int
    place: int
    files: list[str]


@dataclass
class Trace:
    """What strace's lines tell of some files of a folder, by their names, and of the requests to a port."""

    folder: str
    names: Sequence[str]
    port: int
    changed: set[str] = field(default_factory=set)
    synced_by_itself: set[str] = field(default_factory=set)
    sent: dict[int, int] = field(default_factory=dict)
    unfinished: dict[str, str] = field(default_factory=dict)

    def _is_watched(self, path: str) -> bool:
        folder, name = os.path.split(path)
        is_here = folder in ("", ".") or os.path.realpath(folder) == os.path.realpath(self.folder)
        return is_here and not name.endswith(".lock") and any(name.startswith(it) for it in self.names)

    def _is_folder(self, path: str) -> bool:
        return os.path.realpath(path) == os.path.realpath(self.folder)

    def requests(self, lines: Iterator[str]) -> Iterator[Unkept]:
        """Each POST request that was sent, with what wasn't synced then."""
        for line in lines:
            found = LINE.match(line)
            if not found:
                continue
            process, resumed, name, rest = found.groups()
            if name and rest.endswith("<unfinished ...>"):
                self.unfinished[process] = rest
                if name in SENDS:
                    yield from self._sent(rest)
                if name in WRITES:
                    self._wrote(rest)
                continue
            call = resumed or name
            words = self.unfinished.pop(process, "") + rest if resumed else rest
            if call in SENDS and not resumed:
                yield from self._sent(words)
            self._done(call, words)

    def _sent(self, words: str) -> Iterator[Unkept]:
        peer = PEER.match(words)
        if not peer or int(peer[2]) != self.port or '"POST ' not in words:
            return
        port = int(peer[1])
        place = self.sent[port] = self.sent.get(port, -1) + 1
        yield Unkept(port, place, sorted(self.changed))

    def _wrote(self, words: str) -> None:
        file = FILE.match(words)
        if file and self._is_watched(file[1]) and os.path.basename(file[1]) not in self.synced_by_itself:
            self.changed.add(os.path.basename(file[1]))

    def _done(self, call: str, words: str) -> None:
        """What a call changed or kept, which is over."""
        file = FILE.match(words)
        if call in ("open", "openat"):
            opened = FILE.search(words.rpartition(" = ")[2])
            if opened and self._is_watched(opened[1]):
                is_kept = "O_SYNC" in words or "O_DSYNC" in words
                change = self.synced_by_itself.add if is_kept else self.synced_by_itself.discard
                change(os.path.basename(opened[1]))
        elif call == "copy_file_range":
            self._wrote(words.partition(", ")[2].partition(", ")[2])  # its target comes third
        elif call in WRITES:
            self._wrote(words)
        elif call in RENAMES and words.rstrip().endswith("= 0"):
            self._renamed(NAMES.findall(words))
        elif call in ("sync", "syncfs", "msync"):
            self.changed.clear()
        elif call in KEEPS and file and self._is_folder(file[1]):
            self.changed.discard("the folder, behind a rename,")
        elif call in KEEPS and file:
            self.changed.discard(os.path.basename(file[1]))

    def _renamed(self, names: Sequence[str]) -> None:
        if len(names) != 2 or not self._is_watched(names[1]):
            return
        old, new = map(os.path.basename, names)
        self.changed.discard(new)
        if old in self.changed:
            self.changed.discard(old)
            self.changed.add(new)
        self.changed.add("the folder, behind a rename,")
