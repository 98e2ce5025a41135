"""Who had root do what: a line where a tool begins and one where it ends, in syslog and in a file that seals take up.

Root alone writes that file, and may write it anew; a seal that somebody else keeps shows that (docs/line/audit.md). No
tool waits for it: what can't be noted is told, since a takeover at night comes first.
"""

import contextlib
import os
import pwd
import re
import shlex
import sys
import syslog
from collections.abc import Callable
from pathlib import Path

from wanekupo.common.errors import StationError
from wanekupo.common.files import opened_own, tested_folder
from wanekupo.common.moments import now_text
from wanekupo.common.store_user import UserError, read_small, shown
from wanekupo.common.store_words import CALLER
from wanekupo.common.texts import compact_json

# The file, whose folder the package makes; root's list of keys, whose comments say whose they are; and sshd's files.
FILE, KEYS = Path("/var/log/station/acts"), Path("/root/.ssh/authorized_keys")
SSHD = re.compile(r"/tmp/sshauth\.\w+")
# The most letters of a name and of a command.
NAMED, TYPED = 64, 512


def caller() -> dict[str, str]:
    """Who started this run: `login` is the session's user, as the kernel has it; `sudo` whom sudo names; `key` the
    comment of root's key, where sshd says which one came (ExposeAuthInfo)."""
    found = {"login": "", "sudo": CALLER.get("SUDO_USER", ""), "key": ""}
    with contextlib.suppress(OSError, ValueError, KeyError):
        found["login"] = pwd.getpwuid(int(Path("/proc/self/loginuid").read_text("ascii"))).pw_name
    with contextlib.suppress(OSError, UserError, ValueError):
        found["key"] = _comment(CALLER.get("SSH_USER_AUTH", ""))
    return {name: shown(it, NAMED) for name, it in found.items() if it}


def _comment(file: str) -> str:
    """The comment of the key that a file of sshd's has. Nothing is read of another name, or of another user's file."""
    if not SSHD.fullmatch(file) or os.lstat(file).st_uid:
        return ""
    key = read_small(Path(file)).decode(errors="replace").strip().removeprefix("publickey ")
    found = [it.partition(key) for it in read_small(KEYS).decode(errors="replace").splitlines()]
    return next((comment.strip() for _, same, comment in found if same), "")


def note_act(what: str) -> None:
    """Notes what begins or has ended."""
    line = compact_json({"at": now_text(), **caller(), "what": shown(what, TYPED)}, sort_keys=True)
    syslog.openlog("wanekupo", 0, syslog.LOG_AUTHPRIV)
    syslog.syslog(syslog.LOG_NOTICE, line)
    try:
        if FILE.parent.is_dir():
            tested_folder(FILE.parent)
            with open(opened_own(FILE, os.O_WRONLY | os.O_CREAT | os.O_APPEND), "ab", buffering=0) as out:
                out.write(f"{line}\n".encode("ascii"))
                os.fsync(out.fileno())
    except (OSError, StationError) as error:
        print(shown(f"{FILE} doesn't have who did this: {error}"), file=sys.stderr)


def run_noted(name: str, call: Callable[[], int]) -> int:
    """The status of a tool's work, which root's notes have in front and behind. One that was killed has no end."""
    if os.geteuid():
        return call()
    what, status = shlex.join([name, *sys.argv[1:]]), "no status: it was refused, or failed"
    note_act(what)
    try:
        status = f"status {(done := call())}"
        return done
    finally:
        note_act(f"{what}: ended with {status}")
