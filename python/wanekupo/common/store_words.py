"""The words with which root started one of its tools: those that another user may have put there are none."""

import os
import pwd
import re
import tempfile
import time
from pathlib import Path

from wanekupo.common.rooms import ROOMS
from wanekupo.common.store_user import UserError, opened

# What stays of an environment, as a whole: how texts and times are shown. A locale with a slash is a folder, and a zone
# with one a file.
GOOD = re.compile(r"(?:TERM|LANG|LC_[A-Z]+)=[A-Za-z0-9_.@+-]*|TZ=[A-Za-z]{3,8}[0-9:+-]*")

# Whom these said, before they were cleaned away, that root is: no more than words.
CALLER: dict[str, str] = {}
CLAIMS = ("SUDO_USER", "SSH_USER_AUTH")


def clean_words() -> None:
    """Leaves of root's PATH the folders alone in which nobody else can put a program, and of the other words those that
    lead nothing elsewhere: who became root by `su` may have those of the user from whom he came. Folders for a moment
    are made where nobody else renames what is root's."""
    if os.geteuid():
        return
    for name in CLAIMS:
        CALLER.setdefault(name, os.environ.get(name, ""))
    kept = [it for it in os.get_exec_path() if _is_roots(it)]
    words = {name: value for name, value in os.environ.items() if GOOD.fullmatch(f"{name}={value}")}
    words["PATH"] = ":".join(kept) or "/usr/local/sbin:/usr/local/bin:/usr/sbin:/usr/bin"
    words["HOME"] = pwd.getpwuid(0).pw_dir
    os.environ.clear()
    os.environ.update(words)
    time.tzset()
    tempfile.tempdir = str(ROOMS)


def _is_roots(folder: str) -> bool:
    """Whether a folder is root's, through no link, and nobody else writes there or puts another in its place."""
    if not folder.startswith("/"):
        return False
    try:
        handle = opened(Path(folder))
    except (UserError, OSError):
        return False
    try:
        found = os.fstat(handle)
    finally:
        os.close(handle)
    return found.st_uid == 0 and not found.st_mode & 0o022
