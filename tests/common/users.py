"""Another user than root, as whom root has a test go on."""

import contextlib
import os
import tempfile
from collections.abc import Iterator

# nobody, and nogroup.
USER = 65534
AS_USER = ["setpriv", f"--reuid={USER}", f"--regid={USER}", "--clear-groups", "--"]


@contextlib.contextmanager
def umask(mask: int) -> Iterator[None]:
    """Files that are made meanwhile lack these modes."""
    before = os.umask(mask)
    try:
        yield
    finally:
        os.umask(before)


@contextlib.contextmanager
def another_user() -> Iterator[None]:
    """Where root came: goes on as another user, as a store is never root's. What is started has no way back."""
    if os.geteuid():
        yield
        return
    groups, home = os.getgroups(), os.environ["HOME"]
    os.environ["HOME"] = tempfile.gettempdir()
    os.setgroups([])
    os.setresgid(USER, USER, 0)
    os.setresuid(USER, USER, 0)
    try:
        yield
    finally:
        os.setresuid(0, 0, 0)
        os.setresgid(0, 0, 0)
        os.setgroups(groups)
        os.environ["HOME"] = home
