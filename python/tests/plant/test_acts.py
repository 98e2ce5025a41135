"""What is noted of who had root do what. Expected are the environment's own words, and sshd(8)."""

import json
import os
import re
from pathlib import Path
from types import SimpleNamespace

import pytest

from wanekupo.common import acts, store_words
from wanekupo.common.errors import PlantError
from wanekupo.common.process import end_tool

KEY = "ssh-ed25519 AAAAC3NzaC1lZDI1NTE5AAAAIOMqqnkVzrm0SdG6UOoqKLsabgH5C9okWi0dh2l9GKJl"
TYPED = "station-token revoke 'a1 x'"


@pytest.fixture(name="file")
def noted_file(tmp_path: Path, monkeypatch: pytest.MonkeyPatch) -> Path:
    """Root's file, in a folder that this user alone writes; `anna` came by sudo, whose word is cleaned away."""
    tmp_path.chmod(0o755)
    root = {**vars(os), "geteuid": lambda: 0, "environ": {"SUDO_USER": "anna\n"}, "get_exec_path": lambda: []}
    monkeypatch.setattr(store_words.tempfile, "tempdir", None)
    monkeypatch.setattr(store_words, "CALLER", {})
    monkeypatch.setattr(store_words, "os", SimpleNamespace(**root))
    store_words.clean_words()
    store_words.clean_words()
    for name, value in (("FILE", tmp_path / "acts"), ("CALLER", store_words.CALLER), ("os", SimpleNamespace(**root))):
        monkeypatch.setattr(acts, name, value)
    monkeypatch.setattr(acts.syslog, "syslog", lambda priority, line: None)
    monkeypatch.setattr(acts.sys, "argv", ["station-token", "revoke", "a1 x"])
    return tmp_path / "acts"


def refuse() -> None:
    raise PlantError("no seat")


def test_the_lines_of_a_run(file: Path, monkeypatch: pytest.MonkeyPatch) -> None:
    """Where it begins and where it ended, also where it was refused or had a fault: each a line, whatever was typed.
    Another user notes nothing."""
    assert end_tool("station-token", lambda: None) == 0 and end_tool("station-token", refuse) == 1
    with pytest.raises(ZeroDivisionError):
        acts.run_noted("station-token", lambda: 1 // 0)
    monkeypatch.setattr(acts.os, "geteuid", lambda: 7)
    assert acts.run_noted("station-site", lambda: 3) == 3
    lines = [json.loads(it) for it in file.read_text("ascii").splitlines()]
    ends = ("status 0", "status 1", "no status: it was refused, or failed")
    assert [it["what"] for it in lines] == [it for end in ends for it in (TYPED, f"{TYPED}: ended with {end}")]
    assert {it["sudo"] for it in lines} == {"anna\n"} and file.stat().st_mode & 0o777 == 0o600


@pytest.mark.parametrize("kind", ["link", "folder", "others", "open folder"])
def test_a_file_that_somebody_put_there(file: Path, capfd: pytest.CaptureFixture[str], kind: str) -> None:
    """Nothing is written to it, that is told, and the tool does its work."""
    aim = file if kind == "others" else file.with_name("aim")
    aim.write_text("his\n", encoding="ascii")
    aim.chmod(0o666)
    if kind == "link":
        file.symlink_to(aim)
    elif kind == "folder":
        file.mkdir()
    elif kind == "open folder":
        file.parent.chmod(0o777)
    assert acts.run_noted("station-token", lambda: 0) == 0
    assert aim.read_text("ascii") == "his\n" and (kind != "open folder" or not file.exists())
    assert capfd.readouterr().err.count(f"{file} doesn't have who did this: ") == 2


@pytest.mark.parametrize("owner, name, key", [(0, "sshauth.a1", "Anna, laptop"), (7, "sshauth.a1", None),
                                              (0, "shadow", None), (0, "sshauth.none", None)])  # fmt: skip
def test_whose_key_it_was(file: Path, monkeypatch: pytest.MonkeyPatch, owner: int, name: str, key: str | None) -> None:
    """The comment of the key. A file of another name, or of another user, is passed over."""
    (keys := file.with_name("keys")).write_text(f"ssh-rsa AAAAB3 Bert\nno-pty {KEY} Anna, laptop\n", encoding="ascii")
    for it in ("sshauth.a1", "shadow"):
        file.with_name(it).write_text(f"publickey {KEY}\n", encoding="ascii")
    monkeypatch.setattr(acts, "KEYS", keys)
    monkeypatch.setattr(acts, "SSHD", re.compile(rf"{file.parent}/sshauth\.\w+"))
    monkeypatch.setattr(acts, "CALLER", {"SSH_USER_AUTH": str(file.with_name(name))})
    monkeypatch.setattr(acts.os, "lstat", lambda path: SimpleNamespace(st_uid=owner))
    assert acts.caller().get("key") == key
