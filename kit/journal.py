"""The station's own log, read while the station runs and at the end (docs/integrate/api.md#the-log)."""

from __future__ import annotations

import json
from pathlib import Path
from typing import Any, Mapping, Optional

from kit.protocol import AT, NAMED, digest, known


# The members of a reply's line beside `at`.
REPLY = (("nr", int, "whole number"), ("status", int, "whole number"), ("reply", dict, "object of JSON"))


def is_asked(line: Mapping[str, Any]) -> bool:
    return "asked" in line


class Journal:
    """A log. Its lines are those that end with a line feed."""

    def __init__(self, file: Path):
        self.file = file

    def data(self) -> bytes:
        try:
            return self.file.read_bytes()
        except OSError:
            return b""

    def lines(self) -> list[dict[str, Any]]:
        """The lines that are objects of JSON; what else stands there `faults` tells."""
        found = []
        for line in self.data().split(b"\n")[:-1]:
            try:
                told = json.loads(line)
            except ValueError:
                continue
            if isinstance(told, dict):
                found.append(told)
        return found

    def missing(self, path: str, members: Mapping[str, Any], is_last: bool) -> Optional[str]:
        """What is wrong with a request's line, which has to be the last request's, unless that may be behind it; None
        where nothing is."""
        asked = [line for line in self.lines() if is_asked(line)]
        own = [line for line in asked if line.get("path") == path and line["asked"].get("nr") == members["nr"]]
        last = (asked if is_last else own or asked or [{}])[-1] if asked else {}
        found = last.get("asked")
        if self.has_cut_line():
            return "was sent, and its line in the log is written behind one that a crash had cut"
        if not isinstance(found, dict) or found.get("nr") != members["nr"] or last.get("path") != path:
            return "was sent before its line was in the log"
        if path in NAMED and last.get("digest") != digest(path, members):
            return f"has the digest {last.get('digest')} in the log, and is {digest(path, members)}"
        try:
            is_alike = known(path, found) == known(path, members)
        except (KeyError, TypeError, ValueError):
            is_alike = False
        return None if is_alike else "has other members in the log than were sent"

    def has_cut_line(self) -> bool:
        """Whether the last line that ends with a line feed is no JSON."""
        lines = self.data().split(b"\n")[:-1]
        try:
            json.loads(lines[-1] if lines else b"{}")
        except ValueError:
            return True
        return False

    def has_reply(self, number: int, status: int, reply: Any) -> bool:
        """Whether a reply to the last requests with a number is there."""
        return any(
            line.get("nr") == number and line.get("status") == status and line.get("reply") == reply
            for line in self.lines()
        )

    def faults(self) -> list[str]:
        """What is wrong with the form of the lines."""
        data, found = self.data(), []
        if data and not data.endswith(b"\n"):
            found.append("its last line has no line feed, though the station ended by itself")
        for number, line in enumerate(data.split(b"\n")[:-1], 1):
            try:
                told = json.loads(line)
            except ValueError:
                told = None
            if wrong := _wrong(told):
                found.append(f"line {number} {wrong}")
        return found


def _wrong(line: Any) -> Optional[str]:
    """What is wrong with a line."""
    if not isinstance(line, dict):
        return "is no object of JSON"
    if not AT.fullmatch(str(line.get("at"))):
        return f"has the time {line.get('at')!r}, and none as 2026-11-27T06:00:00Z"
    if is_asked(line):
        asked, path = line["asked"], line.get("path")
        if not isinstance(asked, dict) or path not in NAMED or "nr" not in asked:
            return "is no request: path, asked with nr, and digest"
        if any(not isinstance(block, str) for block in asked.get("blocks", ())):
            return "has a block's words, which may be a key, in place of their SHA-256"
        return None if line.get("digest") == digest(path, asked) else "has another digest than its members"
    if "resynchronized" in line:
        return None
    for name, form, told in REPLY:
        if not isinstance(line.get(name), form):
            if name not in line:
                return f"is no request, and has no {name}"
            return f"is neither a request nor a reply: its {name} is no {told}"
    return None
