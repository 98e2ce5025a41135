"""A seat's state file: the number of its next request, the request under way, the last one with its reply, those of
which a late copy may still be accepted, and why it stopped, if it did."""

import hashlib
import json
import os
from typing import Any, Mapping, Optional

from wanekupo.chips.chip import redacted
from wanekupo.common.errors import BadStateFile
from wanekupo.common.files import locked, opened_lock, opened_own, own_path, replace_file, tested_folder
from wanekupo.common.texts import compact_json

NAMES = ("token", "next", "under_way", "last")

# How many requests are kept of which a late copy may come: the oldest are forgotten.
MOST_LATE = 16


def members_of(asked: Mapping[str, str]) -> dict[str, Any]:
    """The members of a kept request, without its number."""
    members: dict[str, Any] = json.loads(asked["body"])
    del members["nr"]
    return members


def has_words(asked: Mapping[str, Any]) -> bool:
    """Whether a kept request is as it was sent: of what a chip showed a file may have digests alone."""
    return not any(isinstance(block, str) for block in json.loads(asked["body"]).get("blocks", ()))


def _kept(asked: Optional[Mapping[str, Any]]) -> Optional[dict[str, Any]]:
    """A request that isn't sent again, as it is kept: what a chip showed may be a key."""
    if asked is None:
        return None
    members = json.loads(asked["body"])
    if not any(isinstance(block, list) for block in members.get("blocks", ())):
        return dict(asked)
    return {**asked, "body": compact_json(redacted(members))}


class StateFile:
    """What a seat keeps, and which process has it. Without a file nothing is kept, and so nothing begun. Without
    `keeps_words` the file has digests of what a chip showed, also of requests that this process may send again.

    Of the token it has the SHA-256: with another seat's its request would be another one, and might be done as that.
    """

    def __init__(self, file: Optional[str | os.PathLike[str]], token: str, keeps_words: bool = True):
        self.token, self._keeps_words = hashlib.sha256(token.encode()).hexdigest(), keeps_words
        self.file = None if file is None else own_path(file)
        self._lock: Optional[int] = None
        self._data: dict[str, Any] = {**dict.fromkeys(NAMES), "token": self.token, "late": [], "stop": None}
        if not self.file:
            return
        tested_folder(self.file.parent)
        self._lock = self._locked()
        try:
            self._read()
        except BaseException:
            self.close()
            raise

    def close(self) -> None:
        """Lets another process have the file."""
        if self._lock is not None:
            os.close(self._lock)
            self._lock = None

    @property
    def next(self) -> Optional[int]:
        number: Optional[int] = self._data["next"]
        return number

    @property
    def under_way(self) -> Optional[dict[str, str]]:
        asked: Optional[dict[str, str]] = self._data["under_way"]
        return asked

    @property
    def last(self) -> Optional[dict[str, Any]]:
        request: Optional[dict[str, Any]] = self._data["last"]
        return request

    @property
    def late(self) -> list[dict[str, str]]:
        """The requests with the next number that were refused, as they were sent. Behind an accepted one those before
        are of no use; another client may leave them there."""
        return [it for it in self._data["late"] if json.loads(it["body"])["nr"] == self.next]

    def late_with(self, asked: Mapping[str, str]) -> list[dict[str, str]]:
        """The same, with one more."""
        others = [it for it in self.late if it != asked]
        return [*others, dict(asked)][-MOST_LATE:]

    @property
    def stop(self) -> Optional[dict[str, Any]]:
        """The refusal at which the seat stopped, its `status` and `body`, and the `path` that was asked with the next
        number; None where it goes on."""
        refusal: Optional[dict[str, Any]] = self._data["stop"]
        return refusal

    def is_of_the_token(self) -> bool:
        """Whether the file is of the token that is given now."""
        return bool(self._data["token"] == self.token)

    def _locked(self) -> int:
        lock = opened_lock(f"{self.file}.lock")
        try:
            locked(lock)
        except OSError as error:
            os.close(lock)
            told = "One program at a time has a state file: end the other one, or wait for it."
            raise BadStateFile(f"{self.file} is another process's", told) from error
        return lock

    def _read(self) -> None:
        """The state. Without a file the number isn't known, and is asked for."""
        assert self.file
        try:
            with open(opened_own(self.file, os.O_RDONLY), "rb") as source:
                state = json.loads(source.read())
            for name in NAMES:
                state[name]
            # A file of an earlier version has no late copies, and no stop. What another client has there stays.
            self._data = {"stop": None, **state, "late": list(state.get("late", ()))}
            _kept(self.last)
            for late in self.late:
                members_of(late), late["path"]
            if self.stop:
                self.stop["path"], self.stop["status"], self.stop["body"]["no"], self.stop["body"]["error"]
        except FileNotFoundError:
            return
        except (ValueError, KeyError, TypeError, AttributeError) as error:
            told = "Look at its name. Where it is damaged, move it away: the seat then asks the server for its number."
            raise BadStateFile(f"{self.file} is no state file", told) from error

    def forget_words(self) -> None:
        """A file of an earlier version has what a chip showed, which may be a key, in its last request. One that
        another client went on with may have it in requests of which no copy can be accepted any more."""
        if self.last != _kept(self.last) or self.late != self._data["late"]:
            self.keep()

    def keep(self, **changes: Any) -> None:
        """Changes the state, in the file first: whole or not at all, whenever the power fails."""
        if not self.file:
            raise BadStateFile("without a state file nothing is sent that changes anything")
        state: dict[str, Any] = {**self._data, "late": self.late, **changes}
        state["last"] = _kept(state["last"])
        late = state["late"] if self._keeps_words else [_kept(it) for it in state["late"]]
        under_way = state["under_way"] if self._keeps_words else _kept(state["under_way"])
        replace_file(self.file, compact_json({**state, "late": late, "under_way": under_way}))
        self._data = state
