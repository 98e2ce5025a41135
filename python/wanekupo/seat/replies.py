"""Replies as objects, and which bytes are a reply of the server's."""

import functools
import json
from dataclasses import dataclass, fields
from typing import Any, Callable, Mapping, Optional, TypeVar

from wanekupo.chips.work import Word, Work
from wanekupo.common.errors import NotTheServer, Refused
from wanekupo.seat.forms import COUNT, FAR, REPLIES, wrong_in

# Members of a reply that are those of its request.
ECHOED = ("chip", "name")

Made = TypeVar("Made")


@dataclass(frozen=True)
class Order:
    name: str
    issuer: str
    prefix: str
    width: int
    first: int
    quantity: int
    macs: int
    mac: Optional[str]
    next: Optional[str]
    not_before: Optional[str] = None


@dataclass(frozen=True)
class Device:
    """A device; `batch1` and `batch2` are what is still to be burnt."""

    chip: str
    order: str
    map: str
    state: str
    reason: Optional[str]
    serial: Optional[str]
    burnt: Work
    batch1: Work
    batch2: Work


@dataclass(frozen=True)
class Listed:
    """A device as a list shows it; what is burnt of it is shown of one device alone."""

    chip: str
    order: str
    state: str
    reason: Optional[str]
    serial: Optional[str]


@dataclass(frozen=True)
class Plan:
    state: str
    batch1: Work
    batch2: Work


@dataclass(frozen=True)
class Verdict:
    """What a read-back came to: lost, stray, key, short or match, and what is still awaited where it is short."""

    outcome: str
    state: str
    rest: Work


@dataclass(frozen=True)
class Identity:
    chip: str
    issuer: str
    serial: str
    key_sha256: str
    mac: Optional[str]
    not_after: str
    not_before: Optional[str] = None


@dataclass(frozen=True)
class Imported:
    added: int
    present: int


@dataclass(frozen=True)
class Entry:
    """A step of a device, with what it added to what is known to be burnt."""

    n: int
    event: str
    note: str
    seat: str
    added: Work


@dataclass(frozen=True)
class LastRequest:
    """The last request of the seat that was accepted; of blocks its members have the SHA-256 of each."""

    path: str
    members: dict[str, Any]
    reply: dict[str, Any]


def _of_the_server(make: Callable[[Any], Made]) -> Callable[[Any], Made]:
    """The same, where members of another form are another server's."""

    @functools.wraps(make)
    def made(data: Any) -> Made:
        try:
            return make(data)
        except (KeyError, TypeError, ValueError, AttributeError) as error:
            raise NotTheServer("a reply of another form than the server's") from error

    return made


def made(kind: Callable[..., Made], data: Mapping[str, Any], **others: Any) -> Made:
    """An object of a reply's members. Those that the class doesn't name, as of a later server, are passed over."""
    names = {field.name for field in fields(kind)}
    return kind(**{**{name: value for name, value in data.items() if name in names}, **others})


def _word_of(data: Mapping[str, Any]) -> Word:
    """A word by whole numbers: they come into commands that a shell may run."""
    block, word = data["block"], data["word"]
    if type(block) is not int or type(word) is not int:
        raise TypeError(f"block {block!r}, word {word!r}")
    return Word(block, word, int(data["mask"], 16))


@_of_the_server
def work_of(data: Mapping[str, Any]) -> Work:
    """The bits and keys of a reply."""
    return Work(tuple(map(_word_of, data["bits"])), dict(data["keys"]))


@_of_the_server
def device_of(data: Mapping[str, Any]) -> Device:
    pending = {name: work_of(data["pending"][name]) for name in ("batch1", "batch2")}
    return made(Device, data, burnt=work_of(data), **pending)


@_of_the_server
def identity_of(data: Mapping[str, Any]) -> Identity:
    return made(Identity, data)


@_of_the_server
def order_of(data: Mapping[str, Any]) -> Order:
    return made(Order, data)


@_of_the_server
def imported_of(data: Mapping[str, Any]) -> Imported:
    return Imported(int(data["added"]), int(data["present"]))


@_of_the_server
def devices_of(data: Mapping[str, Any]) -> list[Listed]:
    return [made(Listed, device) for device in data["devices"]]


@_of_the_server
def entries_of(data: Mapping[str, Any]) -> list[Entry]:
    return [made(Entry, entry, added=work_of(entry)) for entry in data["entries"]]


def _strange_in(path: str, members: Mapping[str, Any], body: Any) -> Optional[str]:
    """Why what came at 200 isn't the reply to a request, in words; None where it is. No seat comes to
    the number by which it asks for its own: nobody accepts that."""
    if members.get("nr") == FAR:
        return f"number {FAR} was accepted"
    if path.endswith("/report"):
        return None if isinstance(body, str) else "no report"
    if not isinstance(body, dict):
        return "no object"
    forms = REPLIES.get(path, {})
    strange = wrong_in(body, forms) or [it for it in ECHOED if it in forms and body[it] != members.get(it)]
    return f"{', '.join(strange)} isn't as it has to be" if strange else None


def _is_refusal(body: Any) -> bool:
    """Whether what came at another status is a refusal, whose numbers are numbers."""
    if not isinstance(body, dict) or not isinstance(body.get("error"), str):
        return False
    return COUNT(body.get("no")) and COUNT(body.get("expected", 0))


def body_of(status: int, kind: str, data: bytes, path: str, members: Mapping[str, Any]) -> Any:
    """The members of a reply, or a report's text. What isn't one of the server's to this request, as a proxy's page,
    is raised."""
    try:
        body = data.decode("ascii") if kind == "text/csv" else None
        body = json.loads(data) if kind == "application/json" else body
    except (ValueError, RecursionError):
        body = None
    strange = _strange_in(path, members, body) if status == 200 else None
    if status == 200 and strange is None or status != 200 and _is_refusal(body):
        return body
    told = f", {strange}" if strange else ""
    page = NotTheServer(f"another's reply: status {status}, {kind}{told}: {data[:60]!r}")
    page.status = status
    raise page


def accepted(status: int, body: Any) -> Any:
    """The body of an accepted reply; a refusal is raised."""
    if status != 200:
        raise Refused(status, body)
    return body
