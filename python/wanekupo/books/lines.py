"""The canonical text of books: a line a row, its key in front, in the order of the bytes (docs/reference/files.md).

What a token shows over HTTP and what a copy of the store has are the same lines, so that a customer's text is a part of
the plant's.
"""

import json
import re
from typing import Any, Callable, Iterator, Mapping

from wanekupo.common.errors import StationError

# The members of each kind of row, which are those of a reply where there is one. A member that a later server adds is
# no part of a text.
MEMBERS = {
    "act": "n text",
    "device": "bits chip keys map order pending reason serial state",
    "entry": "bits event keys n note seat",
    "import": "issuer key_sha256 not_after not_before serial",
    "map": "map text_sha256",
    "order": "first issuer mac macs name next not_before prefix quantity width",
    "record": "chip issuer key_sha256 mac not_after not_before serial",
    "seat": "digest last name reply_sha256",
    "site": "schema sha256",
}
NAMES = {kind: frozenset(names.split()) for kind, names in MEMBERS.items()}

# How many words the key of each kind has, and the members that the last of these are, but for an entry's number.
WORDS = {"act": 1, "device": 2, "entry": 3, "import": 3, "map": 2, "order": 2, "record": 3, "seat": 2, "site": 1}
KEYED = {"device": ["chip"], "map": ["map"], "order": ["name"], "seat": ["name"]}
KEYED |= dict.fromkeys(("import", "record"), ["issuer", "serial"])

# The kinds whose last word is a number, and those that a customer's own token shows.
NUMBERED = ("act", "entry")
SHOWN = ("device", "entry", "order", "record")

# The digits of an entry's number in its key.
DIGITS = 10
KEY = re.compile("[A-Za-z0-9._@-]+")
MASK, MAC = re.compile("[0-9a-f]{8}"), re.compile("[0-9a-f]{12}")

# Members as a row has them.
COMPACT = json.JSONEncoder(sort_keys=True, separators=(",", ":"))


class BadRow(StationError):
    """A row that no store can have."""


def line(kind: str, key: tuple[str, ...], members: Mapping[str, Any]) -> str:
    """A row as its line: the kind, the key, and the members as compact JSON in byte order."""
    for part in key:
        if not KEY.fullmatch(part):
            raise BadRow(f"a row of the kind {kind} has the name {part!r}, which no store gives", "Ask who wrote it.")
    found = {name: it for name, it in members.items() if name in NAMES[kind]}
    if len(found) != len(NAMES[kind]):
        missing = ", ".join(sorted(NAMES[kind] - found.keys()))
        raise BadRow(f"a row of the kind {kind} of {' '.join(key)} lacks {missing}", "Look what answered.")
    return f"{kind} {' '.join(key)} {COMPACT.encode(found)}"


def order_line(customer: str, members: Mapping[str, Any]) -> str:
    return line("order", (customer, str(members.get("name"))), {"not_before": None, **members})


def device_line(customer: str, members: Mapping[str, Any]) -> str:
    return line("device", (customer, str(members.get("chip"))), members)


def record_line(customer: str, members: Mapping[str, Any]) -> str:
    key = customer, str(members.get("issuer")), str(members.get("serial"))
    return line("record", key, {"not_before": None, **members})


def entry_line(customer: str, chip: str, members: Mapping[str, Any]) -> str:
    number = members.get("n")
    if type(number) is not int or not 0 < number < 10**DIGITS:
        raise BadRow(f"an entry of {chip} has the number {number!r}", "Ask who wrote it.")
    return line("entry", (customer, chip, f"{number:0{DIGITS}}"), members)


def act_lines(text: bytes) -> Iterator[str]:
    """What root had done, a row for each whole line of its file: one that is cut is being written."""
    for number, told in enumerate(text.decode("utf-8", "backslashreplace").split("\n")[:-1], 1):
        yield line("act", (f"{number:0{DIGITS}}",), {"n": number, "text": told})


# Reading.


def _is_plain(it: Any) -> bool:
    return it is None or isinstance(it, (str, int))


def _is_number(it: Any) -> bool:
    return type(it) is int


def _is_text(it: Any) -> bool:
    return isinstance(it, str)


def _is_name(it: Any) -> bool:
    return it is None or isinstance(it, str)


def _is_address(it: Any) -> bool:
    return it is None or isinstance(it, str) and MAC.fullmatch(it) is not None


def _is_word(it: Any) -> bool:
    if not isinstance(it, dict) or it.keys() != {"block", "word", "mask"}:
        return False
    is_mask = _is_text(it["mask"]) and MASK.fullmatch(it["mask"]) is not None
    return is_mask and _is_number(it["block"]) and _is_number(it["word"])


def _is_bits(it: Any) -> bool:
    return isinstance(it, list) and all(map(_is_word, it))


def _is_keys(it: Any) -> bool:
    return isinstance(it, dict) and all(map(_is_text, it.values()))


def _is_batch(it: Any) -> bool:
    return isinstance(it, dict) and it.keys() == {"bits", "keys"} and _is_bits(it["bits"]) and _is_keys(it["keys"])


# What a member has to be, by its name: the same in each kind of row. One that isn't here is a text, a number or null.
FORMS: dict[str, Callable[[Any], bool]] = {
    **dict.fromkeys(("event", "issuer", "key_sha256", "map", "note", "prefix", "state"), _is_text),
    **dict.fromkeys(("first", "last", "macs", "n", "quantity", "schema"), _is_number),
    **dict.fromkeys(("chip", "next", "not_after", "not_before", "order", "reason", "serial"), _is_name),
    "bits": _is_bits,
    "keys": _is_keys,
    "mac": _is_address,
    "pending": lambda it: isinstance(it, dict) and all(map(_is_batch, it.values())),
    "width": lambda it: _is_number(it) and 0 < it <= 64,
}


def line_parts(text: str) -> tuple[str, tuple[str, ...], dict[str, Any]]:
    """The kind, the key and the members of a line, which has to be in the form in which `line` writes it."""
    head, brace, members = text.partition(" {")
    kind, *key = head.split(" ")
    try:
        found = json.loads(brace[1:] + members)
    except (ValueError, RecursionError):
        found = None
    is_row = kind in NAMES and len(key) == WORDS[kind] and all(map(KEY.fullmatch, key))
    is_row = is_row and isinstance(found, dict) and found.keys() == NAMES[kind]
    if not is_row or not all(FORMS.get(name, _is_plain)(it) for name, it in found.items()):
        raise BadRow(f"is no row of books: {text[:60]!r}")
    if COMPACT.encode(found) != brace[1:] + members:
        raise BadRow(f"isn't written as a row is: {text[:60]!r}")
    own = [f"{found['n']:0{DIGITS}}"] if kind in NUMBERED else [found[name] for name in KEYED.get(kind, ())]
    if own != key[len(key) - len(own) :]:
        raise BadRow(f"is of another name than its members: {text[:60]!r}")
    return kind, tuple(key), found
