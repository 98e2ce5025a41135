"""What the protocol of a seat says of requests and of a station's log (docs/integrate/api.md).

The digests and the lines are held to the vectors of that page by tests/test_conformance.py. Standard library alone.
"""

from __future__ import annotations

import hashlib
import json
import re
from typing import Any, Mapping, Optional, Sequence

# A number that no seat comes to: a POST with it is refused as 11, and changes nothing.
FAR = 2**53 - 1
WRONG_NUMBER, OTHER_BODY = 11, 12

# The members that each request is known by.
NAMED = {
    "/v1/order": ("nr", "name", "issuer", "prefix", "width", "first", "quantity", "macs", "not_before"),
    "/v1/map": ("nr", "text"),
    "/v1/device": ("nr", "chip", "order", "map", "blocks"),
    "/v1/plan": ("nr", "chip", "wishes"),
    "/v1/readback": ("nr", "chip", "blocks"),
    "/v1/identity": ("nr", "chip", "public_key"),
    "/v1/ship": ("nr", "chip"),
    "/v1/scrap": ("nr", "chip"),
    "/v1/import": ("nr", "issuer", "csv"),
}
WISHED = {"bit": ("index",), "value": ("value",), "key": ("key_sha256",)}

AT = re.compile(r"\d{4}-\d\d-\d\dT\d\d:\d\d:\d\dZ")


def block_digest(words: Sequence[str]) -> str:
    """The SHA-256 of a block's bytes, the lowest byte of each word first."""
    return hashlib.sha256(b"".join(bytes.fromhex(word)[::-1] for word in words)).hexdigest()


def _wish(wish: Mapping[str, Any]) -> dict[str, Any]:
    names = ("kind", "field", *WISHED.get(wish["kind"], ()))
    return {name: wish[name] for name in names}


def known(path: str, members: Mapping[str, Any]) -> dict[str, Any]:
    """The members that a request is known by, with the digests of blocks. Those of a log have them already."""
    found = {name: members[name] for name in NAMED[path] if name in members}
    if "blocks" in found:
        found["blocks"] = [it if isinstance(it, str) else block_digest(it) for it in found["blocks"]]
    if "wishes" in found:
        found["wishes"] = [_wish(wish) for wish in found["wishes"]]
    return found


def digest(path: str, members: Mapping[str, Any]) -> str:
    """What the server knows a request by."""
    text = json.dumps(known(path, members), sort_keys=True, separators=(",", ":"), ensure_ascii=False)
    return hashlib.sha256(f"{path}\n{text}".encode()).hexdigest()


def log_line(line: Mapping[str, Any]) -> bytes:
    """A line of a log in the bytes that the clients write."""
    return json.dumps(line, sort_keys=True, separators=(",", ":")).encode("ascii") + b"\n"


def members_of(body: bytes) -> Optional[dict[str, Any]]:
    """The members of a body, or None where it is no object."""
    try:
        found = json.loads(body)
    except ValueError:
        return None
    return found if isinstance(found, dict) else None
