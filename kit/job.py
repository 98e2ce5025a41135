"""What the station is to do with the chip on the bench: a job's file, and the chip itself."""

from __future__ import annotations

import hashlib
import json
import shlex
import sys
from dataclasses import dataclass
from pathlib import Path
from typing import Any, Mapping, Optional, Sequence

from kit.chip import MAP, Chip

# The vectors of docs/integrate/api.md#test-vectors that a life has: the numbers of its requests, and their digests.
VECTOR_MAC, VECTOR_KEY = "240ac4000001", bytes(range(32))
VECTOR_ORDER = {"name": "o1", "issuer": "acme-ca", "prefix": "A", "width": 3, "first": 998, "quantity": 2, "macs": 0}
VECTOR_TEXT = 'a"b\\c/d\r\n\te\x01µ'
VECTOR_WISHES = [{"kind": "bit", "field": "JTAG_DISABLE", "index": 0}, {"kind": "wlock", "field": "BLOCK1"}]
VECTORS = {
    "/v1/order": "3eac0b093a1ae65ba8ac3214046041aa5dab6af419af989d8f198e1e1635826f",
    "/v1/map": "cb358383cb41296fef6dac4fabbbbd8ac96f8e0bb2e4a89d595d40ccdc232174",
    "/v1/plan": "befb29e2dc1f3f4e03b910e63378a4484ff2b293ef4b4d096c3735c4254eeae3",
    "/v1/readback": "e879c4358514047641e32825e2ba2b32d59e39bec7b8267eff88d8c20e4ffb2a",
    "/v1/ship": "5dd7f8178f0a3513ca9542436e8d97e14b939a6544b34e50b9b2b8e657a94893",
}

# A SubjectPublicKeyInfo of Ed25519 (RFC 8410), but for its last 32 bytes.
ED25519 = bytes.fromhex("302a300506032b6570032100")
WEAK = 0.05


def bytes_of(seed: str) -> bytes:
    return hashlib.sha256(seed.encode()).digest()


@dataclass
class Job:
    """One chip with what it gets. Its order is its own, but where another is given."""

    folder: Path
    mac: str
    order: Mapping[str, Any]
    maps: Sequence[Path]
    wishes: Sequence[Mapping[str, Any]]
    key: bytes
    public_key: bytes

    def __post_init__(self) -> None:
        self.chip_file, self.file = self.folder / "chip.json", self.folder / "job.json"
        self.record = self.folder / "record.json"

    def lay_out(self, chip_key: bytes = b"", seed: int = 0, cuts: Sequence[int] = (), weak: float = 0) -> None:
        """Puts the chip on the bench, and writes the job's file beside it."""
        self.folder.mkdir(mode=0o700)
        Chip.make(self.chip_file, self.mac, chip_key, weak, seed, cuts)
        (self.folder / "flash.key").write_bytes(self.key)
        (self.folder / "public.der").write_bytes(self.public_key)
        tool = self.folder / "espefuse"
        words = shlex.join([sys.executable, "-S", "-E", str(MAP.with_name("chip.py")), str(self.chip_file)])
        tool.write_text(f'#!/bin/sh\nexec {words} "$@"\n', encoding="utf-8")
        tool.chmod(0o700)
        keys = {"BLOCK1": {"file": str(self.folder / "flash.key"), "burnt_as": "flash_encryption"}}
        job = {"order": self.order, "maps": [str(it) for it in self.maps], "wishes": self.wishes, "keys": keys}
        job |= {"public_key": str(self.folder / "public.der"), "record": str(self.record)}
        self.file.write_text(json.dumps(job, indent=1), encoding="utf-8")

    def environment(self) -> dict[str, str]:
        return {"KIT_JOB": str(self.file), "KIT_CHIP": str(self.folder / "espefuse")}

    def raw(self) -> list[list[str]]:
        return Chip(self.chip_file).raw()


def write_maps(folder: Path) -> tuple[Path, Path]:
    """The text of the vectors, which is no map, and the map of the chips, with a tab and a carriage return in it."""
    text, chips = folder / "vector.toml", folder / "chip.toml"
    text.write_bytes(VECTOR_TEXT.encode())
    chips.write_bytes(MAP.read_bytes() + b"#\ta tab, and a carriage return\r\n")
    return text, chips


def vector_job(folder: Path, maps: tuple[Path, Path]) -> Job:
    """The life whose requests are those of the vectors: the chip comes with its key."""
    job = Job(folder, VECTOR_MAC, VECTOR_ORDER, maps, VECTOR_WISHES, VECTOR_KEY[::-1], ED25519 + bytes_of("vector"))
    job.lay_out(VECTOR_KEY)
    return job


def wishes_of(key: bytes) -> list[dict[str, Any]]:
    """Bits, a number, a key that espefuse reverses, and both locks of its block."""
    wishes: list[dict[str, Any]] = [{"kind": "bit", "field": "JTAG_DISABLE", "index": 0}]
    wishes.append({"kind": "bit", "field": "CONSOLE_DEBUG_DISABLE", "index": 0})
    wishes.append({"kind": "value", "field": "SECURE_VERSION", "value": "f5"})
    wishes.append({"kind": "key", "field": "BLOCK1", "key_sha256": hashlib.sha256(key[::-1]).hexdigest()})
    return [*wishes, {"kind": "wlock", "field": "BLOCK1"}, {"kind": "rlock", "field": "BLOCK1"}]


def chip_job(
    folder: Path, maps: tuple[Path, Path], seed: int, number: int, order: Optional[dict[str, Any]] = None
) -> Job:
    """A blank chip, its order of two serial numbers with two addresses each, and where the power fails as it is burnt:
    behind another half of a block with each chip."""
    own = {"name": f"lot-{number}", "issuer": "acme-ca", "prefix": "B", "width": 5, "first": 10 * number}
    own |= {"quantity": 2, "macs": 2}
    key, public_key = bytes_of(f"{seed} {number} key"), ED25519 + bytes_of(f"{seed} {number} public")
    job = Job(folder, f"240ac4{0x100 + number:06x}", order or own, maps[1:], wishes_of(key), key, public_key)
    job.lay_out(seed=seed, cuts=[1 + number % 8, 5 + number % 3], weak=WEAK)
    return job
