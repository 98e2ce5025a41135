#!/usr/bin/env python3
"""A simulated ESP32 behind the words of espefuse.py 4.7.0 that a station uses, in a file.

    chip.py FILE make 240ac4000001
    chip.py FILE dump
    chip.py FILE burn_bit BLOCK0 198 7
    chip.py FILE burn_key --no-protect-key flash_encryption flash.key
    chip.py FILE execute_scripts script.py

Bits go from 0 to 1 only. A field or a block whose write lock is burnt takes nothing (status 2). What a read lock hides
reads 0. `burn_key` reverses the files of flash_encryption and secure_boot_v1, and burns the locks together with the key
unless it is given --no-protect-key. A script burns all of its commands at once, the last block first. --chip, --port,
--virt, --do-not-confirm and --force-write-always are passed over.

A bit of `burn_bit` may be weak and stay 0 until it is burnt again, as the file's `weak` and `seed` say. Where the
file's `cuts` have the number of a half block that was burnt, the power fails behind it: the chip kills its process
group, in which the station is. It shares no code with any client. Python 3.9, standard library alone.
"""

from __future__ import annotations

import argparse
import json
import os
import random
import re
import signal
import sys
import types
from pathlib import Path
from typing import Any, Mapping, Optional

MAP = Path(__file__).resolve().parent / "chip.toml"
WORDS = [7, 8, 8, 8]

# Of blocks 1 to 3, the bits of WR_DIS and RD_DIS that lock them, and the names that burn_key has for them.
LOCKS = {1: (7, 0), 2: (8, 1), 3: (9, 2)}
KEYS = {"BLOCK1": 1, "flash_encryption": 1, "BLOCK2": 2, "secure_boot_v1": 2, "secure_boot_v2": 2, "BLOCK3": 3}
REVERSED = ("flash_encryption", "secure_boot_v1")
ALIASES = ["", "flash_encryption", "secure_boot_v1 secure_boot_v2", ""]


class Fatal(Exception):
    """What espefuse refuses."""


def map_fields() -> list[dict[str, Any]]:
    """The fields of the map, which has each on a line of its own."""
    fields = []
    for line in re.findall(r"^ *\{ (name = .*) \},$", MAP.read_text(encoding="utf-8"), re.MULTILINE):
        members = dict(member.split(" = ") for member in line.split(", "))
        fields.append({name: json.loads(text) for name, text in members.items()})
    return fields


def mac_crc(mac: bytes) -> int:
    """CRC-8/MAXIM: x^8 + x^5 + x^4 + 1, the lowest bit first."""
    register = 0
    for byte in mac:
        for place in range(8):
            top = register >> 7 ^ byte >> place & 1
            register = register << 1 & 0xFF ^ (0x31 if top else 0)
    return int(f"{register:08b}"[::-1], 2)


class Chip:
    """A chip in a file."""

    def __init__(self, file: Path):
        self.file = Path(file)
        found = json.loads(self.file.read_text("ascii"))
        self.blocks = [int(block, 16) for block in found["blocks"]]
        self.weak, self.seed, self.cuts, self.burnt = found["weak"], found["seed"], found["cuts"], found["burnt"]

    @classmethod
    def make(cls, file: Path, mac: str, key: bytes = b"", weak: float = 0, seed: int = 0, cuts: Any = ()) -> Chip:
        """A new chip with a factory MAC; block 1 has a key already where one is given, lowest byte first."""
        data = bytes.fromhex(mac)
        low = int.from_bytes(data, "big") | mac_crc(data) << 48
        # What a factory burns beside the MAC: revision 1, and a calibration of the reference voltage.
        blocks = [low << 32 | 1 << 111 | 0x0B << 136, int.from_bytes(key, "little"), 0, 0]
        start = {"blocks": [f"{block:x}" for block in blocks], "weak": weak, "seed": seed, "cuts": [*cuts], "burnt": 0}
        file.write_text(json.dumps(start), "ascii")
        return cls(file)

    def save(self) -> None:
        blocks = [f"{block:x}" for block in self.blocks]
        kept = {"blocks": blocks, "weak": self.weak, "seed": self.seed, "cuts": self.cuts, "burnt": self.burnt}
        Path(f"{self.file}.new").write_text(json.dumps(kept), "ascii")
        os.replace(f"{self.file}.new", self.file)

    def is_locked(self, start: int, place: Optional[int]) -> bool:
        return place is not None and bool(self.blocks[0] >> start + place & 1)

    def is_hidden(self, field: Mapping[str, Any]) -> bool:
        return self.is_locked(16, field.get("read"))

    def set(self, block: int, mask: int) -> None:
        """Burns bits, those of the lower half first: the power may fail between, and behind."""
        half = 16 * WORDS[block]
        for part in (mask & (1 << half) - 1, mask >> half << half):
            self.blocks[block] |= part
            self.burnt += 1
            is_cut = self.burnt in self.cuts
            self.save()
            if is_cut:
                os.killpg(os.getpgrp(), signal.SIGKILL)

    def burn(self, wants: Mapping[int, int]) -> None:
        """Burns bits by their blocks, block 0 last, as it may have locks."""
        for block in sorted(wants, reverse=True):
            mask = wants[block] & ~self.blocks[block]
            if mask and block in LOCKS:
                write, read = LOCKS[block]
                if self.is_locked(0, write) or self.is_locked(16, read):
                    raise Fatal(f"BLOCK{block} is locked")
            for field in map_fields() if block == 0 else []:
                if field["block"] == 0 and self.is_locked(0, field.get("write")):
                    mask &= ~((1 << field["count"]) - 1 << field["bit"])
            if mask:
                self.set(block, mask)

    def taken(self, block: int, places: set[int]) -> dict[int, int]:
        """What of some bits is burnt this time: a weak one isn't."""
        chance = random.Random(f"{self.seed} {self.burnt}")
        missing = sorted(place for place in places if not self.blocks[block] >> place & 1)
        return {block: sum(1 << place for place in missing if chance.random() >= self.weak)}

    def key_bits(self, name: str, data: bytes, is_protected: bool) -> dict[int, int]:
        """What `burn_key` burns, by the blocks."""
        block = KEYS[name]
        if len(data) != 32:
            raise Fatal(f"a key of {len(data)} bytes")
        key = int.from_bytes(data[::-1] if name in REVERSED else data, "little")
        if self.blocks[block] & ~key:
            raise Fatal("bits that can't be cleared")
        write, read = LOCKS[block]
        locks = 1 << write | (1 << 16 + read if name in REVERSED else 0)
        return {block: key, 0: locks if is_protected else 0}

    def wanted(self, args: argparse.Namespace) -> dict[int, int]:
        if args.command == "burn_bit":
            return self.taken(int(args.block[-1]), set(args.bit))
        return self.key_bits(args.name, args.keyfile.read_bytes(), not args.no_protect_key)

    def run_script(self, text: str) -> None:
        """A script in Python, as espefuse 4 runs one: what it has in reach is the chip's MAC and the commands."""
        wants: dict[int, int] = {}
        mac = ":".join(re.findall("..", f"{self.blocks[0] >> 32 & (1 << 48) - 1:012x}"))

        def espefuse(esp: Any, efuses: Any, args: Any, words: str) -> None:
            for block, mask in self.wanted(parser_of().parse_args(["-", *words.split()])).items():
                wants[block] = wants.get(block, 0) | mask

        names = {"efuses": {"MAC": types.SimpleNamespace(get=lambda: f"{mac} (OK)")}, "esp": None, "args": None}
        names |= {"esptool": types.SimpleNamespace(FatalError=Fatal), "espefuse": espefuse}
        exec(text, names)
        self.burn(wants)

    def words(self, block: int, bits: int) -> list[str]:
        return [f"{bits >> 32 * word & 0xFFFFFFFF:08x}" for word in range(WORDS[block])]

    def raw(self) -> list[list[str]]:
        """The words that are burnt, also those that a lock hides."""
        return [self.words(block, bits) for block, bits in enumerate(self.blocks)]

    def dump(self) -> str:
        shown = list(self.blocks)
        for field in map_fields():
            if self.is_hidden(field):
                shown[field["block"]] &= ~((1 << field["count"]) - 1 << field["bit"])
        lines = ["espefuse.py v4.7.0"]
        for block, bits in enumerate(shown):
            words = " ".join(self.words(block, bits))
            lines.append(f"{f'BLOCK{block}':15} ({ALIASES[block][:16]:16}) [{block} ] read_regs: {words}")
        return "\n".join([*lines, "", '=== Run "dump" command ===', ""])


def mac_of(text: str) -> str:
    """A factory MAC without colons, in lower case."""
    if not re.fullmatch("[0-9a-f]{12}", text):
        raise argparse.ArgumentTypeError("a MAC is 12 lowercase hexadecimal digits")
    return text


def parser_of() -> argparse.ArgumentParser:
    parser = argparse.ArgumentParser(description="A simulated ESP32 behind espefuse's words.")
    parser.add_argument("file", type=Path, help="the chip")
    for passed_over in ("--chip", "--port"):
        parser.add_argument(passed_over, help=argparse.SUPPRESS)
    for passed_over in ("--virt", "--do-not-confirm"):
        parser.add_argument(passed_over, action="store_true", help=argparse.SUPPRESS)
    commands = parser.add_subparsers(dest="command", required=True)
    commands.add_parser("make").add_argument("mac", type=mac_of)
    commands.add_parser("dump")
    commands.add_parser("execute_scripts").add_argument("script", type=Path)
    burn_bit, burn_key = commands.add_parser("burn_bit"), commands.add_parser("burn_key")
    for command in (burn_bit, burn_key):
        command.add_argument("--force-write-always", action="store_true", help=argparse.SUPPRESS)
    burn_bit.add_argument("block", choices=[f"BLOCK{block}" for block in range(4)])
    burn_bit.add_argument("bit", nargs="+", type=int)
    burn_key.add_argument("--no-protect-key", action="store_true")
    burn_key.add_argument("name", choices=KEYS)
    burn_key.add_argument("keyfile", type=Path)
    return parser


def main() -> int:
    args = parser_of().parse_args()
    chip = Chip.make(args.file, args.mac) if args.command == "make" else Chip(args.file)
    try:
        if args.command == "dump":
            print(chip.dump(), end="")
        elif args.command == "execute_scripts":
            chip.run_script(args.script.read_text("utf-8"))
        elif args.command != "make":
            chip.burn(chip.wanted(args))
    except Fatal as fatal:
        print(f"\nA fatal error occurred: {fatal}")
        return 2
    return 0


if __name__ == "__main__":
    sys.exit(main())
