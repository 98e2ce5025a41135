#!/usr/bin/env python3
"""A simulated ESP32, or a chip of a newer family, behind the words of espefuse 4.7.0 that a station uses.

    simulated_chip.py --path-efuse-file F make 240ac4000001      a new chip with this factory MAC, in the file F
    simulated_chip.py --path-efuse-file F dump
    simulated_chip.py --path-efuse-file F burn_bit BLOCK0 198 7
    simulated_chip.py --path-efuse-file F burn_key --no-protect-key flash_encryption flash.key
    simulated_chip.py --path-efuse-file F execute_scripts script.py
    simulated_chip.py --chip esp32s3 --path-efuse-file F burn_block_data BLOCK_KEY0 reversed.key
    simulated_chip.py --chip esp32s3 --path-efuse-file F burn_key BLOCK_KEY0 flash.key XTS_AES_128_KEY

Bits go from 0 to 1 only. A field whose write lock is burnt takes nothing; a block that is locked for writing or reading
is refused, with status 2. What a read lock hides reads 0. `burn_key` of the ESP32 reverses the files of
flash_encryption and secure_boot_v1, and burns the locks together with the key unless it is given --no-protect-key.

The blocks of a newer family but block 0 have a Reed-Solomon code: one that has a bit takes nothing else, unless
--force-write-always is given. Where the power fails while one is burnt, half of its bits are there, and the chip says
FAIL. `burn_key` locks the purpose of the key in the same go, and `burn_block_data` prints what it burns. A script burns
all of its commands at once, the last block first. With --as 5.0.0 the commands have dashes, there are no scripts, and
the dump has another word: so its notes say, since that version wasn't tried.

--port, --virt and --do-not-confirm are passed over. It shares no code with the client that it tests. Python 3.9,
standard library alone.
"""

import argparse
import json
import os
import re
import subprocess
import sys
import tempfile
import types
from pathlib import Path

FAMILIES = Path(__file__).resolve().parents[2] / "wanekupo/chips/families"
MAP = FAMILIES / "esp32/map.toml"
WORDS = [7, 8, 8, 8]
NEWER = ("esp32s2", "esp32s3", "esp32c3", "esp32c6", "esp32h2", "esp32p4")

# Of blocks 1 to 3, the bits of WR_DIS and RD_DIS that lock them, and the names that burn_key has for them.
LOCKS = {1: (7, 0), 2: (8, 1), 3: (9, 2)}
KEYS = {"BLOCK1": 1, "flash_encryption": 1, "BLOCK2": 2, "secure_boot_v1": 2, "secure_boot_v2": 2, "BLOCK3": 3}
BOTH_LOCKS = ("flash_encryption", "secure_boot_v1")
ALIASES = ["", "flash_encryption", "secure_boot_v1 secure_boot_v2", ""]

# A newer family: its blocks, and the numbers of a key's purposes, of which a file is reversed for those with a star.
NAMES = ["BLOCK0", "MAC_SPI_8M_0", "BLOCK_SYS_DATA", "BLOCK_USR_DATA", *(f"BLOCK_KEY{key}" for key in range(6))]
NAMES.append("BLOCK_SYS_DATA2")
PURPOSES = {"USER": 0, "XTS_AES_128_KEY*": 4, "HMAC_UP": 8, "SECURE_BOOT_DIGEST0": 9}


class Fatal(Exception):
    """What espefuse refuses."""


def map_fields(path=MAP):
    """The fields of a map that has each on a line of its own, as members."""
    fields = []
    for line in re.findall(r"^ *\{ (name = .*) \},$", path.read_text(encoding="utf-8"), re.MULTILINE):
        members = dict(member.split(" = ") for member in line.split(", "))
        fields.append({name: json.loads(text) for name, text in members.items()})
    return fields


def mac_crc(mac):
    """CRC-8/MAXIM: x^8 + x^5 + x^4 + 1, the lowest bit first."""
    register = 0
    for byte in mac:
        for place in range(8):
            top = register >> 7 ^ byte >> place & 1
            register = register << 1 & 0xFF ^ (0x31 if top else 0)
    return int(f"{register:08b}"[::-1], 2)


def mask_of(field):
    return (1 << field["count"]) - 1 << field["bit"]


class SimulatedChip:
    """An ESP32, in a file where it has one."""

    words, names, locks, hides = WORDS, [f"BLOCK{block}" for block in range(4)], LOCKS, 16
    aliases, family = ALIASES, "esp32"

    def __init__(self, mac, file=None):
        self.file = file
        self.blocks = self.factory(mac)
        self.save()

    def factory(self, mac):
        """What a factory burns beside the MAC: revision 1, and a calibration of the reference voltage."""
        low = int.from_bytes(mac, "big") | mac_crc(mac) << 48
        return [low << 32 | 1 << 111 | 0x0B << 136, 0, 0, 0]

    @classmethod
    def at(cls, file):
        chip = cls.__new__(cls)
        chip.file, chip.blocks = file, [int(block, 16) for block in json.loads(Path(file).read_text("ascii"))]
        return chip

    def save(self):
        if self.file:
            Path(f"{self.file}.new").write_text(json.dumps([f"{block:x}" for block in self.blocks]), "ascii")
            os.replace(f"{self.file}.new", self.file)

    def fields(self):
        return [field for field in map_fields(FAMILIES / self.family / "map.toml") if field["block"] == 0]

    def is_locked(self, start, place):
        return place is not None and bool(self.blocks[0] >> start + place & 1)

    def write_locked(self, place):
        return self.is_locked(0, place)

    def read_locked(self, place):
        return self.is_locked(self.hides, place)

    def mac(self):
        return f"{self.blocks[0] >> 32 & (1 << 48) - 1:012x}"

    def set(self, block, mask):
        """Burns bits, those of the lower half first: the power may fail between."""
        half = 16 * self.words[block]
        for part in (mask & (1 << half) - 1, mask >> half << half):
            self.blocks[block] |= part
            self.save()

    def burn(self, block, mask, forced=False):
        if block in self.locks:
            write, read = self.locks[block]
            if self.write_locked(write) or self.read_locked(read):
                raise Fatal(f"{self.names[block]} is locked")
        for field in self.fields() if block == 0 else []:
            if self.write_locked(field.get("write")):
                mask &= ~mask_of(field)
        self.set(block, mask)

    def key_wants(self, name, data, is_protected):
        """The bits that `burn_key` burns, by their blocks."""
        block = KEYS[name]
        if len(data) != 32:
            raise Fatal(f"a key of {len(data)} bytes")
        key = int.from_bytes(data[::-1] if name in BOTH_LOCKS else data, "little")
        if self.blocks[block] & ~key:
            raise Fatal("bits that can't be cleared")
        write, read = LOCKS[block]
        locks = 1 << write | (1 << 16 + read if name in BOTH_LOCKS else 0)
        return {block: key, 0: locks if is_protected else 0}

    def burn_key(self, name, data, is_protected):
        self.burn_all(self.key_wants(name, data, is_protected))

    def burn_all(self, wants, forced=False):
        """Bits by their blocks, block 0 last, as it may have locks."""
        for block in sorted(wants, reverse=True):
            if wants[block] & ~self.blocks[block]:
                self.burn(block, wants[block], forced)

    def shown(self):
        """The blocks, without what a read lock hides."""
        shown = list(self.blocks)
        for block, (_, read) in self.locks.items():
            if self.read_locked(read):
                shown[block] = 0
        for field in self.fields():
            if self.read_locked(field.get("read")):
                shown[0] &= ~mask_of(field)
        return shown

    def dump(self, word="read_regs", version="4.7.0"):
        lines = [f"espefuse.py v{version}"]
        for block, bits in zip(range(len(self.words)), self.shown()):
            words = " ".join(f"{bits >> 32 * word & 0xFFFFFFFF:08x}" for word in range(self.words[block]))
            lines.append(f"{self.names[block]:15} ({self.aliases[block][:16]:16}) [{block:<2}] {word}: {words}")
        return "\n".join([*lines, *self.errors(), "", '=== Run "dump" command ===', ""])

    def errors(self):
        return []


class NewerChip(SimulatedChip):
    """A chip whose blocks have a Reed-Solomon code, but for block 0. Behind its blocks the file has the bits of those
    that were burnt by half."""

    words, names, hides = [6, 6, *(8 for _ in range(9))], NAMES, 32
    aliases = ["", *(f"BLOCK{block}" for block in range(1, 11))]
    locks = {block: (19 + block, block - 4 if block >= 4 else None) for block in range(1, 11)}
    family = "esp32s3"

    def factory(self, mac):
        """What a factory burns beside the MAC: a version in block 1, and a calibration in block 2."""
        return [0, int.from_bytes(mac, "big") | 2 << 114, 0x1234 << 128, *(0 for _ in range(9))]

    def mac(self):
        return f"{self.blocks[1] & (1 << 48) - 1:012x}"

    def burn(self, block, mask, forced=False):
        if block and self.blocks[block] and not forced:
            raise Fatal(f"\tBurn into {self.names[block]} is forbidden (RS coding scheme does not allow this).")
        super().burn(block, mask)

    def set(self, block, mask):
        if block:
            self.blocks[-1] |= 1 << block
        super().set(block, mask)
        self.blocks[-1] &= ~(1 << block)
        self.save()

    def key_wants(self, name, data, purpose):
        """The bits that `burn_key` burns, with the lock of the purpose, which no option keeps it from burning."""
        block, is_reversed = NAMES.index(name), f"{purpose}*" in PURPOSES
        purposes = {field["name"]: field for field in self.fields()}
        place = purposes[f"KEY_PURPOSE_{block - 4}"]
        number = PURPOSES.get(purpose, PURPOSES.get(f"{purpose}*"))
        key = int.from_bytes(data[::-1] if is_reversed else data, "little")
        return {block: key, 0: number << place["bit"] | 1 << place["write"]}

    def errors(self):
        """What espefuse says of blocks that were burnt by half."""
        failed = [block for block in range(1, 11) if self.blocks[-1] >> block & 1]
        told = [f"Error(s) in BLOCK{block} [ERRORS:7 FAIL:1]" for block in failed]
        return [*told, "", "BLOCK0          (                ) [0 ] err__regs: " + " ".join(6 * ["00000000"])]


def chip_class(family):
    return SimulatedChip if family not in NEWER else type("Chip", (NewerChip,), {"family": family})


def new_chip(family, mac, file, tool=()):
    """A new chip with a factory MAC, in a file: a simulated one, or by espefuse's words its virtual one, which is blank
    and gets its MAC burnt. That of an ESP32 is block 0's, with its CRC."""
    if not tool:
        chip_class(family)(bytes.fromhex(mac), str(file))
        return
    words = [*tool, "--chip", family, "--virt", "--path-efuse-file", file, "--do-not-confirm"]
    with tempfile.NamedTemporaryFile() as data:
        if family == "esp32":
            bits = int(mac, 16) | mac_crc(bytes.fromhex(mac)) << 48
            words += ["burn_bit", "BLOCK0", *[str(32 + place) for place in range(56) if bits >> place & 1]]
        else:
            data.write(bytes.fromhex(mac)[::-1] + bytes(18))
            data.flush()
            words += ["burn_block_data", "BLOCK1", data.name]
        subprocess.run(words, check=True, capture_output=True)


class Commands:
    """The commands that burn: what they want is burnt at once behind the last of them."""

    def __init__(self, chip, version):
        self.chip, self.wants, self.forced = chip, {}, False
        self.dash = "-" if version.startswith("5") else "_"

    def want(self, wants, forced):
        self.forced = forced
        for block, mask in wants.items():
            self.wants[block] = self.wants.get(block, 0) | mask

    def parsers(self, subparsers):
        names = [*self.chip.names, *(f"BLOCK{block}" for block in range(len(self.chip.words)))]
        for name in ("burn_bit", "burn_block_data", "burn_key"):
            parser = subparsers.add_parser(name.replace("_", self.dash))
            parser.set_defaults(burn=getattr(self, name))
            parser.add_argument("--force-write-always", action="store_true")
            if name == "burn_key":
                parser.add_argument("--no-protect-key", action="store_true")
                parser.add_argument("block", choices=KEYS if self.chip.family == "esp32" else self.chip.names)
            else:
                parser.add_argument("block", choices=names)
            parser.add_argument(*(["bit"] if name == "burn_bit" else ["file"]), nargs="+")

    def number(self, name):
        names = self.chip.names
        return names.index(name) if name in names else int(name[len("BLOCK") :])

    def burn_bit(self, args):
        self.want({self.number(args.block): sum(1 << int(bit) for bit in set(args.bit))}, args.force_write_always)

    def burn_block_data(self, args):
        block, data = self.number(args.block), Path(args.file[0]).read_bytes()
        if len(data) != 4 * self.chip.words[block]:
            raise Fatal(f"Data does not fit: the block{block} size is {4 * self.chip.words[block]} bytes")
        print(f"[{block:02}] {args.block:20} size={len(data):02} bytes, offset=00 - > [{data.hex(' ')}].")
        self.want({block: int.from_bytes(data, "little")}, args.force_write_always)

    def burn_key(self, args):
        data, more = Path(args.file[0]).read_bytes(), args.file[1:]
        protects = not args.no_protect_key if self.chip.family == "esp32" else more[0]
        self.want(self.chip.key_wants(args.block, data, protects), args.force_write_always)

    def run(self, words):
        parser = argparse.ArgumentParser()
        self.parsers(parser.add_subparsers(dest="command", required=True))
        args = parser.parse_args(words)
        args.burn(args)

    def run_script(self, text):
        """A script as espefuse has it: its names are those that are in reach of one."""
        mac = ":".join(re.findall("..", self.chip.mac()))
        shown = types.SimpleNamespace(get=lambda: f"{mac} (OK)")
        names = {"efuses": {"MAC": shown}, "esp": None, "args": None}
        names["esptool"] = types.SimpleNamespace(FatalError=Fatal)
        names["espefuse"] = lambda esp, efuses, args, command: self.run(command.split())
        exec(compile(text, "script", "exec"), names)

    def burn(self):
        self.chip.burn_all(self.wants, self.forced)


def ran(args, words):
    """A command over the chip in a file."""
    kind = chip_class(args.chip)
    if args.command == "make":
        kind(bytes.fromhex(words[0]), args.path_efuse_file)
        return
    chip = kind.at(args.path_efuse_file)
    version = getattr(args, "as")
    commands = Commands(chip, version)
    if args.command == "dump":
        print(chip.dump("dump" if version.startswith("5") else "read_regs", version), end="")
    elif args.command == "execute_scripts" and version.startswith("4"):
        commands.run_script(Path(words[0]).read_text("utf-8"))
    else:
        commands.run([args.command, *words])
    commands.burn()


def main():
    parser = argparse.ArgumentParser(description="A simulated chip behind espefuse's words.")
    parser.add_argument("--path-efuse-file", required=True, metavar="FILE", help="the chip")
    parser.add_argument("--chip", default="esp32", choices=("esp32", *NEWER), help="its family")
    parser.add_argument("--as", default="4.7.0", metavar="VERSION", help="the version of espefuse")
    parser.add_argument("--port", help=argparse.SUPPRESS)
    for passed_over in ("--virt", "--do-not-confirm"):
        parser.add_argument(passed_over, action="store_true", help=argparse.SUPPRESS)
    parser.add_argument("command")
    if "--help" in sys.argv:
        version = sys.argv[sys.argv.index("--as") + 1] if "--as" in sys.argv else "4.7.0"
        print(f"espefuse{'.py' if version.startswith('4') else ''} v{version}")
    args, words = parser.parse_known_args()
    try:
        ran(args, words)
    except Fatal as fatal:
        print(f"\nA fatal error occurred: {fatal}")
        return 2
    return 0


if __name__ == "__main__":
    sys.exit(main())
