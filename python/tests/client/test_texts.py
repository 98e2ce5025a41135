"""What espefuse prints and takes. Expected values are espefuse 4.7.0's own, printed by its virtual chip, and those of
docs/first-chip.md."""

import hashlib
import re
import tempfile
import unittest
from pathlib import Path

import support  # noqa: F401  finds the client
from wanekupo.chips.chip import chip_of, shows_work
from wanekupo.chips.espefuse import KeyFile, NoKey, burn_commands
from wanekupo.chips.families import BadDump, crc8, dump_of, family_of
from wanekupo.seat.replies import Word, Work

# Printed by `espefuse --chip esp32 --virt --path-efuse-file F dump`, of a virtual chip whose MAC was burnt.
DUMP = """espefuse.py v4.7.0
BLOCK0          (                ) [0 ] read_regs: 00110080 7e5a6e58 00e294b9 00008000 00000000 00100000 00000040
BLOCK1          (flash_encryption) [1 ] read_regs: 00000000 00000000 00000000 00000000 00000000 00000000 00000000 00000000
BLOCK2          (secure_boot_v1 s) [2 ] read_regs: 03020100 07060504 0b0a0908 0f0e0d0c 13121110 17161514 1b1a1918 1f1e1d1c
BLOCK3          (                ) [3 ] read_regs: 00000000 00000000 00000000 00000000 00000000 00000000 00000000 00000000

EFUSE_REG_DEC_STATUS        0x00000000

=== Run "dump" command ===
"""

# The SHA-256 of the bytes 0 to 31, from docs/first-chip.md.
KEY_SHA256 = "630dcd2966c4336691125448bbb25b4ff412a49c732db2c8abc1b8581bd710dd"
ESP32 = family_of("esp32")


def blocks_of(text):
    """The blocks of a dump as a bench of another kind may give them: plain lists."""
    return [list(words) for _, words in sorted(dump_of(ESP32, text).words.items())]


class Texts(unittest.TestCase):
    def setUp(self):
        self.path = str(Path(self.enterContext(tempfile.TemporaryDirectory())) / "a.key")
        Path(self.path).write_bytes(bytes(range(32)))

    def test_a_dump(self):
        blocks = blocks_of(DUMP)
        self.assertEqual([len(block) for block in blocks], [7, 8, 8, 8])
        self.assertEqual(blocks[0][:3], ["00110080", "7e5a6e58", "00e294b9"])
        self.assertEqual(blocks[2][7], "1f1e1d1c")
        for text in ("", DUMP.replace("[1 ]", "[4 ]"), DUMP.replace("read_regs", "regs_to_write")):
            with self.assertRaises(BadDump):
                blocks_of(text)

    def test_a_chip_is_its_factory_mac(self):
        """espefuse's summary of this chip says 94:b9:7e:5a:6e:58 (CRC 0xe2 OK)."""
        self.assertEqual(chip_of(blocks_of(DUMP)), "94b97e5a6e58")
        self.assertEqual(crc8(b"123456789"), 0xA1)  # the check value of CRC-8/MAXIM
        for other in (DUMP.replace("7e5a6e58", "7e5a6e59"), DUMP.replace("7e5a6e58 00e294b9", "00000000 00000000")):
            with self.assertRaises(ValueError):
                chip_of(blocks_of(other))

    def test_the_digest_of_a_key_file(self):
        """Reversed where espefuse says "Reversing the byte order"."""
        backwards = hashlib.sha256(bytes(range(31, -1, -1))).hexdigest()
        for name in ("BLOCK1", "BLOCK2", "BLOCK3", "secure_boot_v2"):
            self.assertEqual(KeyFile(self.path, name).digest(), KEY_SHA256)
        for name in ("flash_encryption", "secure_boot_v1"):
            self.assertEqual(KeyFile(self.path, name).digest(), backwards)
        Path(self.path).write_bytes(bytes(31))
        with self.assertRaises(ValueError):
            KeyFile(self.path, "BLOCK1").digest()

    def test_the_commands_of_a_batch(self):
        """Keys come first and block 0 last, one command for each block, and no lock with a key."""
        blank = dump_of(ESP32, re.sub("(?<=[: ])[0-9a-f]{8}(?=[ \n])", "00000000", DUMP))
        batch = Work((Word(0, 3, 0x80000001), Word(0, 6, 0x40), Word(3, 1, 2)), {"BLOCK2": KEY_SHA256})
        steps = burn_commands(batch, blank, {"BLOCK2": KeyFile(self.path, "secure_boot_v2")})
        self.assertEqual(
            [(*it.words, *([it.file.path] if it.file else [])) for it in steps],
            [
                ("burn_key", "--no-protect-key", "secure_boot_v2", self.path),
                ("burn_bit", "BLOCK3", "33"),
                ("burn_bit", "BLOCK0", "96", "127", "198"),
            ],
        )
        self.assertEqual(burn_commands(Work((), {}), blank, {}), [])
        for keys in ({}, {"BLOCK2": KeyFile(self.path, "secure_boot_v1")}):
            with self.assertRaises(NoKey):
                burn_commands(batch, blank, keys)

    def test_whether_a_chip_shows_a_batch(self):
        blocks = blocks_of(DUMP)
        self.assertTrue(shows_work(blocks, Work((Word(0, 6, 0x40), Word(0, 0, 0x110080)), {"BLOCK2": KEY_SHA256})))
        self.assertFalse(shows_work(blocks, Work((Word(0, 6, 0x41),), {})))
        self.assertFalse(shows_work(blocks, Work((), {"BLOCK1": hashlib.sha256(bytes(range(31, -1, -1))).hexdigest()})))
