"""`wanekupo burn`: what it prints is run by a shell, over simulated chips and over espefuse's virtual ones.

Expected are the outcomes of docs/integrate/api.md, and that no key is on a screen, whoever runs the lines.
"""

import json
import os
import shlex
import subprocess
import sys

from commanding import CommandCase
from simulated_chip import NEWER, new_chip
from support import SIMULATED

TOOL = shlex.split(os.environ.get("ESPEFUSE", ""))
KEY = bytes(range(0xA0, 0xC0))

# What a key is burnt as, in which block; that of a digest has the bytes of its file as they are.
TURNED = {"esp32": ("BLOCK1", "flash_encryption"), **dict.fromkeys(NEWER, ("BLOCK_KEY0", "XTS_AES_128_KEY"))}
AS_THEY_ARE = {"esp32": ("BLOCK2", "secure_boot_v2"), **dict.fromkeys(NEWER, ("BLOCK_KEY1", "SECURE_BOOT_DIGEST0"))}


def jtag_of(family):
    """A bit that shuts a way to its JTAG."""
    return {"esp32": "JTAG_DISABLE", "esp32s2": "HARD_DIS_JTAG"}.get(family, "DIS_PAD_JTAG")


class Burning(CommandCase):
    """A chip of each family in the file `chip`, behind simulated words of espefuse or its own."""

    over_office = False

    def setUp(self):
        super().setUp()
        (self.folder / "a key").write_bytes(KEY)
        order = "make-order o1 acme-ca A --width 3 --first 1 --quantity 99".split()
        self.assertEqual(self.ran(*order)[0], 0)

    def tool(self, version):
        """The command of the chip; espefuse's own is of version 4."""
        own = [*TOOL, "--virt"] if TOOL and version == "4.7.0" else [sys.executable, "-B", SIMULATED, "--as", version]
        return shlex.join(map(str, [*own, "--path-efuse-file", self.folder / "chip"]))

    def shown(self, family, tool):
        """The file with what the chip shows."""
        words = [*shlex.split(tool), "--chip", family, "dump"]
        done = subprocess.run(words, capture_output=True, check=True, text=True)
        (self.folder / "dump").write_text(done.stdout, encoding="ascii")
        return self.folder / "dump"

    def planned(self, mac, family, tool):
        """Registers the chip and has two keys planned, with the locks of one. The words that name the keys."""
        digest = json.loads(self.ran("map", f"{family}.toml")[1])["map"]
        own = ["--family", family]
        self.assertEqual(self.ran("register", "o1", digest, self.shown(family, tool), *own)[0], 0)
        keys = [f"{block}={self.folder / 'a key'}:{name}" for block, name in (TURNED[family], AS_THEY_ARE[family])]
        words = [word for key in keys for word in ("--key", key)] + own
        locks = ["--wlock", TURNED[family][0], "--rlock", TURNED[family][0]]
        self.assertEqual(self.ran("plan", mac, "--bit", f"{jtag_of(family)}=0", *words, *locks)[0], 0, family)
        return words

    def burnt(self, mac, words, tool, family):
        """Runs what the command prints for the batch that is awaited; then the outcome and the state by a read-back."""
        status, lines, err = self.ran("burn", mac, "--tool", tool, *words)
        self.assertEqual((status, err), (0, ""))
        self.assertTrue(lines)
        done = subprocess.run(["sh", "-e"], input=lines, capture_output=True, text=True, cwd="/")
        self.assertEqual(done.returncode, 0, (lines, done.stdout, done.stderr))
        for seen in (lines, done.stdout, done.stderr):
            for key in (KEY, KEY[::-1]):
                for text in (key.hex(), key.hex(" "), key[:8].hex(), key[:8].hex(" ")):
                    self.assertNotIn(text, seen.lower())
        reply = json.loads(self.ran("readback", mac, self.shown(family, tool), "--family", family)[1])
        return reply["outcome"], reply["state"]

    def test_what_it_prints_burns_all_families(self):
        """Both batches, by the words of version 4 and of 5. Over simulated chips the newer families are alike."""
        families = ("esp32", *(NEWER if TOOL else ["esp32s3"]))
        cases = [*((name, "4.7.0") for name in families), ("esp32", "5.1.0"), ("esp32c6", "5.1.0")]
        for place, (family, version) in enumerate(cases, 1):
            with self.subTest(family, version=version):
                mac, tool = f"7cdfa10000{place:02x}", self.tool(version) + " --do-not-confirm"
                (self.folder / "chip").unlink(missing_ok=True)
                new_chip(family, mac, self.folder / "chip", TOOL if version == "4.7.0" else ())
                words = self.planned(mac, family, tool)
                self.assertEqual(self.burnt(mac, words, tool, family), ("match", "awaiting2"))
                self.assertEqual(self.burnt(mac, words, tool, family), ("match", "settled"))
