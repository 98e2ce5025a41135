"""Keys that a command makes at a bench, one for each chip.

Expected values are those of docs/line/bench.md.
"""

import base64
import hashlib
import json
import os
import re
import secrets
import shutil
import subprocess
import sys
import unittest
from pathlib import Path

from running import RED, BenchCase, macs_of, script
from simulated_chip import SimulatedChip
from support import MAC, ROOT

LIBRARY = "/usr/lib/softhsm/libsofthsm2.so"


class MadeKeys(BenchCase):
    over_office = True

    def test_keys_that_a_command_makes(self):
        """Each chip gets its own, whose file is there before the plan; a chip whose file is gone isn't burnt."""
        self.needs_program()
        make = script(self.folder / "make-key", 'head -c 32 /dev/urandom > "$KEY_FILE"\n')
        short = script(self.folder / "short", 'head -c 31 /dev/urandom > "$KEY_FILE"\n')
        wish = {"kind": "key", "field": "BLOCK1", "command": [make], "burnt_as": "flash_encryption"}
        self.order()
        bench = self.run_bench(self.recipe(wishes=[wish], top={"keep_folder": True}))
        for mac in macs_of(2):
            self.put("left", mac)
            bench.said("left")
            bench.until(lambda board: board["sockets"][0]["chip"] == mac and board["sockets"][0]["state"] == "PASS")
            self.take("left", mac)
        keys = [(self.folder / "a1.json.bench/chips" / mac / "BLOCK1.key").read_bytes() for mac in macs_of(2)]
        self.assertNotEqual(*keys)
        for mac, key in zip(macs_of(2), keys):
            known = self.asked("GET", f"/v1/device?chip={mac}")[1]["keys"]
            self.assertEqual(known, {"BLOCK1": hashlib.sha256(key[::-1]).hexdigest()})
        bench.end()
        bench = self.run_bench(self.recipe(wishes=[{**wish, "command": [short]}]))
        self.put("left", "240ac4000003")
        bench.said("left")
        self.assertEqual(bench.ended("left")[1], "no_key")

    def test_a_key_that_is_gone(self):
        """A chip that awaits it, or has it and its identity, is put aside, and no other key is made."""
        make = script(self.folder / "make-key", 'head -c 32 /dev/urandom > "$KEY_FILE"\n')
        wish = {"kind": "key", "field": "BLOCK1", "command": [make], "burnt_as": "flash_encryption"}
        self.order()
        stuck = {"sockets": {"left": [self.other_tool("none_such"), *self.socket_of("left")[3:]]}}
        broken = {"hooks": {"before_ship": {"command": [script(self.folder / "broken", "exit 3\n")]}}}
        for mac, more, reason in ((MAC, stuck, "no_burn"), (macs_of(2)[1], broken, "hook_failed")):
            bench = self.run_bench(self.recipe(wishes=[wish], **more))
            self.put("left", mac)
            bench.said("left")
            self.assertEqual(bench.ended("left")[1], reason)
            bench.end()
            file, before = self.folder / f"a1.json.bench/chips/{mac}/BLOCK1.key", self.blocks()
            file.unlink()
            bench = self.run_bench(self.recipe(wishes=[wish]))
            bench.said("left")
            told = f"The chip has or awaits a key that isn't on this bench ({file}: No such file or directory): {RED}."
            self.assertEqual((*bench.ended("left")[1:], self.blocks()), ("lost_key", told, before))
            bench.end()
            self.take("left", mac)

    def blocks(self):
        return list(SimulatedChip.at(self.folder / "places" / "left").blocks)


class PrintedKeys(BenchCase):
    """Keys that a command prints, as a token unwraps them: they are in no file but the chip's own."""

    over_office = True
    SOCKETS = ("left",)

    def setUp(self):
        """A key of the chip and of this run, which no file has."""
        super().setUp()
        self.name = f'printf %s "${{CHIP}}{self.folder.name}" |'
        self.printing = f'echo "for $CHIP $FIELD" >&2; {self.name} sha256sum | cut -c -64\n'
        self.key = hashlib.sha256(f"{MAC}{self.folder.name}".encode()).digest()
        self.others = set(Path("/dev/shm").rglob("*"))

    def bench(self, printed="", tool=None):
        own = {"command": [script(self.folder / "print-key", printed or self.printing)], "timeout": 20}
        key = {"kind": "key", "field": "BLOCK1", "key": own, "burnt_as": "flash_encryption"}
        locks = [{"kind": kind, "field": "BLOCK1"} for kind in ("wlock", "rlock")]
        sockets = {"left": [tool, *self.socket_of("left")[3:]]} if tool else None
        bench = self.run_bench(self.recipe(wishes=[key, *locks], sockets=sockets))
        bench.said("left")
        return bench

    def holding(self):
        """The names of the files that have eight bytes of the key, in either direction: raw, as hexadecimal digits in
        bytes or words, with what may part them, or in base64. The chip's own files are none."""
        found = set()
        pieces = [data[at : at + 8] for data in (self.key, self.key[::-1]) for at in (0, 8, 16, 24)]
        digits = [it.hex().encode() for piece in pieces for it in (piece, piece[3::-1] + piece[:3:-1])]
        whole = [base64.b64encode(it)[:40] for it in (self.key, self.key[::-1])]
        shared = set(Path("/dev/shm").rglob("*")) - self.others
        for file in [it for it in (*self.folder.rglob("*"), *shared) if it.is_file()]:
            data = file.read_bytes() if file.exists() else b""
            bare = re.sub(rb"[^0-9a-f]", b"", data.lower())
            if any(it in data for it in (*pieces, *whole)) or any(it in bare for it in digits):
                found.add(file.name)
        return found - {"left", f"chip-{MAC}"}

    def waiting_tool(self, burns):
        """The simulated chip, which waits for the file `go` where it is to burn, and may have burnt by then."""
        words = f"{sys.executable} {self.socket_of('left')[2]}"
        waits = f'{burns} && {words} "$@"; touch begun; while [ ! -e go ]; do sleep 0.1; done; rm begun go'
        case = f'case "$*" in *execute_scripts*) {waits}; exit;; esac\n'
        return script(self.folder / "tool", f'{case}exec {words} "$@"\n')

    def test_it_is_in_no_file(self):
        """Behind an unplugged chip, a kill while it is burnt, one while the server has to be told what it shows, and a
        life. The key is the same each time."""
        self.needs_program()
        self.order()
        self.put("left", MAC)
        bench = self.bench(tool=self.other_tool("none_such"))
        self.assertEqual((bench.ended("left")[1], self.holding()), ("no_burn", set()))
        bench.end()
        bench = self.bench(tool=self.waiting_tool("false"))
        bench.until(lambda _: (self.folder / "begun").exists(), "to be burnt")
        self.assertEqual(self.holding(), set())
        bench.process.kill()
        (self.folder / "go").touch()
        bench.gone()
        self.assertEqual(self.holding(), set())
        bench = self.bench(tool=self.waiting_tool("true"))
        bench.until(lambda _: (self.folder / "begun").exists(), "burnt")
        self.program.kill()
        (self.folder / "go").touch()
        bench.until(lambda board: board["away"], "away")
        bench.kill()
        under_way = json.loads((self.folder / "a1.json").read_bytes())["under_way"]
        self.assertEqual((under_way["path"], self.holding()), ("/v1/readback", set()))
        self.program.start()
        self.assertEqual((self.bench().ended("left")[1], self.holding()), ("passed", set()))
        (told,) = [it["told"] for it in self.logged() if "told" in it]
        self.assertIn(f"/v1/readback of chip {MAC}", told)
        self.assertIn("The server has not accepted that number.", told)
        known = self.asked("GET", f"/v1/device?chip={MAC}")[1]["keys"]
        self.assertEqual(known, {"BLOCK1": hashlib.sha256(self.key[::-1]).hexdigest()})
        self.assertNotIn("for ", "".join(it.get("output", "") for it in self.logged()))

    def test_what_a_command_prints(self):
        """Its environment is bare, and what it says is told where it fails. 32 bytes or 64 digits are a key; another
        one than the chip awaits isn't burnt."""
        self.order()
        self.put("left", MAC)
        names = "env | cut -d = -f 1 | sort | tr '\\n' ' ' >&2; exit 1\n"
        stuck = self.other_tool("none_such")
        for printed, reason, told in (
            (names, "hook_failed", "(CHIP FIELD HOME OPERATOR ORDER PATH PWD SOCKET"),
            (f"{self.printing}echo more\n", "no_key", "printed neither 32 bytes nor 64 hexadecimal digits"),
            (f"{self.name} openssl dgst -sha256 -binary\n", "no_burn", "espefuse can't burn the chip"),
            ("head -c 32 /dev/zero\n", "lost_key", "(key of BLOCK1 is another one)"),
            ("", "no_burn", "espefuse can't burn the chip"),
        ):
            bench = self.bench(printed, stuck)
            self.assertEqual(bench.ended("left")[1], reason)
            self.assertIn(told, bench.ended("left")[2])
            bench.end()

    @unittest.skipUnless(shutil.which("pkcs11-tool") and Path(LIBRARY).exists(), "no opensc, or no softhsm2")
    def test_the_example_that_unwraps(self):
        """deploy/thermostat/unwrap-key over a token of softhsm2: what the token's public key wrapped is burnt."""
        self.needs_program()
        (tokens := self.folder / "tokens").mkdir()
        (settings := self.folder / ".config/softhsm2").mkdir(parents=True)
        (settings / "softhsm2.conf").write_text(f"directories.tokendir = {tokens}\n", encoding="ascii")
        (self.folder / "pin").write_text("1234", encoding="ascii")
        self.key = secrets.token_bytes(32)
        tool, own = f"pkcs11-tool --module {LIBRARY}", "--token-label flash --login"
        for words in (
            f"{tool} --init-token --slot-index 0 --label flash --so-pin 12345678",
            f"{tool} {own} --login-type so --so-pin 12345678 --init-pin --pin 1234",
            f"{tool} {own} --pin 1234 --keypairgen --key-type RSA:2048 --label unwrap --id 01",
            f"{tool} {own} --pin 1234 --read-object --type pubkey --id 01 -o unwrap.der",
            "openssl pkeyutl -encrypt -pubin -keyform DER -inkey unwrap.der -pkeyopt rsa_padding_mode:oaep "
            "-in /dev/stdin -out BLOCK1.wrapped",
        ):
            home = {**os.environ, "HOME": str(self.folder)}
            subprocess.run(words.split(), cwd=self.folder, env=home, input=self.key, capture_output=True, check=True)
        self.order()
        self.put("left", MAC)
        bench = self.bench(f'exec "{ROOT}/deploy/thermostat/unwrap-key"\n')
        self.assertEqual((bench.ended("left")[1], self.holding()), ("passed", set()))
        known = self.asked("GET", f"/v1/device?chip={MAC}")[1]["keys"]
        self.assertEqual(known, {"BLOCK1": hashlib.sha256(self.key[::-1]).hexdigest()})
