"""The command `wanekupo` as a user gives it, in a folder that has its settings, and keys by openssl."""

import contextlib
import importlib.util
import io
import os
import shutil
import subprocess
import unittest
from unittest import mock

from support import DIGEST, MAC, MAP, ORDER, ROOT, StationCase

from wanekupo.cli.main import main

CLIENT = ROOT / "python"
OTHER_MAC = "240ac4000002"


def ran(*words, **environment):
    """The status of the command, its output and what it told on standard error, in this environment alone."""
    out, err = io.StringIO(), io.StringIO()
    with contextlib.redirect_stdout(out), contextlib.redirect_stderr(err):
        with mock.patch.dict(os.environ, environment, clear=True):
            try:
                status = main([str(word) for word in words])
            except SystemExit as stop:
                status = stop.code
    return status, out.getvalue(), err.getvalue()


HAS_KEYS = shutil.which("openssl") and importlib.util.find_spec("cryptography")
NEEDS_KEYS = unittest.skipUnless(HAS_KEYS, "there is no openssl, which makes keys, or no python3-cryptography")

# Kinds of keys, as `openssl req -newkey` names them.
KINDS = ["ec -pkeyopt ec_paramgen_curve:prime256v1", "rsa:2048", "ed25519"]


def made_key(folder, name, kind=KINDS[0]):
    """A key pair and a request for a certificate by openssl: name.key, .pem, .der, .csr and .csr.der."""
    for words in (
        f"req -new -newkey {kind} -nodes -keyout {name}.key -out {name}.csr -subj /CN=chip",
        f"req -in {name}.csr -outform DER -out {name}.csr.der",
        f"pkey -in {name}.key -pubout -out {name}.pem",
        f"pkey -in {name}.key -pubout -outform DER -out {name}.der",
    ):
        subprocess.run(["openssl", *words.split()], cwd=folder, check=True, stderr=subprocess.DEVNULL)


def digest_by_openssl(folder, name):
    words = ["openssl", "dgst", "-sha256", "-r", f"{name}.der"]
    done = subprocess.run(words, cwd=folder, capture_output=True, check=True)
    return done.stdout[:64].decode()


class CommandCase(StationCase):
    over_office = True

    def setUp(self):
        super().setUp()
        config = self.folder / ".config"
        config.mkdir(mode=0o700)
        (self.folder / "a1.token").write_text("abc\n", encoding="ascii")
        text = f'url = "{self.program.url}"\ntoken = "../a1.token"\nstate = "../a1.json"\njournal = "../a1.journal"\n'
        (config / "wanekupo.toml").write_text(text + 'seat = "a1"\n', encoding="ascii")

    def ran(self, *words, **environment):
        return ran(*words, HOME=str(self.folder), **environment)

    def made(self, count=2):
        """An order o1, the map, and devices that are registered."""
        with self.station(file="maker.json") as station:
            station.make_order(**{**ORDER, "macs": 0})
            station.import_map(MAP)
            for mac in (MAC, OTHER_MAC)[:count]:
                station.register(mac, "o1", DIGEST, self.chip(mac).read())
            station.plan(MAC, [])

    def taken_over(self):
        """The command's state file is this seat's from now on, so that it isn't a new one."""
        self.assertEqual(self.ran("number", "--resynchronize")[0], 0)
