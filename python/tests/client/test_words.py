"""The command line over the program."""

import io
import json
import shutil
import unittest
from unittest import mock

from support import DIGEST, MAC, MAP, StationCase, TlsProxy, rows

from commanding import ran

from wanekupo.seat.station import Station


class Terminal(io.StringIO):
    """What is written to a terminal."""

    def isatty(self):
        return True


class Words(StationCase):
    """The command line."""

    over_office = True

    def ran(self, *words, url=None):
        (self.folder / "a1.token").write_text("abc\n", encoding="ascii")
        common = ["--url", url or self.program.url, "--token", self.folder / "a1.token"]
        return ran(*common, "--state-file", self.folder / "a1.json", *words)

    @unittest.skipUnless(shutil.which("openssl"), "there is no openssl, which makes the certificates")
    def test_a_ca_of_the_plant(self):
        proxy = TlsProxy(self.program, self.folder)
        self.addCleanup(proxy.close)
        words = ["--patience", "600", "number"]
        status, out, err = self.ran(*words, url=proxy.url)
        self.assertEqual((status, out), (2, ""))
        self.assertIn("certificate isn't trusted", err)
        told = (0, '{"expected":1,"own":null}\n', "")
        self.assertEqual(self.ran("--ca", str(self.folder / "ca.pem"), *words, url=proxy.url), told)

    def test_an_import_of_a_file(self):
        """Its rows in parts, with a line that says how far it is where standard error is a terminal."""
        file = self.folder / "serials.csv"
        lines = [f"{serial},{digest}\n" for serial, digest in rows(" ".join(f"L{row}" for row in range(501)))]
        file.write_text("\ufeffserial,key_sha256\n\n" + "".join(lines), encoding="utf-8")
        words = ["import", "acme-ca", str(file)]
        self.assertEqual(self.ran(*words), (0, '{"added":501,"before":0,"present":0}\n', ""))
        with mock.patch.object(io, "StringIO", Terminal):
            told = "\rrows: 0 of 501\rrows: 500 of 501\rrows: 501 of 501\n"
            self.assertEqual(self.ran(*words), (0, '{"added":0,"before":0,"present":501}\n', told))
        for text, told in (
            ("serial,key\n", "The first line isn't serial,key_sha256.\n"),
            ("serial,key_sha256\n\nL1\n", "Line 3 has 1 fields, and not 2.\n"),
        ):
            file.write_text(text, encoding="utf-8")
            self.assertEqual(self.ran(*words)[::2], (2, told))

    def test_statuses(self):
        order = ["make-order", "o1", "acme-ca", "A", "--width", "3", "--first", "998", "--quantity", "2", "--yes"]
        status, out, _ = self.ran(*order)
        self.assertEqual((status, json.loads(out)["next"]), (0, "A998"))
        status, _, err = self.ran(*order)
        self.assertEqual((status, "(refusal 16, exists)" in err), (1, True))
        self.assertEqual(self.ran("map", str(self.folder / "none"))[0], 2)
        (self.folder / "map").write_text(MAP, encoding="utf-8")
        self.assertEqual(self.ran("map", str(self.folder / "map"))[1], f'{{"map":"{DIGEST}"}}\n')
        self.assertEqual(self.ran("finish")[1], f'{{"path":"/v1/map","reply":{{"map":"{DIGEST}"}}}}\n')
        self.assertEqual(self.ran("number")[1], '{"expected":3,"own":3}\n')
        with Station(self.program.url, "abc", self.folder / "other.json") as other:
            other.import_map(MAP)
        status, out, err = self.ran("ship", MAC)
        self.assertEqual((status, out), (5, ""))
        self.assertIn("/v1/ship was sent with number 3, and the server expects 4", err)
        self.assertIn("--resynchronize", err)
        self.assertEqual(self.ran("number")[1], '{"expected":4,"own":3}\n')
        self.assertEqual(self.ran("number", "--resynchronize")[1], '{"expected":4,"own":4}\n')
        status, _, err = self.ran("ship", MAC)
        self.assertEqual((status, "(refusal 15, unknown_device)" in err), (1, True))
        self.program.kill()
        self.assertEqual(self.ran("--patience", "0", "report")[0], 3)
        self.program.start()
        self.assertEqual(self.ran("report")[1].splitlines()[1:], ["o1,2,0,0,0,0,0,0,0,2"])
        chip, dump = self.chip(), self.folder / "dump"
        dump.write_text(chip.chip.dump(), encoding="ascii")
        self.assertEqual(self.ran("register", "o1", DIGEST, str(dump))[0], 0)
        self.assertEqual(self.ran("plan", MAC, "--bit", "JTAG_DISABLE=0")[0], 0)
        burnt = self.ran("burn", MAC, "--tool", "espefuse.py --port P")[1]
        self.assertEqual(burnt, "espefuse.py --port P --chip esp32 burn_bit BLOCK0 198\n")
        chip.chip.burn(0, 1 << 197)
        dump.write_text(chip.chip.dump(), encoding="ascii")
        rest = '"rest":{"bits":[],"keys":{}}'
        quarantined = f'{{"outcome":"stray",{rest},"state":"quarantined"}}\n'
        self.assertEqual(self.ran("readback", MAC, str(dump))[:2], (4, quarantined))
        for words in ([], ["--state", "quarantined"], ["--after", "000000000000"]):
            self.assertEqual(self.ran("devices", *words)[:2], (0, f"{MAC},o1,quarantined,stray,\n"))
        for words in (["--state", "shipped"], ["--after", MAC]):
            self.assertEqual(self.ran("devices", *words)[:2], (0, ""))
