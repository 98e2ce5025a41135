"""A bench that writes Matter's certificates: each device's is signed by a PAI behind its identity, before it is
shipped, by the hook `dac` of deploy/thermostat as it stands; and keys that no certificate of a profile has."""

import os
import shutil
import sys
import unittest
from unittest import mock

from certifying import need
from commanding import ran
from running import GREEN, BenchCase, script
from support import ROOT

PROFILE = "matter-dac:FFF1:8000"
P256 = "-newkey ec -pkeyopt ec_paramgen_curve:prime256v1 -noenc"
PAI = "basicConstraints=critical,CA:true,pathlen:0\nkeyUsage=critical,keyCertSign,cRLSign\n"
PAI += "subjectKeyIdentifier=hash\nauthorityKeyIdentifier=keyid:always\n"


def made_pai(folder):
    """The folder of a PAI, as devices.cnf has it, and beside it the PAA that signs it."""
    folder.mkdir()
    shutil.copy(ROOT / "deploy/ca/devices.cnf", folder / "ca.cnf")
    (folder / "pai.ext").write_text(PAI, encoding="ascii")
    more = "-addext basicConstraints=critical,CA:true,pathlen:1 -addext keyUsage=critical,keyCertSign,cRLSign"
    need(folder, f"openssl req -x509 {P256} -subj /CN=PAA {more} -keyout paa.key -out ../paa.pem")
    need(folder, "mkdir newcerts; touch index.txt; echo 01 > crlnumber")
    subject = "'/CN=Acme PAI/vid=FFF1'"
    need(folder, f"openssl req -config ca.cnf -new {P256} -subj {subject} -keyout ca.key -out ca.csr")
    need(folder, "openssl x509 -req -in ca.csr -CA ../paa.pem -CAkey paa.key -extfile pai.ext -days 9999 -out ca.pem")
    return folder


class Matter(BenchCase):
    def setUp(self):
        super().setUp()
        self.order()
        (self.folder / "bin").mkdir()
        script(self.folder / "bin" / "wanekupo", f'exec {sys.executable} -B -m wanekupo "$@"\n')
        named = {"PATH": f"{self.folder}/bin:{os.environ['PATH']}", "WANEKUPO_URL": self.program.url}
        self.enterContext(mock.patch.dict(os.environ, named))

    def bench(self, csr, hooks=None, profile=PROFILE):
        """A bench for two parts without fuses, whose requests this script makes."""
        self.csr = script(self.folder / "make-csr", csr)
        names = {it: script(self.folder / f"name-{it}", f"echo 02:00:00:00:00:a{it}\n") for it in (1, 2)}
        top = {"map": str(ROOT / "python/wanekupo/chips/families/none/map.toml"), "family": "none"}
        sockets = {"left": [names[1]], "right": [names[2]]}
        server = {"profile": profile}
        return self.run_bench(self.recipe(top=top, wishes=[], sockets=sockets, hooks=hooks, server=server))

    @unittest.skipUnless(shutil.which("flock"), "there is no flock")
    def test_each_is_written(self):
        """Two sockets at once: each device has the certificate of its own key, by the PAI, once."""
        pai, sample = made_pai(self.folder / "pai"), ROOT / "deploy/thermostat"
        (self.folder / "look.token").write_text("abc\n", encoding="ascii")
        hook = (sample / "dac").read_text(encoding="utf-8").partition("\n")[2]
        tool = 'mkdir -p "written/$SERIAL"; cp "$FOLDER"/*.der "written/$SERIAL"\n'
        hooks = {"before_ship": {"command": [script(self.folder / "dac", hook + tool)], "timeout": 60}}
        bench = self.bench((sample / "make-csr").read_text(encoding="utf-8").partition("\n")[2], hooks)
        for socket in ("left", "right"):
            bench.said(socket)
        told = sorted(bench.ended(socket) for socket in ("left", "right"))
        shipped = [f"The chip is shipped as {it}: {GREEN}." for it in ("A001", "A002")]
        self.assertEqual(told, [("PASS", "passed", it) for it in shipped])
        for serial in ("A001", "A002"):
            written = self.folder / "written" / serial
            need(written, "openssl x509 -inform DER -in dac.der -out dac.pem; openssl x509 -in pai.der -out pai.pem")
            need(written, "openssl verify -x509_strict -trusted ../../paa.pem -untrusted pai.pem dac.pem")
            named = need(written, "openssl x509 -in dac.pem -noout -subject -nameopt oid,utf8,sep_comma_plus")
            oids = "1.3.6.1.4.1.37244.2"
            self.assertEqual(named, f"subject=2.5.4.5={serial},{oids}.1=FFF1,{oids}.2=8000\n")
            keys = "openssl x509 -in dac.pem -noout -pubkey", "openssl pkey -inform DER -in dac-key.der -pubout"
            self.assertEqual(*(need(written, it) for it in keys))
            words = ["verify", written / "dac.pem", "--trusted", pai / "ca.pem", "--profile"]
            look = ["--token", self.folder / "abc.token", "--url", self.program.url]
            seen = [ran(*look, *words, it)[0] for it in ("plain", "matter-dac:FFF1:8001", PROFILE)]
            self.assertEqual(seen, [1, 1, 0])
        self.assertEqual(sum("serialNumber" in it for it in (pai / "index.txt").read_text().splitlines()), 2)

    def test_a_key_of_another_kind(self):
        """The chip gets no record: the line stops, and the next chip's key is made by a command that was mended."""
        for kind, profile, told in (
            ("-newkey rsa:1024", "plain", "its key is RSA of 1024 bits, and not of 2048 or more"),
            ("-newkey ed25519", PROFILE, "its key is of another kind (Ed25519PublicKey), and not EC on secp256r1"),
        ):
            with self.subTest(told):
                made = f'openssl req -new {kind} -noenc -subj "/CN=$CHIP" -keyout "$FOLDER/key.pem"'
                bench = self.bench(f'{made} -out "$FOLDER/identity.csr"\n', None, profile)
                bench.said("left")
                word, reason, said = bench.ended("left")
                self.assertEqual((word, reason), ("FAIL", "no_public_key"))
                self.assertIn(told, said)
                self.assertEqual(self.asked("GET", "/v1/device?chip=0200000000a1")[1]["state"], "settled")
                bench.end()
