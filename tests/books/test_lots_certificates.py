"""Certificates of a lot, over the built program behind nginx, held to the records.

Devices get their certificates by `openssl ca`, whose key is in a token of softhsm2 by PKCS #11: each has to verify
under the CA by openssl and against its record, a second run may issue none, and another customer's token gets none.
"""

import contextlib
import json
import os
import shutil
import tempfile
import threading
from concurrent.futures import ThreadPoolExecutor
from pathlib import Path

import pytest
from cryptography import x509
from cryptography.hazmat.primitives import hashes, serialization
from cryptography.hazmat.primitives.asymmetric import ec

from books.lots_place import FAST, chip_of, opened_lots, rows_of
from common.deployed import ran
from common.needs import ROOT

ENGINE = "/usr/lib/x86_64-linux-gnu/engines-3/pkcs11.so"
pytestmark = [pytest.mark.root, pytest.mark.nginx, pytest.mark.sizes(120, 5000)]
pytestmark += [pytest.mark.needs("pkcs11-tool", "softhsm2-util", ENGINE)]

# At most so many devices get a certificate. Some of the first are scrapped.
CERTIFIED = 500
FULL, PAGE = 10, 4096
LIBRARY = "/usr/lib/softhsm/libsofthsm2.so"
PIN = {"PIN": "48151623", "SO_PIN": "42108642"}


# ---- keys of devices


def made_pairs(folder, certified):
    """The key pairs of the first devices of acme's first order, with their requests for certificates, as a bench makes
    them. The SubjectPublicKeyInfo of each is given by its issuer and chip."""
    keys = {}
    for place in range(certified):
        chip, pair = chip_of(0, place), ec.generate_private_key(ec.SECP256R1())
        subject = x509.Name([x509.NameAttribute(x509.NameOID.COMMON_NAME, chip)])
        request = x509.CertificateSigningRequestBuilder().subject_name(subject).sign(pair, hashes.SHA256())
        (folder / f"{chip}.csr").write_bytes(request.public_bytes(serialization.Encoding.PEM))
        forms = serialization.Encoding.DER, serialization.PublicFormat.SubjectPublicKeyInfo
        keys["acme-ca", chip] = pair.public_key().public_bytes(*forms)
    return keys


# ---- certificates


def made_ca(folder):
    """The CA of deploy/ca/devices.cnf with its key in a token, whose PIN is in a file."""
    (folder / "tokens").mkdir(parents=True)
    settings = f"directories.tokendir = {folder}/tokens\nlog.level = ERROR\n"
    (folder / "softhsm2.conf").write_text(settings, encoding="ascii")
    os.environ |= {"SOFTHSM2_CONF": str(folder / "softhsm2.conf"), **PIN}
    with open(os.open(folder / "pin", os.O_WRONLY | os.O_CREAT, 0o600), "w", encoding="ascii") as pin:
        pin.write(PIN["PIN"])
    uri = f"pkcs11:token=devices;object=ca;type=private?pin-source={folder}/pin"
    config = (ROOT / "deploy/ca/devices.cnf").read_text(encoding="utf-8")
    for old, new in (
        ("# pkcs11 = pkcs11\n", "pkcs11 = pkcs11\n"),
        ("private_key = $dir/ca.key\n", f'private_key = "{uri}"\n'),
    ):
        assert old in config
        config = config.replace(old, new, 1)
    (folder / "ca.cnf").write_text(config, encoding="utf-8")
    (folder / "newcerts").mkdir()
    (folder / "index.txt").touch()
    tool = f"pkcs11-tool --module {LIBRARY}"
    engine = "-engine pkcs11 -keyform engine"
    for words in (
        f"{tool} --init-token --slot-index 0 --label devices --so-pin env:SO_PIN",
        f"{tool} --token-label devices --login --login-type so --so-pin env:SO_PIN --init-pin --pin env:PIN",
        f"{tool} --token-label devices --login --pin env:PIN --keypairgen --key-type EC:prime256v1 --label ca --id 01",
        f"openssl req -config ca.cnf {engine} -new -key {uri} -subj /O=Acme/CN=acme-ca -out ca.csr",
        f"openssl ca -config ca.cnf {engine} -selfsign -batch -notext -policy anybody -extensions root "
        "-enddate 99991231235959Z -in ca.csr -out ca.pem",
    ):
        done = ran(words.split(), folder)
        assert done.returncode == 0, (words, done.stderr)
    return folder


class Lot:
    """The place, a CA, and a spool with the requests of acme's first order; those of scrapped devices are refused."""

    def __init__(self, place, pairs):
        self.place, self.pairs = place, pairs
        self.ca, self.spool = made_ca(place.folder / "ca"), place.folder / "spool"
        self.spool.mkdir()
        rows = [row for row in rows_of(place.copy(), "acme") if row[10] == "o1"]
        scrapped, self.serials = {row[2] for row in rows if row[8] == "scrapped"}, {row[2]: row[0] for row in rows}
        for file in pairs.glob("*.csr"):
            shutil.copy(file, self.spool / f"{self.serials[file.stem]}.csr")
        self.in_use = len(rows) - sum(row[8] == "scrapped" for row in rows)
        self.refused = sum(file.stem in scrapped for file in pairs.glob("*.csr"))
        self.certified = len(list(pairs.glob("*.csr"))) - self.refused

    def certify(self, seat, spool=None, ca=None):
        return self.place.ran(seat, "certify", spool or self.spool, "--ca-folder", ca or self.ca)


@pytest.fixture(scope="module")
def lot(program, size):
    """A lot whose spool was certified: another customer's token got none, each got one, and the PIN was in no words."""
    with tempfile.TemporaryDirectory() as name:
        pairs = Path(name)
        keys = made_pairs(pairs, min(size, CERTIFIED))
        with opened_lots(program, FAST, keys, size) as place:
            lot = Lot(place, pairs)
            lot.by_another = lot.certify("b1")
            is_over = threading.Event()
            with ThreadPoolExecutor(1) as beside:
                seen = beside.submit(seen_in_arguments, PIN["PIN"].encode(), is_over)
                lot.by_own = lot.certify("a1")
                is_over.set()
            lot.is_pin_seen = seen.result()
            yield lot


def test_another_customers_token(lot):
    status, out, *_ = lot.by_another
    assert (status, list(json.loads(out).values())) == (1, [0, 0, lot.certified + lot.refused])


def test_the_pin_is_in_no_words(lot):
    assert not lot.is_pin_seen


def test_a_spool(lot, found):
    """Each gets its certificate, but those that are scrapped; openssl's index has each once."""
    status, out, told, seconds = lot.by_own
    found(f"lots: {lot.certified} certificates by a token of softhsm2: {seconds:.1f} s")
    assert lot.refused > 0
    assert (status, list(json.loads(out).values())) == (1, [lot.certified, 0, lot.refused]), told
    assert told.count("which is scrapped") == lot.refused
    rows = [row.split("\t") for row in (lot.ca / "index.txt").read_text(encoding="ascii").splitlines()[1:]]
    subjects = [f"/serialNumber={file.stem}" for file in sorted(lot.spool.glob("*.pem"))]
    assert sorted(row[5] for row in rows) == subjects


def test_a_second_run_issues_none(lot):
    _, out, *_ = lot.certify("a1")
    assert list(json.loads(out).values()) == [0, lot.certified, lot.refused]


def test_each_verifies(lot):
    """By openssl under the CA, and against its record; against another customer's none does."""
    files, trusted = sorted(lot.spool.glob("*.pem")), lot.ca / "ca.pem"
    done = ran(["openssl", "verify", "-x509_strict", "-trusted", trusted, *files])
    assert (done.returncode, done.stdout.count(": OK")) == (0, lot.certified)
    status, out, told, _ = lot.place.ran("a1", "verify", *files, "--trusted", trusted)
    assert (status, out.count(": as its record"), told) == (0, lot.certified, "")
    status, _, told, _ = lot.place.ran("b1", "verify", files[0], "--trusted", trusted)
    assert (status, "another key than the record" in told) == (1, True), told


@pytest.fixture
def full_disk(lot):
    """A folder on a disk of its own, of 4 MB."""
    disk = lot.place.folder / "full"
    disk.mkdir()
    assert ran(["mount", "-t", "tmpfs", "-o", "size=4m,mode=700", "lots", disk]).returncode == 0
    yield disk
    ran(["umount", disk])


def subjects_of(files):
    found = (ran(["openssl", "x509", "-in", it, "-noout", "-subject"]).stdout for it in files)
    return sorted(it for it in found if "serialNumber" in it)


@pytest.mark.needs("mounts")
def test_a_full_disk(lot, full_disk):
    """A CA whose disk is full, which is told, and then isn't: each record gets one certificate."""
    ca, spool, filler, told = made_ca(full_disk / "ca"), lot.place.folder / "few", full_disk / "filler", []
    spool.mkdir()
    for pages, file in enumerate(sorted(lot.pairs.glob("*.csr"))[1 : FULL + 1]):
        shutil.copy(file, spool / f"{lot.serials[file.stem]}.csr")
        filler.write_bytes(bytes((shutil.disk_usage(full_disk).free // PAGE - pages) * PAGE))
        status, _, error, _ = lot.certify("a1", spool, ca)
        told += [error] if status else []
        filler.unlink()
        status, _, error, _ = lot.certify("a1", spool, ca)
        assert status == 0, error
    told = [it for it in told if "is almost full" in it or "No space left" in it]
    files = list(spool.glob("*.pem"))
    assert (len(files), len(told)) == (FULL, FULL)
    assert subjects_of((ca / "newcerts").glob("*.pem")) == subjects_of(files)


def seen_in_arguments(secret, is_over):
    """Whether any process of the machine has a secret in its words, looked at again and again."""
    while not is_over.wait(0.02):
        for file in Path("/proc").glob("[0-9]*/cmdline"):
            with contextlib.suppress(OSError):
                if secret in file.read_bytes():
                    return True
    return False


def test_clouds(lot):
    """Files for clouds of an order: where the spool has all of its devices in use they have each, else none is made."""
    more = ["--spool", lot.spool, "--aws", "aws.jsonl", "--azure", "azure.jsonl", "--out", "joined.csv"]
    status, _, told, _ = lot.place.ran("a1", "manifest", "o1", *more)
    if lot.in_use != lot.certified:
        assert (status, "has no" in told) == (2, True), told
        return
    files = [lot.place.folder / name for name in ("aws.jsonl", "azure.jsonl")]
    assert (status, [len(it.read_text("ascii").splitlines()) for it in files]) == (0, [lot.certified] * 2), told
