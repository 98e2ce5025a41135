"""What tests of seals have around the command: how it is run, and a time-stamp service of its own (RFC 3161), made of
`openssl ts -reply`."""

import contextlib
import os
import subprocess
import tempfile
import time
from pathlib import Path

from books.seal_plant import END, START
from common.commands import command
from common.ports import Answering, answered

PERIOD = ["--from", START, "--to", END]
SECONDS = 600


SIGNED = "-days 2 -extfile use -out tsa.pem"
CONFIG = """[tsa]
default_tsa = own
[own]
serial = {folder}/tsa.serial
crypto_device = builtin
signer_cert = {folder}/tsa.pem
certs = {folder}/tsa-ca.pem
signer_key = {folder}/tsa.key
signer_digest = sha256
default_policy = 1.2.3.4.1
digests = sha256
accuracy = secs:1
ordering = yes
"""


def make_keys(folder):
    """A CA, and the service's certificate, which may stamp and nothing else."""
    made = {"cwd": folder, "check": True, "capture_output": True}
    key = "-newkey ec -pkeyopt ec_paramgen_curve:prime256v1 -nodes".split()
    (folder / "use").write_text("extendedKeyUsage = critical,timeStamping\nkeyUsage = critical,digitalSignature\n")
    for words in (
        ["req", "-x509", *key, *"-keyout tsa-ca.key -out tsa-ca.pem -days 2 -subj /CN=stamps".split()],
        ["req", *key, *"-keyout tsa.key -out tsa.csr -subj /CN=stamp".split()],
        [*"x509 -req -in tsa.csr -CA tsa-ca.pem -CAkey tsa-ca.key -CAcreateserial".split(), *SIGNED.split()],
    ):
        subprocess.run(["openssl", *words], **made)
    (folder / "tsa.serial").write_text("01\n")
    (folder / "tsa.conf").write_text(CONFIG.format(folder=folder))


class Service(Answering):
    """Answers a query with a stamp; or with a page, or with the stamp before."""

    def do_POST(self):
        folder = self.server.folder
        (folder / "query").write_bytes(self.rfile.read(int(self.headers["Content-Length"])))
        if self.server.fault != "old":
            words = "openssl ts -reply -config tsa.conf -section own -queryfile query -out reply"
            subprocess.run(words.split(), cwd=folder, check=True, capture_output=True)
        body = b"<html>" if self.server.fault == "page" else (folder / "reply").read_bytes()
        self.answer(200, "application/timestamp-reply", body)


@contextlib.contextmanager
def stamp_service(folder: Path):
    """The service, over a folder with its keys."""
    with answered(Service) as server:
        server.folder, server.fault, server.url = folder, "", f"http://127.0.0.1:{server.server_address[1]}/"
        yield server


def environment():
    return {**os.environ, "HOME": "/nonexistent"}


def words_of(words):
    """The words of a command; an audit has the tests' program answer, where it names no other one."""
    is_bare = words[0] == "audit" and "--program" not in words
    return [*map(str, words), *(["--program", os.environ["STATION_PROGRAM"]] if is_bare else [])]


def run(*words, program=command("wanekupo"), folder=None):
    """The status of the command, run in a folder, and what it printed on both outputs."""
    made = {"env": environment(), "capture_output": True, "text": True, "timeout": SECONDS, "cwd": folder}
    done = subprocess.run([*program, *words_of(words)], **made)
    return done.returncode, done.stdout + done.stderr


def measured(*words):
    """The same with the seconds and the megabytes of memory that it took."""
    begun = time.monotonic()
    with tempfile.TemporaryFile("w+") as out:
        words = [*command("wanekupo"), *words_of(words)]
        process = subprocess.Popen(words, env=environment(), stdout=out, stderr=subprocess.STDOUT)
        _, status, used = os.wait4(process.pid, 0)
        process.returncode = os.waitstatus_to_exitcode(status)
        out.seek(0)
        return process.returncode, out.read(), time.monotonic() - begun, used.ru_maxrss / 1024


def expect_said(told, words):
    """Fails unless all words are in what was told; without words nothing was to be found."""
    status, text = told
    assert status == (1 if words else 0), text
    assert not [word for word in words or ("Nothing found.",) if word not in text], text
