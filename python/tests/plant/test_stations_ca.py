"""The CA of stations' certificates, deploy/ca/stations.cnf, by the commands at its head: a certificate has the name
that the operator gives, whatever the request asks for."""

import re
import shutil
import subprocess

import pytest
from conftest import DEPLOY

CONFIGURATION = DEPLOY / "ca" / "stations.cnf"
ASKING = """[req]
distinguished_name = d
req_extensions = e
[d]
[e]
basicConstraints = critical,CA:TRUE
keyUsage = critical,keyCertSign,digitalSignature
extendedKeyUsage = serverAuth,clientAuth
subjectAltName = DNS:station.example
"""

pytestmark = pytest.mark.skipif(not shutil.which("openssl"), reason="there is no openssl")


def ran(folder, line):
    return subprocess.run(line, shell=True, cwd=folder, capture_output=True, text=True, check=False)


def commands():
    """The commands of the head: those that make the CA, and those for pc7."""
    lines = CONFIGURATION.read_text("utf-8").splitlines()
    text = "\n".join(it.removeprefix("#     ") for it in lines if it.startswith("#     ")).replace("\\\n", " ")
    made, station = text.splitlines()[:2], text.splitlines()[2:]
    return [it.replace("-keyout ca.key", "-noenc -keyout ca.key") for it in made], station


@pytest.fixture
def ca(tmp_path):
    shutil.copy(CONFIGURATION, tmp_path / "ca.cnf")
    (tmp_path / "asking.cnf").write_text(ASKING, "ascii")
    for line in commands()[0]:
        assert ran(tmp_path, line).returncode == 0, line
    return tmp_path


def certified(ca, name, asks="", more=""):
    """Has a station certified by the page's commands, whose request may name another, and ask for more."""
    request, sign, show = (line.replace("pc7", name) for line in commands()[1])
    asked = ran(ca, re.sub(r"-subj '[^']*'", f"-subj '{asks}' {more}", request) if asks else request)
    assert asked.returncode == 0, asked.stderr
    done = ran(ca, sign)
    return done.returncode, ran(ca, show).stdout.strip()


def test_the_operator_names_it(ca):
    """Its own name, another station's, other parts, a name that looks alike, and the rights of a CA and a server."""
    for name, asks, more in (
        ("pc1", "", ""),
        ("pc2", "/O=Our plant/CN=pc1", ""),
        ("pc3", "/CN=pc1", ""),
        ("pc4", "/O=Our plant/CN=pc1/CN=pc4", ""),
        ("pc5", "/O=Our plant/CN=pc1,O=Our plant", ""),
        ("pc6", "/C=DE/O=Other/CN=Stations", "-config asking.cnf"),
    ):
        assert certified(ca, name, asks, more) == (0, f"subject=CN={name},O=Our plant"), name
        text = ran(ca, f"openssl x509 -in {name}.pem -noout -text").stdout
        shown = [it.strip() for it in text.partition("X509v3 extensions:")[2].splitlines()]
        wanted = ["X509v3 Basic Constraints: critical", "CA:FALSE", "X509v3 Key Usage: critical", "Digital Signature"]
        assert shown[1:7] == [*wanted, "X509v3 Extended Key Usage:", "TLS Web Client Authentication"]
        assert "station.example" not in text
        files = (f"x509 -in {name}.pem", f"req -in {name}.csr")
        keys = [ran(ca, f"openssl {it} -noout -pubkey").stdout for it in files]
        assert keys[0] == keys[1] != ""


def test_one_of_each_name(ca):
    """A second one of a name is refused until the first is revoked; so is a request that names another, where the
    operator forgot the name."""
    assert certified(ca, "pc1")[0] == 0
    first = (ca / "pc1.pem").read_bytes()
    assert certified(ca, "pc1")[0] != 0
    assert (ca / "pc1.pem").read_bytes() == first
    ran(ca, commands()[1][0].replace("pc7", "pc2").replace("CN=pc2", "CN=pc1"))
    forgotten = ran(ca, "openssl ca -config ca.cnf -batch -notext -in pc2.csr -out pc2.pem")
    assert forgotten.returncode != 0 and not (ca / "pc2.pem").exists()
    revoke = re.search(r"`(openssl ca .*-revoke pc7.pem)`", CONFIGURATION.read_text("utf-8"))[1]
    assert ran(ca, revoke.replace("pc7", "pc1")).returncode == 0
    assert certified(ca, "pc1") == (0, "subject=CN=pc1,O=Our plant")
    assert (ca / "pc1.pem").read_bytes() != first
    assert ran(ca, commands()[0][1]).returncode == 0
    verify = "openssl verify -crl_check -CAfile ca.pem -CRLfile crl.pem"
    (ca / "first.pem").write_bytes(first)
    assert [ran(ca, f"{verify} {it}.pem").returncode for it in ("pc1", "first")] == [0, 2]
