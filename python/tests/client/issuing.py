"""CAs that OEMs have, for the tests: one that is asked by EST (RFC 7030) over https, and one by CMP (RFC 4210), whose
messages are those of OpenSSL's own mock server. Each signs what it is asked for, by the list of a lot."""

import base64
import contextlib
import re
import shutil
import ssl
import subprocess
import threading
import urllib.request
from datetime import datetime
from http.server import BaseHTTPRequestHandler, ThreadingHTTPServer

from cryptography import x509
from cryptography.hazmat.primitives import hashes, serialization

from certifying import BEGINNING, END, need
from support import HOST

PASSWORD, SECRET = "ra1:a long password", "another long one"
FORM = "%Y%m%d%H%M%SZ"
USAGES = "content_commitment key_encipherment data_encipherment key_agreement key_cert_sign crl_sign"
USAGES = ["digital_signature", *USAGES.split(), "encipher_only", "decipher_only"]


class OemCa:
    """A CA with the key of a folder. `issued` has the serial number and the certificate of each that it signed, and
    `serials` the list of the lot: by its chip each device's. `befalls` is what befalls the next requests, one each:
    `lost` is signed and its reply is cut off, `refused` and `later` are answered so."""

    def __init__(self, folder, ca):
        self.folder, self.issued, self.befalls, self.serials = folder, [], [], {}
        self._turn = threading.Lock()
        folder.mkdir()
        for name in ("ca.key", "ca.pem"):
            shutil.copy(ca / name, folder)
        for name, more in (("tls", f"-addext subjectAltName=IP:{HOST}"), ("ra", "")):
            p256 = f"-newkey ec -pkeyopt ec_paramgen_curve:prime256v1 -noenc -keyout {name}.key -out {name}.pem"
            need(folder, f"openssl req -x509 {p256} -subj /CN={name} {more}")

    def befell(self):
        with self._turn:
            return self.befalls.pop(0) if self.befalls else ""

    def certificate(self, request):
        """What is signed for a request (PKCS #10), as PEM: its chip is on the list."""
        asked = x509.load_der_x509_csr(request)
        assert asked.is_signature_valid
        chip = asked.subject.get_attributes_for_oid(x509.NameOID.COMMON_NAME)[0].value
        return self.signed(self.serials[chip], asked.public_key())

    def signed(self, serial, key):
        """What is signed for a serial number and a key, by the library alone."""
        own = x509.load_pem_x509_certificate((self.folder / "ca.pem").read_bytes())
        pair = serialization.load_pem_private_key((self.folder / "ca.key").read_bytes(), None)
        usage = {name: name == "digital_signature" for name in USAGES}
        made = x509.CertificateBuilder(
            own.subject, x509.Name([x509.NameAttribute(x509.NameOID.SERIAL_NUMBER, serial)]), key,
            x509.random_serial_number(), datetime.strptime(BEGINNING, FORM), datetime.strptime(END, FORM),
        )  # fmt: skip
        for extension, is_critical in (
            (x509.BasicConstraints(False, None), True),
            (x509.KeyUsage(**usage), True),
            (x509.SubjectKeyIdentifier.from_public_key(key), False),
            (x509.AuthorityKeyIdentifier.from_issuer_public_key(own.public_key()), False),
        ):
            made = made.add_extension(extension, is_critical)
        pem = made.sign(pair, hashes.SHA256()).public_bytes(serialization.Encoding.PEM)
        with self._turn:
            self.issued.append((serial, pem))
        return pem


@contextlib.contextmanager
def served(handler, ca, context=None):
    """A server of a CA, at a free port, which is given."""
    server = ThreadingHTTPServer((HOST, 0), type("Handler", (handler,), {"ca": ca}))
    if context:
        server.socket = context.wrap_socket(server.socket, server_side=True, do_handshake_on_connect=False)
    running = threading.Thread(target=server.serve_forever, daemon=True)
    running.start()
    try:
        yield server.server_address[1]
    finally:
        server.shutdown()
        server.server_close()
        running.join()


class Handler(BaseHTTPRequestHandler):
    def log_message(self, *_):
        pass

    def answer(self, status, body=b"", kind="text/plain"):
        self.send_response(status)
        self.send_header("Content-Type", kind)
        self.send_header("Content-Length", str(len(body)))
        self.end_headers()
        self.wfile.write(body)

    def body(self):
        return self.rfile.read(int(self.headers["Content-Length"]))


# EST.


def est_served(ca):
    """An EST server, which takes the certificate ra.pem or the password."""
    context = ssl.SSLContext(ssl.PROTOCOL_TLS_SERVER)
    context.load_cert_chain(ca.folder / "tls.pem", ca.folder / "tls.key")
    context.verify_mode = ssl.CERT_OPTIONAL
    context.load_verify_locations(ca.folder / "ra.pem")
    return served(EstHandler, ca, context)


class EstHandler(Handler):
    """RFC 7030, sections 4.1 and 4.2, and 3.2.3 for the password."""

    def pkcs7(self, pem):
        (self.ca.folder / "one.pem").write_bytes(pem)
        words = ["openssl", "crl2pkcs7", "-nocrl", "-certfile", self.ca.folder / "one.pem", "-outform", "DER"]
        der = subprocess.run(words, capture_output=True, check=True).stdout
        body = base64.encodebytes(der).replace(b"\n", b"\r\n")
        self.answer(200, body, "application/pkcs7-mime; smime-type=certs-only")

    def do_GET(self):
        if self.path != "/.well-known/est/cacerts":
            return self.answer(404)
        return self.pkcs7((self.ca.folder / "ca.pem").read_bytes())

    def do_POST(self):
        is_right = self.headers["Content-Type"] == "application/pkcs10"
        is_right &= self.path == "/.well-known/est/simpleenroll"
        given = base64.b64encode(PASSWORD.encode()).decode()
        if not (self.connection.getpeercert() or self.headers["Authorization"] == f"Basic {given}"):
            return self.answer(401)
        request, befell = base64.b64decode(self.body()), self.ca.befell()
        if befell == "refused" or not is_right:
            return self.answer(400)
        if befell == "later":
            return self.answer(202)
        pem = self.ca.certificate(request)
        if befell == "lost":
            return self.connection.close()
        return self.pkcs7(pem)


# CMP.


def cmp_served(ca):
    return served(CmpHandler, ca)


def elements(der):
    """The elements of DER one behind another: the tag of each, and what it has. A tag's own form is left: of a request
    for a certificate, which is in [4], what it has is the request."""
    while der:
        length, place = der[1], 2
        if length & 0x80:
            place = 2 + (length & 0x7F)
            length = int.from_bytes(der[2:place], "big")
        yield der[0], der[place : place + length]
        der = der[place + length :]


def inner(der, tag):
    """What the first element with this tag has."""
    return next(had for its, had in elements(der) if its == tag)


class CmpHandler(Handler):
    """Of RFC 4210, section 5.1.2, a p10cr and a cr are signed. What is answered is openssl's, which is told the
    certificate."""

    def certificate(self, message):
        kind, body = next((kind, body) for kind, body in elements(inner(message, 0x30)) if kind in (0xA2, 0xA4))
        if kind == 0xA4:
            return self.ca.certificate(body)
        template = inner(inner(inner(inner(body, 0x30), 0x30), 0x30), 0x30)  # of the first message (RFC 4211)
        name = rb"\x30.\x31.\x30.\x06\x03\x55\x04\x05\x13.([A-Z0-9-]+)"  # a serialNumber alone
        serial = re.fullmatch(name, inner(template, 0xA5), re.DOTALL)
        key = inner(template, 0xA6)
        info = bytes([0x30, len(key)]) + key
        return self.ca.signed(serial[1].decode(), serialization.load_der_public_key(info))

    def do_POST(self):
        message, befell = self.body(), self.ca.befell()
        answers = ["-pkistatus", "2", "-failure", "2"]
        if befell != "refused":
            certificate = self.ca.folder / "one.pem"
            certificate.write_bytes(self.certificate(message))
            answers = ["-rsp_cert", certificate]
        if befell == "lost":
            return self.connection.close()
        words = ["openssl", "cmp", "-port", "0", "-max_msgs", "1", "-grant_implicitconf", "-srv_ref", "ra1", *answers]
        words += ["-srv_secret", f"pass:{SECRET}", "-accept_raverified"]
        mock = subprocess.Popen(words, stdout=subprocess.PIPE, stderr=subprocess.STDOUT, text=True)
        try:
            port = next(found[1] for found in (re.match(r"ACCEPT .*:([0-9]+) ", it) for it in mock.stdout) if found)
            asked = urllib.request.Request(f"http://{HOST}:{port}/", message, {"Content-Type": "application/pkixcmp"})
            with urllib.request.urlopen(asked, timeout=20) as reply:
                self.answer(200, reply.read(), "application/pkixcmp")
        finally:
            mock.kill()
            mock.communicate()
        return None
