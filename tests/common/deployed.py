"""The deployed form in a folder: the program, a recorder in front of it, deploy/nginx.conf and station-token. And what
other tests have of it in another form: its files with other words, a certificate."""

import json
import os
import re
import socket
import ssl
import subprocess
import threading
import time
from pathlib import Path

from common.needs import ROOT
from common.ports import HOST, accepted, free_ports
from common.program import Failed
from common.served import Server, station

TOOL, CONF = ROOT / "python/bin/station-token", ROOT / "deploy/nginx.conf"
SITE, CERTIFICATES = ROOT / "crates/station/data/site.toml", ROOT / "deploy/nginx-certificates.conf"

# The tokens of the sample site's seats, which are inner ones here.
INNER = {"a1": "abc", "b1": "hello", "@manager": "test"}

# The CA of stations.
STATIONS = ROOT / "deploy/ca/stations.cnf"

# The kind of its keys.
CURVE = ["-newkey", "ec", "-pkeyopt", "ec_paramgen_curve:prime256v1", "-noenc"]


def expect(what, found, wanted):
    """Fails where something is otherwise than it has to be."""
    if found != wanted:
        raise Failed(f"{what}: {found!r}, and not {wanted!r}")


def replaced(path, pairs):
    """A file's text with other words, each of which has to be there."""
    text = Path(path).read_text(encoding="utf-8")
    for old, new in pairs:
        if old not in text:
            raise Failed(f"{path} has no {old!r}")
        text = text.replace(old, new)
    return text


def rules_in(folder):
    """The rules of nftables with another user as the server's: this machine may have no `station`."""
    made = folder / "station.nft"
    made.write_text(replaced(ROOT / "deploy/station.nft", [("server = station", "server = nobody")]))
    return made


def certify(folder, days="2", name="localhost", names="DNS:localhost"):
    """A key and a certificate in a folder: key.pem and cert.pem."""
    words = ["req", "-x509", *CURVE, "-days", days, "-subj", f"/CN={name}", "-addext", f"subjectAltName={names}"]
    expect("a certificate", ran(["openssl", *words, "-keyout", "key.pem", "-out", "cert.pem"], folder).returncode, 0)


def ran(words, folder=None, **named):
    return subprocess.run(
        [str(word) for word in words], cwd=folder, capture_output=True, text=True, check=False, timeout=600, **named
    )


class Recorder:
    """Hands each connection to the program, and keeps the heads of the requests. One whose target has `hold` waits.
    Where it is told what to say it says that in the program's place, and nothing where that is empty."""

    def __init__(self, port, upstream):
        self.upstream, self.heads, self.gate, self.said = upstream, [], threading.Event(), None
        self.listener = socket.create_server((HOST, port), backlog=512)
        threading.Thread(target=self.accept, daemon=True).start()

    def accept(self):
        for connection in accepted(self.listener):
            threading.Thread(target=self.hand_over, args=(connection,), daemon=True).start()

    def hand_over(self, connection):
        with connection:
            data = b""
            while b"\r\n\r\n" not in data:
                more = connection.recv(65536)
                if not more:
                    break
                data += more
            head = data.partition(b"\r\n\r\n")[0]
            self.heads.append(head)
            length = int((re.search(rb"(?i)\r\ncontent-length: *(\d+)", head) or [0, 0])[1])
            while len(data) < len(head) + 4 + length:
                data += connection.recv(65536)
            if b"hold" in head.split(b"\r\n")[0]:
                self.gate.wait(10)
            if self.said is not None:
                connection.sendall(self.said)
                self.gate.wait(0 if self.said else 10)
                return
            with socket.create_connection((HOST, self.upstream)) as server:
                server.sendall(data)
                while more := server.recv(65536):
                    connection.sendall(more)

    def close(self):
        if self.listener.fileno() >= 0:
            self.listener.shutdown(socket.SHUT_RDWR)
            self.listener.close()


class Place:
    """A folder, and all that runs in it until it is closed."""

    def __init__(self, folder, program, site=SITE):
        self.folder, self.program, self.processes = Path(folder), str(program), []
        # Of nginx, the recorder, the program, and another nginx.
        self.port, self.recorded, served, self.other_port = free_ports(4)
        for name in ("etc", "lib", "log"):
            (self.folder / name).mkdir()
        self.site, self.file = self.folder / "etc/site.toml", self.folder / "etc/tokens.conf"
        self.site.write_bytes(Path(site).read_bytes())
        self.outer = {}
        certify(self.folder / "etc")
        self.server = Server(station(self.program, str(self.site), str(self.folder / "books.db"), served), served)
        self.server.wait(Server.is_listening)
        self.recorder = Recorder(self.recorded, served)

    def conf(self, name, port):
        """The deployed configuration, with other ports and paths, and a log; 127.0.0.1 alone is this machine, and
        OpenSSL itself refuses no version of TLS."""
        pairs = [
            ("listen 8443", f"listen {HOST}:{port}"),
            ("127.0.0.1:880;", f"{HOST}:{self.recorded};"),
            ("127.0.0.0/8 1;", f"{HOST}/32 1;"),
            ("ssl_session_tickets", "ssl_ciphers ALL:@SECLEVEL=0;\n        ssl_session_tickets"),
            ("/etc/station/", f"{self.folder}/etc/"),
            ("/var/lib/nginx/", f"{self.folder}/lib/{name}-"),
            ("/var/log/nginx/", f"{self.folder}/log/{name}-"),
            ("/usr/share/wanekupo/", f"{ROOT}/clients/web/"),
            ("log_format passed", f"access_log {self.folder}/log/{name} station if=$is_logged; log_format passed"),
        ]
        path = self.folder / name
        path.write_text(replaced(CONF, pairs), encoding="utf-8")
        return path

    def nginx_words(self, name="nginx.conf"):
        pid = f"pid {self.folder}/{name}.pid;"
        return ["nginx", "-c", str(self.folder / name), "-g", pid, "-e", f"{self.folder}/log/{name}-error.log"]

    def nginx(self, name="nginx.conf", zone="UTC"):
        """Starts nginx by a configuration, and gives its port."""
        port = self.port if name == "nginx.conf" else self.other_port
        self.conf(name, port)
        process = subprocess.Popen(
            [*self.nginx_words(name)[:4], self.nginx_words(name)[4] + " daemon off;", *self.nginx_words(name)[5:]],
            env={**os.environ, "TZ": zone},
        )
        self.processes.append(process)
        for _ in range(500):
            with socket.socket() as tried:
                if tried.connect_ex((HOST, port)) == 0:
                    return port
            time.sleep(0.01)
        raise Failed("nginx doesn't listen")

    def words(self, *words, is_told=True, zone=None):
        """The words of `token`, which has nginx read the file, or not."""
        shell = " ".join(f"'{word}'" for word in self.nginx_words())
        told = ["--test", f"{shell} -t -q", "--reload", f"{shell} -s reload", "--pid", f"{self.folder}/nginx.conf.pid"]
        told = told if is_told else ["--no-reload"]
        return [TOOL, "--file", self.file, *told, *words]

    def token(self, *words, is_told=True, zone="UTC"):
        """A run of `token`: its status, its output and what is on standard error."""
        done = ran(self.words(*words, is_told=is_told), self.folder, env={**os.environ, "TZ": zone})
        return done.returncode, done.stdout, done.stderr

    def made(self, name, *words, **named):
        """An outer token by `token add` or `rotate`, kept under a name of the tests."""
        status, out, err = self.token(*words, **named)
        if status:
            raise Failed(f"{words}: {err}")
        self.outer[name] = out.strip()
        return err.split(" ")[0]

    def ask(self, token, target, body=None, more=(), port=None):
        """The status, the fields and the body of a reply, by curl."""
        words = ["curl", "-sS", "-i", "-m", "20", "--cacert", "etc/cert.pem"]
        words += ["-H", f"Authorization: {token}"] if token is not None else []
        words += ["-d", body] if body is not None else []
        done = ran([*words, *more, f"https://localhost:{port or self.port}{target}"], self.folder)
        head, _, text = done.stdout.replace("\r\n", "\n").partition("\n\n")
        fields = dict(line.lower().split(": ", 1) for line in head.split("\n")[1:] if ": " in line)
        return int(head.split(" ")[1]) if head else done.stderr, fields, text

    def connection(self, port=None):
        context = ssl.create_default_context(cafile=str(self.folder / "etc/cert.pem"))
        return context.wrap_socket(socket.create_connection((HOST, port or self.port), 10), server_hostname="localhost")

    def raw(self, data):
        """All that bytes get, over a connection of their own."""
        got = b""
        with self.connection() as connection:
            connection.settimeout(0.8)
            try:
                connection.sendall(data)
                while more := connection.recv(65536):
                    got += more
                    if got.count(b"HTTP/1.") >= data.count(b"HTTP/1."):
                        break
            except OSError:
                pass
        return got

    def certificate(self, folder, name, subject):
        """A key and a certificate of a CA's folder."""
        words = ["-new", *CURVE, "-subj", subject, "-keyout", f"{name}.key", "-out", f"{name}.csr"]
        asked = ran(["openssl", "req", *words], folder)
        signed = ["-batch", "-notext", "-subj", subject, "-in", f"{name}.csr", "-out", f"{name}.pem"]
        done = ran(["openssl", "ca", "-config", "ca.cnf", *signed], folder)
        assert (asked.returncode, done.returncode) == (0, 0), done.stderr
        return ["--cert", f"{folder}/{name}.pem", "--key", f"{folder}/{name}.key"]

    def ca(self, name):
        """A CA in a folder of its own."""
        folder = self.folder / name
        folder.mkdir()
        (folder / "ca.cnf").write_bytes(STATIONS.read_bytes())
        (folder / "index.txt").touch()
        (folder / "serial").write_text("1000\n", encoding="ascii")
        words = ["-x509", *CURVE, "-days", "3650", "-subj", f"/O=Plant/CN={name}"]
        done = ran(["openssl", "req", *words, "-keyout", "ca.key", "-out", "ca.pem"], folder)
        expect("a CA", done.returncode, 0)
        return folder

    def revocations(self, folder, *more):
        words = ["-config", "ca.cnf", "-gencrl", *more, "-out", self.folder / "etc/clients-crl.pem"]
        done = ran(["openssl", "ca", *words], folder)
        assert done.returncode == 0, done.stderr

    def reload(self, name="nginx.conf"):
        done = ran([*self.nginx_words(name), "-s", "reload"])
        time.sleep(0.5)
        return done.returncode

    def closed_to_outer(self):
        """What came through had one token at most, and no outer one anywhere."""
        wrong = []
        for head in self.recorder.heads:
            fields = [line for line in head.split(b"\r\n") if line.lower().startswith(b"authorization:")]
            if len(fields) > 1 or b"wanekupo_" in head:
                wrong.append(head)
        expect("requests that came through with two tokens, or an outer one", wrong, [])

    def close(self):
        for process in self.processes:
            process.terminate()
        for process in self.processes:
            process.wait()
        self.server.kill()
        self.recorder.close()


def refusal(name, no):
    """A refusal's body, as docs/integrate/api.md has it."""
    return json.dumps({"error": name, "no": no}, separators=(",", ":"))
