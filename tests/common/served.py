"""A server on a port of this machine, and the requests of a seat over HTTP."""

import contextlib
import glob
import http.client
import json
import os
import signal
import socket
import subprocess
import time
from pathlib import Path

HOST = "127.0.0.1"

# In how many parts Linux counts a second of a processor.
TICKS = os.sysconf("SC_CLK_TCK")


def station(program, site, db, port):
    """The command that serves a store until it is ended."""
    words = ["serve", "--site", site, "--db", db, "--port", str(port), "--connections", "1000000"]
    return [program, *words]


class Server:
    """A process that serves, in a group of its own, so that its workers end with it."""

    def __init__(self, command, port):
        self.port = port
        self.process = subprocess.Popen(
            command, stdin=subprocess.DEVNULL, stdout=subprocess.DEVNULL, start_new_session=True
        )

    def is_listening(self):
        try:
            socket.create_connection((HOST, self.port), 1).close()
            return True
        except OSError:
            return False

    def is_answering(self):
        """Whether a request is answered: a port may be listened on before anybody serves it."""
        connection = http.client.HTTPConnection(HOST, self.port, timeout=5)
        try:
            connection.request("GET", "/", headers={"Connection": "close"})
            return connection.getresponse().status > 0
        except (http.client.HTTPException, OSError):
            return False
        finally:
            connection.close()

    def wait(self, is_ready, seconds=600):
        """Waits until the server is ready. Who looks takes little of a processor beside a long start."""
        begun = time.monotonic()
        while not is_ready(self):
            passed = time.monotonic() - begun
            if self.process.poll() is not None or passed > seconds:
                self.kill()
                raise SystemExit(f"FAILED: {self.process.args[0]} doesn't listen on port {self.port}")
            time.sleep(max(0.001, passed / 200))
        return self

    def used(self):
        """The seconds of a processor that its processes took until now, with those that they have outside the group."""
        found = {}
        for path in glob.glob("/proc/[0-9]*/stat"):
            with contextlib.suppress(OSError):
                fields = Path(path).read_text(encoding="utf-8", errors="replace").rpartition(")")[2].split()
                found[path.split("/")[2]] = fields
        own = {it for it, fields in found.items() if fields[2] == str(self.process.pid)}
        ticks = (int(it[11]) + int(it[12]) for pid, it in found.items() if pid in own or it[1] in own)
        return sum(ticks) / TICKS

    def end(self, seconds=60):
        """Asks it to end, and kills what is there behind so many seconds."""
        self.process.terminate()
        with contextlib.suppress(subprocess.TimeoutExpired):
            self.process.wait(seconds)
        self.kill()

    def kill(self):
        try:
            os.killpg(self.process.pid, signal.SIGKILL)
        except ProcessLookupError:
            pass
        self.process.wait()


class Caller:
    """A seat's requests over one connection, or each over a new one."""

    def __init__(self, port, token, is_kept=True):
        self.is_kept = is_kept
        self.fields = {"Authorization": f"Bearer {token}"} | ({} if is_kept else {"Connection": "close"})
        self.connection = http.client.HTTPConnection(HOST, port, timeout=30)

    def ask(self, method, target, members=None):
        """The status and the body of the reply."""
        body = None if members is None else json.dumps(members, separators=(",", ":")).encode()
        self.connection.request(method, target, body, self.fields)
        reply = self.connection.getresponse()
        text = reply.read()
        if not self.is_kept:
            self.connection.close()
        return reply.status, text

    def close(self):
        self.connection.close()
