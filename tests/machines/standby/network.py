"""What joins the machines: the cable between the two, which can be cut, and the address that the stations ask, or nginx
in front of several programs."""

import contextlib
import random
import select
import signal
import socket
import subprocess
import threading
from collections.abc import Iterable
from pathlib import Path

from common.ports import HOST, accepted

# More than a frame of the cable has, and what a connection hands on at a time.
FRAME, PART = 1 << 16, 1 << 16


# Ports that no machine gives by itself, and those of them that were handed out: a scenario beside this one may not have
# begun to listen.
PORTS = range(20000, 32000)
GIVEN: set[int] = set()
GIVING = threading.Lock()


def free_ports(count: int, kind: int = socket.SOCK_STREAM) -> list[int]:
    """So many ports of this machine that nobody has, and that were handed out to nobody."""
    found: list[int] = []
    with GIVING:
        while len(found) < count:
            port = random.choice(PORTS)
            with socket.socket(socket.AF_INET, kind) as each, contextlib.suppress(OSError):
                each.bind((HOST, port))
                if port not in GIVEN:
                    GIVEN.add(port)
                    found.append(port)
    return found


class Cable:
    """The cable between two machines: each frame of the one is a datagram, and is handed on to the other.

    `ends` has for each machine the port that its qemu listens on, and the one that it sends to. A cut cable loses each
    frame, and nobody is told."""

    def __init__(self) -> None:
        ports = free_ports(4, socket.SOCK_DGRAM)
        own, other = ports[:2], ports[2:]
        self.sockets = [socket.socket(socket.AF_INET, socket.SOCK_DGRAM) for _ in own]
        for each, port in zip(self.sockets, other):
            each.setsockopt(socket.SOL_SOCKET, socket.SO_RCVBUF, 1 << 22)
            each.bind((HOST, port))
        self.ends = list(zip(own, other))
        self.is_whole, self.is_over, self.lost, self.cuts = True, False, 0, 0
        self.thread = threading.Thread(target=self.hand_on, daemon=True)
        self.thread.start()

    def hand_on(self) -> None:
        first, second = self.sockets
        to = {first: (second, (HOST, self.ends[1][0])), second: (first, (HOST, self.ends[0][0]))}
        while not self.is_over:
            for each in select.select([first, second], [], [], 0.5)[0]:
                with contextlib.suppress(OSError):
                    frame = each.recv(FRAME)
                    if self.is_whole:
                        to[each][0].sendto(frame, to[each][1])
                    else:
                        self.lost += 1

    def cut(self) -> None:
        self.cuts += 1
        self.is_whole = False

    def mend(self) -> None:
        self.is_whole = True

    def close(self) -> None:
        self.is_over = True
        self.thread.join(5)
        for each in self.sockets:
            each.close()


class Address:
    """The address that the stations ask: a port of this machine behind which one of the machines is, or none.

    When it moves, the connections to the machine that had it end, as where an address goes to another machine."""

    def __init__(self) -> None:
        self.listener = socket.create_server((HOST, 0))
        self.port = self.listener.getsockname()[1]
        self.target: int | None = None
        self.joined: set[socket.socket] = set()
        self.lock = threading.Lock()
        threading.Thread(target=self.accept, daemon=True).start()

    def move(self, target: int | None) -> None:
        """Moves it behind another port, or behind none."""
        with self.lock:
            self.target, ending = target, list(self.joined)
        for each in ending:
            end(each)

    def accept(self) -> None:
        for near in accepted(self.listener):
            threading.Thread(target=self.join, args=(near,), daemon=True).start()

    def join(self, near: socket.socket) -> None:
        """Joins a station's connection to the machine that has the address now."""
        target = self.target
        try:
            far = socket.create_connection((HOST, target), 10) if target else None
        except OSError:
            far = None
        if not far:
            near.close()
            return
        far.settimeout(None)
        with self.lock:
            self.joined |= {near, far}
        other = threading.Thread(target=self.hand_on, args=(far, near), daemon=True)
        other.start()
        self.hand_on(near, far)
        other.join()
        with self.lock:
            self.joined -= {near, far}
        near.close()
        far.close()

    def hand_on(self, source: socket.socket, to: socket.socket) -> None:
        with contextlib.suppress(OSError):
            while data := source.recv(PART):
                to.sendall(data)
        end(source)
        end(to)

    def close(self) -> None:
        end(self.listener)
        self.listener.close()
        self.move(None)


class Router:
    """nginx in front of several programs: which one a request goes to, its token says, as deploy/nginx.conf does it."""

    def __init__(self, folder: Path, programs: dict[str, int]):
        """`programs` are the ports of the programs by the tokens of their seats."""
        self.folder, self.programs = folder, dict(programs)
        self.port = free_ports(1)[0]
        folder.mkdir()
        self.write()
        words = ["nginx", "-p", str(folder), "-e", "error.log", "-c", "nginx.conf", "-g", "daemon off;"]
        self.process = subprocess.Popen(words, stdin=subprocess.DEVNULL, stderr=subprocess.DEVNULL)

    def write(self) -> None:
        rows = "".join(f'"Bearer {token}" 127.0.0.1:{port};\n' for token, port in self.programs.items())
        names = ("client_body", "proxy", "fastcgi", "uwsgi", "scgi")
        folders = "".join(f"{name}_temp_path {self.folder}/{name};\n" for name in names)
        text = f"""worker_processes 1;
pid nginx.pid;
events {{ worker_connections 256; }}
http {{
{folders}access_log off;
map $http_authorization $program {{
{rows}}}
server {{
    listen 127.0.0.1:{self.port};
    location / {{ proxy_pass http://$program; proxy_next_upstream off; }}
}}
}}
"""
        (self.folder / "nginx.conf").write_text(text, encoding="ascii")

    def move(self, tokens: Iterable[str], port: int) -> None:
        """Has the seats of these tokens ask another program from now on."""
        self.programs |= dict.fromkeys(tokens, port)
        self.write()
        self.process.send_signal(signal.SIGHUP)

    def close(self) -> None:
        self.process.terminate()
        self.process.wait(20)


def end(each: socket.socket) -> None:
    """Ends a connection for both sides, and for whoever waits for it."""
    with contextlib.suppress(OSError):
        each.shutdown(socket.SHUT_RDWR)
