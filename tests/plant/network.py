"""What another machine reaches of the deployed form with all that watches it, for test_alarms.py: nginx's port alone.

This file is run as a program in a network of its own. The server, nginx and Debian's four services run there, the
services by the line `ExecStart=` of Debian's units or of the package's drop-ins, with Debian's ARGS. Another network,
which a pair of interfaces joins to that one, connects to each of the 65,535 ports. First with Debian's own lines and
without rules, which it has to find open; then with each of the two things alone that close them, deploy/station.nft and
the drop-ins.
"""

import re
import shlex
import shutil
import subprocess
import sys
import tempfile
import time
import urllib.request
from pathlib import Path

from common.commands import PYTHON
from common.deployed import Place, expect, ran, replaced, rules_in
from common.needs import ROOT
from common.ports import HOST
from common.program import Failed
from plant.watched import CUSTOMERS, DEPLOYED

PORT, OURS, THEIRS = 8443, "10.0.2.1", "10.0.2.9"
SERVICES = ["prometheus", "prometheus-alertmanager", "prometheus-blackbox-exporter", "prometheus-node-exporter"]
# The ports that Debian's units listen on, and an address that each answers here with 200.
WATCHING = {9090: "/-/ready", 9093: "/-/ready", 9094: None, 9100: "/metrics", 9115: "/"}

# Connects to all ports of an address, and says which take it. Those that say nothing for a second are closed.
LOOKS = """
import select, socket, sys, time
for first in range(1, 65536, 1024):
    tried, poll, end = {}, select.epoll(), time.monotonic() + 1
    for port in range(first, min(first + 1024, 65536)):
        made = socket.socket()
        made.setblocking(False)
        made.connect_ex((sys.argv[1], port))
        tried[made.fileno()] = (made, port)
        poll.register(made.fileno(), select.EPOLLOUT)
    while tried and time.monotonic() < end:
        for number, _ in poll.poll(0.1):
            made, port = tried.pop(number)
            poll.unregister(number)
            if not made.getsockopt(socket.SOL_SOCKET, socket.SO_ERROR):
                print(port)
            made.close()
"""


def done(*words):
    it = ran(words)
    if it.returncode:
        raise Failed(f"{words}: {it.stderr}")
    return it.stdout


class Whole(Place):
    """The deployed form, with nginx on its own port of all addresses."""

    def __init__(self, folder, program):
        super().__init__(folder, program)
        self.port = PORT

    def conf(self, name, port):
        path = super().conf(name, port)
        path.write_text(replaced(path, [(f"listen {HOST}:{port} ", f"listen {port} ")]), encoding="utf-8")
        return path


class Network:
    """This network, with what it serves and watches, and another one."""

    def __init__(self, folder, program):
        self.folder, self.services = Path(folder), []
        done("ip", "link", "set", "lo", "up")
        self.other = subprocess.Popen(["unshare", "-n", "sleep", "300"])
        time.sleep(0.5)
        done("ip", "link", "add", "inside", "type", "veth", "peer", "name", "outside", "netns", str(self.other.pid))
        for words in (f"addr add {OURS}/24 dev inside", "link set inside up"):
            done("ip", *words.split())
        for words in (f"addr add {THEIRS}/24 dev outside", "link set outside up", "link set lo up"):
            done(*self.there("ip", *words.split()))
        (self.folder / "place").mkdir(mode=0o755)
        self.place = Whole(self.folder / "place", program)
        (self.place.folder / "known").write_text("abc", encoding="ascii")
        seat = ["seat", CUSTOMERS["acme"], "--known", "known", "--site", self.place.site]
        assert self.place.token(*seat, is_told=False)[0] == 0
        self.place.nginx()
        self.configure()

    def there(self, *words):
        """A command in the other network."""
        return ["nsenter", "-t", str(self.other.pid), "-n", *words]

    def configure(self):
        """The files of /etc/prometheus, as the page has them put there, on a file system of its own."""
        for path in ("/etc/prometheus", "/var/lib/prometheus"):
            done("mount", "-t", "tmpfs", "tmpfs", path)
        etc = Path("/etc/prometheus")
        for name, goal in (("rules.yml", "wanekupo.yml"), *((it, it) for it in ("prometheus.yml", "alertmanager.yml"))):
            shutil.copy(DEPLOYED / name, etc / goal)
        pairs = [("/etc/station/cert.pem", f"{self.place.folder}/etc/cert.pem")]
        (etc / "blackbox.yml").write_text(replaced(DEPLOYED / "blackbox.yml", pairs), encoding="utf-8")

    def watch(self, is_bound):
        """Starts the four services, by the package's drop-ins or by Debian's units alone."""
        for unit in SERVICES:
            file = DEPLOYED / f"{unit}.service.d/10-wanekupo.conf"
            text = (file if is_bound else Path(f"/lib/systemd/system/{unit}.service")).read_text(encoding="utf-8")
            line = re.findall(r"(?m)^ExecStart=(.+)$", text)[-1]
            args = re.search(r'(?m)^ARGS="(.*)"$', Path(f"/etc/default/{unit}").read_text(encoding="utf-8"))[1]
            with open(self.folder / f"{unit}.log", "wb") as log:
                words = shlex.split(line.replace("$ARGS", args))
                self.services.append(subprocess.Popen(words, stdin=subprocess.DEVNULL, stdout=log, stderr=log))
        for port, path in WATCHING.items():
            if path:
                self.wait_for(port, path)

    def wait_for(self, port, path):
        for _ in range(200):
            try:
                urllib.request.urlopen(f"http://{HOST}:{port}{path}", timeout=5).read()
                return
            except OSError:
                time.sleep(0.1)
        logs = [file.read_text()[-300:] for file in self.folder.glob("*.log")]
        raise Failed(f"port {port} doesn't answer on this machine: {logs}")

    def rest(self):
        """Ends the services."""
        for process in self.services:
            process.terminate()
        for process in self.services:
            process.wait()
        self.services = []

    def open_ports(self):
        """The ports that take a connection of the other network."""
        return {int(it) for it in done(*self.there("/usr/bin/python3", "-c", LOOKS, OURS)).split()}

    def listening(self):
        """The ports that are listened on, also for UDP, but those of 127.0.0.1 alone."""
        lines = [line.split()[4] for line in done("ss", "-Hltun").splitlines()]
        return {int(it.rpartition(":")[2]) for it in lines if not it.startswith(f"{HOST}:")}

    def close(self):
        self.rest()
        self.place.close()
        self.other.kill()
        self.other.wait()


def tried(network):
    network.watch(is_bound=False)
    expect("Debian's units alone, open to another machine", network.open_ports(), {PORT, *WATCHING})
    done("nft", "-f", str(rules_in(network.folder)))
    expect("with station.nft", network.open_ports(), {PORT})
    network.rest()
    done("nft", "flush", "ruleset")
    network.watch(is_bound=True)
    expect("with the drop-ins, by ss", network.listening(), {PORT})
    expect("with the drop-ins, open to another machine", network.open_ports(), {PORT})
    done("nft", "-f", str(rules_in(network.folder)))
    expect("with both", network.open_ports(), {PORT})
    for port, path in WATCHING.items():
        if path:
            network.wait_for(port, path)


def reached(program):
    """What another machine reaches, in a network, mounts and processes of its own, all of which end with it: the error
    where it is otherwise than it has to be."""
    own = ["unshare", "-n", "-m", "-p", "--fork", "--kill-child", "--mount-proc"]
    words = [*own, PYTHON, "-B", "-m", "plant.network", program]
    done = subprocess.run(words, cwd=ROOT / "tests", capture_output=True, text=True, timeout=300)
    return done.stderr if done.returncode else ""


def main():
    with tempfile.TemporaryDirectory() as folder:
        Path(folder).chmod(0o755)
        network = Network(folder, sys.argv[1])
        try:
            tried(network)
        finally:
            network.close()


if __name__ == "__main__":
    main()
