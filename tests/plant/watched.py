"""What test_alarms.py runs in a folder: the deployed form over a store on a small file system, `systemctl` that knows
its server, `wanekupo metrics` each second or so, and who hears of alarms. Between these are Debian's
prometheus with its exporters, and alertmanager, by deploy/prometheus. A minute of the rules is a second here."""

import contextlib
import http.server
import json
import os
import re
import signal
import subprocess
import tempfile
import threading
import time
import urllib.parse
import urllib.request
from pathlib import Path

from common.commands import command
from common.deployed import Place, certify, expect, ran, replaced
from common.needs import ROOT
from common.ports import HOST, Answering, free_ports
from common.program import Failed
from common.served import Server, station

DEPLOYED = ROOT / "deploy/prometheus"
CUSTOMERS = {"acme": "a1", "bolt": "b1", "@manager": "@manager"}
DAYS, DAYS_LEFT = "2", "825"
PAUSE = 1.5
# How long the server is away in a restart by station-restart, beside its starts.
AWAY = 4

# A `systemctl` that shows what a file says, and asks the bench for a restart.
SYSTEMCTL = """#!/bin/sh
case $1 in
    show) cat {folder}/show ;;
    is-active) test ! -e {folder}/stopped ;;
    try-restart) curl -sf -m 300 http://{host}:{port}/restart ;;
    *) exit 1 ;;
esac
"""


def in_seconds(rules):
    """The rules with a second for each minute: their spans, and the ages in seconds of what is written by minutes."""
    rules = re.sub(r"(\bfor: |\[|:|offset )(\d+)m\b", r"\1\2s", rules)
    rules = re.sub(r"\[(\d+)h\]", lambda found: f"[{60 * int(found[1])}s]", rules)
    return re.sub(r"> (1200|900)\b", lambda found: f"> {int(found[1]) // 60}", rules)


class Heard(http.server.ThreadingHTTPServer):
    """Who hears of alarms: which fire now by alertmanager's messages, and all that came. It restarts the server too."""

    def __init__(self, restart):
        self.firing, self.came, self.restart = {}, [], restart
        super().__init__((HOST, 0), Handler)
        threading.Thread(target=self.serve_forever, daemon=True).start()

    def take(self, message):
        for it in message["alerts"]:
            labels = it["labels"]
            name = labels["alertname"]
            self.came.append((name, it["status"], message["receiver"]))
            if it["status"] == "firing":
                self.firing[name] = {**it["annotations"], **labels}
            else:
                self.firing.pop(name, None)


class Handler(Answering):
    def do_POST(self):
        self.server.take(json.loads(self.rfile.read(int(self.headers["Content-Length"]))))
        self.answer(200, "text/plain", b"")

    def do_GET(self):
        self.server.restart(away=AWAY)
        self.answer(200, "text/plain", b"")


class Deployed(Place):
    """The place of `tokens`, with more reports in a time: metrics come oftener here than in a plant."""

    def conf(self, name, port):
        path = super().conf(name, port)
        path.write_text(replaced(path, [("rate=6r/m", "rate=600r/m"), ("rate=20r/s", "rate=500r/s")]), encoding="utf-8")
        return path


class Plant:
    """All of it, until it is closed. `folder` is for what watches, `small` a small file system for what is watched."""

    def __init__(self, folder, small, program):
        self.folder, self.small, self.program = Path(folder), Path(small), program
        self.processes, self.is_closed, self.shift, self.connections = [], False, [], 1_000_000
        self.is_looking = True
        self.place = Deployed(self.small, program)
        self.heard = Heard(self.restart)
        self.bounds = []
        self.start_nginx()
        self.backups, self.journals = self.small / "backups", self.small / "journals"
        for it in (self.backups, self.journals):
            it.mkdir(mode=0o700)
        self.text_folder = self.folder / "text"
        self.text_folder.mkdir()
        self.start_systemctl()
        self.environment = {**os.environ, "PATH": f"{self.folder}/bin:{os.environ['PATH']}"}

    # The server and nginx.

    @property
    def url(self):
        return f"https://localhost:{self.place.port}"

    @property
    def inner_port(self):
        return self.place.recorder.upstream

    def start_nginx(self):
        tokens = self.small / "tokens"
        tokens.mkdir(mode=0o700)
        for seat, token in {"a1": "abc", "b1": "hello", "@manager": "test"}.items():
            (self.small / "known").write_text(token, encoding="ascii")
            words = ["seat", seat, "--known", self.small / "known", "--site", self.place.site]
            assert self.place.token(*words, is_told=False)[0] == 0
        for customer, seat in CUSTOMERS.items():
            words = ["add", seat, "--look", "--to", tokens / f"{customer}.token"]
            assert self.place.token(*words, is_told=False)[0] == 0
        self.place.nginx()

    def serve(self):
        """Starts the server, under the bounds that stand in front of it."""
        words = station(self.program, str(self.place.site), str(self.small / "books.db"), self.inner_port)
        self.place.server = Server([*self.bounds, *words], self.inner_port).wait(Server.is_listening)
        self.show()

    def stop(self):
        """As systemd stops the unit: a signal, and then ExecStopPost= joins log and file."""
        process = self.place.server.process
        if process.poll() is None:
            os.killpg(process.pid, signal.SIGTERM)
        process.wait()
        words = ["replay", "--site", self.place.site, "--db", self.small / "books.db", "--existing"]
        assert ran([self.program, *words], stdin=subprocess.DEVNULL).returncode == 0

    def restart(self, away=0):
        """As systemd does: with a time for its start the unit counts as started before it answers."""
        self.stop()
        starts = threading.Thread(target=lambda: (time.sleep(away), self.serve()))
        starts.start()
        if not away:
            starts.join()

    def start_systemctl(self):
        (self.folder / "bin").mkdir()
        file = self.folder / "bin/systemctl"
        text = SYSTEMCTL.format(folder=self.folder, host=HOST, port=self.heard.server_address[1])
        file.write_text(text, encoding="ascii")
        file.chmod(0o755)
        self.memory_max = "infinity"
        self.show()

    def show(self):
        pid = self.place.server.process.pid
        text = f"MainPID={pid}\nNRestarts=0\nMemoryMax={self.memory_max}\n"
        (self.folder / "show").write_text(text, encoding="ascii")

    def certify(self, days):
        """Another certificate of nginx."""
        certify(self.small / "etc", days)
        expect("nginx is told", self.place.reload(), 0)

    # What watches.

    def metrics_words(self):
        words = ["metrics", "--url", self.url, "--ca", self.small / "etc/cert.pem", "--tokens", self.small / "tokens"]
        words += ["--site", self.place.site, "--db", self.small / "books.db", "--unit", "station"]
        words += ["--status", f"{self.url}/status", "--passed", self.small / "log/nginx.conf-passed"]
        words += ["--backups", self.backups, "--journals", self.journals]
        words += ["--to", self.text_folder / "wanekupo.prom", "--kept", self.folder / "kept.json"]
        return [*words, "--connections", self.connections, *self.shift, "--patience", "1"]

    def look(self):
        """One run of `wanekupo metrics`: what it told."""
        done = ran([*command("wanekupo"), *self.metrics_words()], env=self.environment)
        if done.returncode:
            raise Failed(f"wanekupo metrics ended with {done.returncode}: {done.stderr}")
        return done.stderr

    def look_on(self):
        while not self.is_closed:
            if self.is_looking:
                self.told = self.look()
            time.sleep(PAUSE)

    def begin(self, name, *words):
        """Starts a program that watches."""
        with open(self.folder / f"{name}.log", "wb") as log:
            self.processes.append(
                subprocess.Popen(
                    [name, *map(str, words)], stdin=subprocess.DEVNULL, stdout=log, stderr=log, cwd=self.folder
                )
            )

    def watch(self):
        """Starts all that watches, by the files of deploy/prometheus with other ports and paths."""
        node, box, manager, self.prometheus_port = free_ports(4)
        rules = in_seconds((DEPLOYED / "rules.yml").read_text(encoding="utf-8"))
        (self.folder / "wanekupo.yml").write_text(rules, encoding="utf-8")
        pairs = [("/etc/station/cert.pem", f"{self.small}/etc/cert.pem")]
        (self.folder / "blackbox.yml").write_text(replaced(DEPLOYED / "blackbox.yml", pairs), encoding="utf-8")
        pairs = [("15s", "1s"), ("127.0.0.1:9093", f"{HOST}:{manager}"), ("127.0.0.1:9100", f"{HOST}:{node}")]
        pairs += [("127.0.0.1:9115", f"{HOST}:{box}"), ("https://station.example:8443", self.url)]
        docs = "external_labels:\n  #   docs: https://wiki.example/wanekupo/"
        pairs.append((f"  # {docs}", "  external_labels:\n    docs: https://w/"))
        (self.folder / "prometheus.yml").write_text(replaced(DEPLOYED / "prometheus.yml", pairs), encoding="utf-8")
        hears = f"http://{HOST}:{self.heard.server_address[1]}"
        pairs = [("http://127.0.0.1:9099", hears), ("monday:friday", "sunday:saturday")]
        pairs += [('"06:00", end_time: "22:00"', '"00:00", end_time: "24:00"'), ("Europe/Berlin", "UTC")]
        pairs += [('"07:00", end_time: "17:00"', '"00:00", end_time: "24:00"')]
        pairs.append(("route:\n", "route:\n  group_wait: 0s\n  group_interval: 1s\n"))
        (self.folder / "alertmanager.yml").write_text(replaced(DEPLOYED / "alertmanager.yml", pairs), encoding="utf-8")
        text = ["--collector.disable-defaults", "--collector.textfile"]
        text.append(f"--collector.textfile.directory={self.text_folder}")
        self.begin("prometheus-node-exporter", f"--web.listen-address={HOST}:{node}", *text)
        self.begin("prometheus-blackbox-exporter", f"--web.listen-address={HOST}:{box}", "--config.file=blackbox.yml")
        words = [f"--web.listen-address={HOST}:{manager}", "--config.file=alertmanager.yml", "--storage.path=alerts"]
        self.begin("prometheus-alertmanager", *words, "--cluster.listen-address=")
        words = [f"--web.listen-address={HOST}:{self.prometheus_port}", "--config.file=prometheus.yml"]
        self.begin("prometheus", *words, "--storage.tsdb.path=series")
        threading.Thread(target=self.look_on, daemon=True).start()

    def watched(self, query):
        """What prometheus answers to a query: the values that it has now."""
        url = f"http://{HOST}:{self.prometheus_port}/api/v1/query?" + urllib.parse.urlencode({"query": query})
        with urllib.request.urlopen(url, timeout=30) as reply:
            return [float(it["value"][1]) for it in json.load(reply)["data"]["result"]]

    def is_watched(self):
        """Whether all of it runs, and alertmanager knows prometheus."""
        ended = [process.args[0] for process in self.processes if process.poll() is not None]
        if ended:
            raise Failed(f"{ended[0]} ended: {(self.folder / f'{ended[0]}.log').read_text()[-600:]}")
        return True

    def close(self):
        self.is_closed = True
        for process in self.processes:
            process.terminate()
        for process in self.processes:
            process.wait()
        self.heard.shutdown()
        self.place.close()

    def value(self, metric):
        """A metric without labels, as it was written last."""
        text = (self.text_folder / "wanekupo.prom").read_text(encoding="ascii")
        return int(float(re.search(rf"(?m)^{metric} (\S+)$", text)[1]))


@contextlib.contextmanager
def plant_of(program, megabytes):
    """The plant, over a file system of so many megabytes. Other users use folders of it."""
    with tempfile.TemporaryDirectory() as folder, tempfile.TemporaryDirectory() as small:
        words = ["mount", "-t", "tmpfs", "-o", f"size={megabytes}m,mode=0755", "small", small]
        expect("a small file system", ran(words).returncode, 0)
        try:
            plant = Plant(folder, small, str(program))
            try:
                yield plant
            finally:
                plant.close()
        finally:
            ran(["umount", "--lazy", small])
