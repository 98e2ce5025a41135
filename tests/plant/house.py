"""A house with a store, its site, a backup of last night and a service, in a folder; and runs of station-site over it.

The service is a script in a session of its own, as a real one is no child of who asks for it. As root the store and its
backups are another user's, since the tool refuses root's. A run may be killed right before its Nth deed that others see
(a file that is opened to be written, renamed, removed, a program that is started), in the tool or in a program of
Python that it started: `sitecustomize` counts them by Python's audit events, in a copy of the project whose commands
heed it. What root has another user do isn't counted, as root gives it none of its environment.
"""

import hashlib
import json
import os
import shlex
import shutil
import signal
import subprocess
from dataclasses import dataclass
from pathlib import Path

from common.chip import SITE
from common.commands import PROJECT, command
from common.deployed import CONF, TOOL, certify, replaced
from common.ports import free_port

OWNER, GROUP = "nobody", "nogroup"

SERVICE = r"""#!/bin/bash
# {start,stop,restarts}: one at a time, and in a session of its own.
here=$(dirname "$(realpath "$0")")
. "$here/words"
if [ -z "$INSIDE" ]; then INSIDE=yes exec setsid -w flock -o "$here/service.lock" "$0" "$@"; fi
words=(--site "$SITE" --db "$here/store/books.db" --existing)
is_up() { [ -s "$here/pid" ] && kill -0 "$(cat "$here/pid")" 2> /dev/null; }
case $1 in
    start)
        echo >> "$here/starts"
        is_up && exit 0
        if [ -e "$here/broken" ]; then echo 5 > "$here/restarts"; exit 0; fi
        $AS "$PROGRAM" serve "${words[@]}" --port "$PORT" --connections 100000 > "$here/served" 2>&1 < /dev/null &
        echo $! > "$here/pid"
        for _ in $(seq 3000); do grep -qs listening "$here/served" || ! is_up && break; sleep 0.02; done ;;
    stop)
        echo >> "$here/stops"
        is_up || exit 0
        kill "$(cat "$here/pid")"
        while is_up; do sleep 0.01; done
        $AS "$PROGRAM" replay "${words[@]}" < /dev/null ;;
    restarts) cat "$here/restarts" ;;
esac
"""

COUNTER = r"""
import fcntl, os, signal, sys
_first = int(os.environ.setdefault("KILL_FIRST", str(os.getpid())))
# High, as a process of the store user's has others at its lowest descriptors, and none of these.
_count, _started = (
    fcntl.fcntl(os.open(os.environ["KILL_COUNT"] + it, os.O_WRONLY | os.O_APPEND), fcntl.F_DUPFD_CLOEXEC, 100)
    for it in ("", ".words")
)
_at = int(os.environ["KILL_AT"])
_WRITES = os.O_WRONLY | os.O_RDWR | os.O_CREAT
_DEEDS = {"os.rename", "os.remove", "os.mkdir", "os.rmdir", "os.chmod", "os.chown", "subprocess.Popen"}

def _counted(event, args):
    if event == "open":
        if not isinstance(args[2], int) or not args[2] & _WRITES or str(args[0]).endswith(".pyc"):
            return
    elif event not in _DEEDS:
        return
    try:
        if event == "subprocess.Popen":
            os.write(_started, (repr(args[1]) + "\n").encode())
        os.write(_count, b"x")
    except OSError:
        return
    if os.fstat(_count).st_size == _at:
        os.killpg(_first, signal.SIGKILL)
        os.kill(os.getpid(), signal.SIGKILL)

sys.addaudithook(_counted)
"""


@dataclass
class Run:
    """How a run of the tool ended, and what it said."""

    status: int
    said: str
    deeds: int = 0


class House:
    """A folder with all that the tool needs; the server may run. Several have their sites, by the names of their
    folders, and their tokens in one folder."""

    def __init__(self, program: Path, folder: Path, etc: Path | None = None):
        self.program, self.folder, self.port = program, folder, free_port()
        self.site = etc / f"{folder.name}.toml" if etc else folder / "site.toml"
        self.tokens, self.rooms = self.site.with_name("tokens.conf"), folder / "rooms"
        self.backups, self.given, self.db = folder / "backups", folder / "given", folder / "store/books.db"
        self.other_words: dict[str, object] = {}
        self.owner, self.project = "", PROJECT

    def build(self, site: Path = SITE) -> None:
        """A store that is made, of this site where there is none, and a backup of it."""
        self.folder.mkdir()
        if not self.site.exists():
            self.site.write_bytes(site.read_bytes())
        self.site.chmod(0o640)
        for made in (self.backups, self.given, self.db.parent, self.rooms):
            made.mkdir()
        (self.folder / "restarts").write_text("0\n")
        service = self.folder / "service"
        service.write_text(SERVICE)
        service.chmod(0o755)
        self.give_away()
        made = [*self.as_owner(), self.program, "replay", "--site", self.site, "--db", self.db]
        subprocess.run(made, stdin=subprocess.DEVNULL, check=True)
        words = ["--program", self.program, "--site", self.site, "--db", self.db, self.backups / "night"]
        subprocess.run([*self.as_owner(), *command("station-backup"), *words], capture_output=True, check=True)

    def copy(self, folder: Path) -> "House":
        """Another house like this one; no server runs in either."""
        shutil.copytree(self.folder, folder)
        made = House(self.program, folder)
        made.give_away()
        return made

    def as_owner(self) -> list[str]:
        """The words in front of a command of the store's user."""
        return ["setpriv", "--reuid", OWNER, "--regid", GROUP, "--clear-groups", "--"] if self.owner else []

    def environment(self) -> dict[str, str]:
        """What a tool is started with. The service has its words in a file, as root's tools pass on none of these."""
        words = {"PROGRAM": self.program, "PORT": self.port, "SITE": self.site, "AS": " ".join(self.as_owner())}
        lines = "".join(f"{name}={shlex.quote(str(it))}\n" for name, it in words.items())
        (self.folder / "words").write_text(lines, encoding="utf-8")
        return dict(os.environ)

    def service(self, word: str) -> None:
        subprocess.run([self.folder / "service", word], env=self.environment(), check=True)

    def end(self) -> None:
        """Stops the server, whatever was left."""
        self.service("stop")

    def common(self) -> list[str]:
        """The words in front of each command."""
        service = self.folder / "service"
        words = {"--site": self.site, "--db": self.db, "--backups": self.backups, "--nginx": "",
                 "--tokens": self.tokens, "--program": self.program, "--port": self.port,
                 "--start": f"{service} start", "--stop": f"{service} stop", "--restarts": f"{service} restarts",
                 "--wait": 20, "--room": self.rooms, "--token-words": "--no-reload"} | self.other_words  # fmt: skip
        return [*command("station-site", self.project), *(f"{name}={value}" for name, value in words.items())]

    def run(self, *words: str, kill_at: int = 0) -> Run:
        """A run of the tool, which may be killed at a deed."""
        count = self.folder / "count"
        started = count.with_name("count.words")
        count.write_bytes(b"")
        started.touch()
        (self.folder / "sitecustomize.py").write_text(COUNTER)
        more = {"KILL_AT": str(kill_at or -1), "KILL_COUNT": str(count), "PYTHONPATH": str(self.folder)}
        done = subprocess.run(
            [*self.common(), *words], env=self.environment() | more, capture_output=True, text=True, timeout=600,
            stdin=subprocess.DEVNULL, start_new_session=True, check=False,
        )  # fmt: skip
        return Run(done.returncode, done.stdout + done.stderr, count.stat().st_size)

    def give_away(self) -> None:
        """As root makes the store and its backups another user's, as whom the server runs then."""
        if os.geteuid():
            return
        self.owner = OWNER
        for path in (self.backups, *self.backups.rglob("*"), self.db.parent, *self.db.parent.iterdir()):
            shutil.chown(path, OWNER, GROUP)
        shutil.chown(self.site, group=GROUP)

    def proxied(self, *more: tuple[str, str]) -> "subprocess.Popen[bytes]":
        """nginx by deploy/nginx.conf in front, with other ports and paths, and more words in the place of others."""
        port, etc = free_port(), self.tokens.parent
        certificate = etc / "cert.pem"
        certify(etc, name="station.example", names="DNS:station.example,DNS:localhost,IP:127.0.0.1")
        pairs = [("listen 8443", f"listen 127.0.0.1:{port}"), ("127.0.0.1:880;", f"127.0.0.1:{self.port};"),
                 ("/etc/station/", f"{etc}/"), ("/var/lib/nginx/", f"{self.folder}/lib-"),
                 ("/var/log/nginx/", f"{self.folder}/log-"), *more]  # fmt: skip
        path, pid = self.folder / "nginx.conf", self.folder / "nginx.pid"
        path.write_text(replaced(CONF, pairs))
        subprocess.run([TOOL, "--file", self.tokens, "--no-reload", "write"], capture_output=True, check=True)
        nginx = f"nginx -c {path} -e {self.folder}/log -g 'pid {pid};'"
        told = f'--test "{nginx} -t -q" --reload "{nginx} -s reload" --pid {pid}'
        self.other_words = {"--nginx": f"https://127.0.0.1:{port}", "--certificate": certificate, "--token-words": told}
        running = ["nginx", "-c", path, "-e", f"{self.folder}/log", "-g", f"pid {pid}; daemon off;"]
        return subprocess.Popen([str(word) for word in running], stderr=subprocess.DEVNULL)

    def records(self) -> tuple[dict[str, dict], list[dict]]:
        """The seats and the outer tokens of the tokens' file."""
        text = self.tokens.read_text() if self.tokens.exists() else ""
        found = [json.loads(line[3:]) for line in text.splitlines() if line.startswith("#: ")]
        return {it["seat"]: it for it in found if "number" not in it}, [it for it in found if "number" in it]

    def asked(self, token: str) -> int:
        """The server's status for who asks with a token."""
        words = ["curl", "-s", "-o", os.devnull, "-w", "%{http_code}", "-m", "5", "--config", "-"]
        config = f'url = "http://127.0.0.1:{self.port}/v1/order?name=none"\nheader = "Authorization: Bearer {token}"\n'
        return int(subprocess.run(words, input=config, capture_output=True, text=True, check=False).stdout or 0)

    def left(self) -> list[str]:
        """What a run shouldn't leave: plans, new texts, halves of files and of backups."""
        names = ["*.next.toml", "*.growth", "*.new", "rooms/*", "backups/*/trial*"]
        return sorted(str(path.relative_to(self.folder)) for name in names for path in self.folder.glob(name))


def digest_of(token: str) -> str:
    return hashlib.sha256(token.encode()).hexdigest()


def was_killed(run: Run) -> bool:
    return run.status == -signal.SIGKILL
