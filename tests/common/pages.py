"""The commands of a page of docs, run in one bash after another, and their replies beside the page's.

A page's commands stand in blocks of ```console, each behind `$ `, its further lines behind `> `, and its reply below
it. A file `.console` is one such block, behind lines that say what it shows. They run in a new folder in which
`crates`, `kit`, `deploy` and `python` are those of the repository and `station` is the program.
"""

import os
import re
import shutil
import signal
import subprocess
import tempfile
import threading
from pathlib import Path

from common.needs import ROOT

FOLDERS = ["crates", "kit", "python"]
PORT, PORTS = 8080, 4
SECONDS = 600
BLOCK = re.compile(r"^```console\n(.*?)^```$", re.MULTILINE | re.DOTALL)
FILE = re.compile(r"^(\$ .*)", re.MULTILINE | re.DOTALL)
MARK = "end of the walk's command"

# sqlite3 with words behind it, and not in its safe mode first of all: what a store says could then run a command.
UNSAFE = re.compile(r"\bsqlite3\s+(?!-safe -readonly\b)\S.*")

# What apt is asked for are names of packages, and no commands, up to the next sign of the shell.
PACKAGES = re.compile(r"\b(?:apt|apt-get)( -\S+)* install\b[^|;&`$(\n]*")


class Step:
    """A command of a page, its first line after `$ ` and the others after `> `, and its reply."""

    def __init__(self, line):
        self.lines, self.reply = [line], []

    def text(self):
        first, *others = self.lines
        return "".join([f"$ {first}\n", *(f"> {line}\n" for line in others), *(f"{line}\n" for line in self.reply)])


def commands_of(page):
    """What finds the commands of a page, or of a file of commands alone."""
    return FILE if page.suffix == ".console" else BLOCK


def all_pages():
    """The pages of docs, and the files of commands alone."""
    return [page for place in ("docs/**/*.md", "tests/pages/*.console") for page in sorted(ROOT.glob(place))]


def steps_of(block):
    """The commands of a block of the page."""
    steps = []
    for line in block.splitlines():
        if line.startswith("$ "):
            steps.append(Step(line[2:]))
        elif line.startswith("> ") and not steps[-1].reply:
            steps[-1].lines.append(line[2:])
        else:
            steps[-1].reply.append(line)
    return steps


def without_packages(text):
    """A text without the names of packages that it has apt install."""
    return PACKAGES.sub("", text)


def unsafe_lines(text):
    """The lines of a page by their numbers that run sqlite3 without `-safe -readonly`."""
    found = ((number, UNSAFE.search(line)) for number, line in enumerate(without_packages(text).splitlines(), 1))
    return [(number, it[0]) for number, it in found if it]


def at_ports(text, old, new):
    """The text with the ports from one on in place of those from another on."""
    ports = {str(old + place): str(new + place) for place in range(PORTS)}
    return re.sub(rf"(:|\bport )({'|'.join(ports)})\b", lambda found: found[1] + ports[found[2]], text)


class Shell:
    """A bash in which the commands run one after another."""

    def __init__(self, program, port, seconds):
        self.port = port
        self.folder = tempfile.TemporaryDirectory()
        for name in FOLDERS:
            os.symlink(ROOT / name, f"{self.folder.name}/{name}")
        self.deploy()
        os.mkdir(f"{self.folder.name}/bin")
        os.symlink(program, f"{self.folder.name}/bin/station")
        path = f"{self.folder.name}/bin:{os.environ['PATH']}"
        self.bash = subprocess.Popen(
            [*self.as_other(), "bash"],
            cwd=self.folder.name,
            env=os.environ | {"PATH": path, "LC_ALL": "C", "PYTHONDONTWRITEBYTECODE": "1", "HOME": self.folder.name},
            stdin=subprocess.PIPE,
            stdout=subprocess.PIPE,
            stderr=subprocess.STDOUT,
            text=True,
            start_new_session=True,
        )
        self.limit = threading.Timer(seconds, self.stop)
        self.limit.start()

    def as_other(self):
        """The words in front of a page's commands: root's are another user's, since a store is never root's."""
        if os.geteuid():
            return []
        for folder, _, names in os.walk(self.folder.name):
            for path in (folder, *(f"{folder}/{name}" for name in names)):
                os.chown(path, 65534, 65534, follow_symlinks=False)
        return ["setpriv", "--reuid=65534", "--regid=65534", "--clear-groups", "--"]

    def deploy(self):
        """Puts the files of `deploy` there, with the ports of this run."""
        for path in sorted(it for it in (ROOT / "deploy").rglob("*") if it.is_file()):
            text = at_ports(path.read_text(encoding="utf-8"), PORT, self.port)
            copy = Path(self.folder.name, path.relative_to(ROOT))
            copy.parent.mkdir(parents=True, exist_ok=True)
            copy.write_text(text, encoding="utf-8")
            shutil.copymode(path, copy)

    def reply(self, lines):
        """What a command writes. One that ends with `&` writes one line more than its own end."""
        command = at_ports("\n".join(lines), PORT, self.port)
        self.bash.stdin.write(f"{{ {command}\n}} </dev/null\nprintf '%s\\n' \"{MARK}\"\n")
        self.bash.stdin.flush()
        reply, ends = [], 0
        while not ends or (command.endswith("&") and not reply):
            line = self.bash.stdout.readline()
            if not line:
                raise SystemExit(f"FAILED: no reply to: {lines[0]}")
            if line == f"{MARK}\n":
                ends += 1
            else:
                reply.append(at_ports(line.rstrip("\n"), self.port, PORT))
        return reply

    def stop(self):
        """Ends the bash and what it started."""
        os.killpg(self.bash.pid, signal.SIGKILL)

    def close(self):
        self.limit.cancel()
        self.stop()
        self.bash.wait()
        self.folder.cleanup()


def walk(page, program, port, seconds):
    """A page's text with the replies of this run, and the commands, each with what the page has instead."""
    shell, told = Shell(program, port, seconds), []

    def block(found):
        steps = steps_of(found[1])
        for step in steps:
            expected, step.reply = step.reply, shell.reply(step.lines)
            told.append((step, expected))
        return found[0].replace(found[1], "".join(step.text() for step in steps))

    try:
        return commands_of(page).sub(block, page.read_text(encoding="utf-8")), told
    finally:
        shell.close()


def others_than_on(told):
    """The commands whose replies aren't those of the page, each with both."""
    return [(step.lines, expected, step.reply) for step, expected in told if step.reply != expected]
