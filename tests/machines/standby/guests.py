"""A machine of its own under qemu: it is switched on, its power is cut, it hangs and wakes up, and commands are typed
at its serial line."""

import contextlib
import os
import re
import secrets
import select
import signal
import subprocess
import threading
import time
from pathlib import Path

# A guest ends by itself where the script is killed. It is as nice as the tests are.
FRONT = ["timeout", "--signal=KILL", "7200"]
MEMORY = 320
# How many MiB qemu keeps of translated code: it would keep a GiB.
TRANSLATED = 192
# Longer than a guest takes to say that it is up on a busy machine.
BOOT = 400


# All machines of this run, and whether no more may be switched on.
ALL: list["Guest"] = []
OVER = threading.Event()


def cut_all() -> None:
    """Cuts the power of all machines, where the script is stopped."""
    OVER.set()
    for guest in ALL:
        guest.wake()
        guest.signal(signal.SIGKILL)


class SilentGuest(Exception):
    """A guest that doesn't answer at its serial line in time."""


class Guest:
    """One machine: its name, its address on the cable to the other one, its disk, the port of this machine behind which
    its nginx is, and the one to which its questions to the plant's power switch go."""

    def __init__(self, name: str, place: str, disk: Path, ports: list[int], cable: tuple[int, int], image: list[Path]):
        self.name, self.place, self.disk, (self.port, self.switch) = name, place, disk, ports
        self.cable, (self.kernel, self.first) = cable, image
        # What somebody brings on a stick, which the guest reads at port 10 of 10.0.2.100.
        self.stick = disk.with_suffix(".stick")
        self.process: subprocess.Popen[bytes] | None = None
        self.heard, self.cuts = b"", 0
        ALL.append(self)
        self.started = 0.0

    def words(self) -> list[str]:
        """The command line of qemu. Both networks are of loopback: the one has a forwarded port and nothing else, the
        other one is the cable."""
        own, other = self.cable
        forward = f"hostfwd=tcp:127.0.0.1:{self.port}-10.0.2.15:8080"
        switch = f"guestfwd=tcp:10.0.2.100:9-cmd:busybox nc 127.0.0.1 {self.switch}"
        stick = f"guestfwd=tcp:10.0.2.100:10-cmd:cat {self.stick}"
        net = f"user,id=out,restrict=on,{forward},{switch},{stick}"
        pair = f"socket,id=pair,udp=127.0.0.1:{other},localaddr=127.0.0.1:{own}"
        last = self.place.rpartition(".")[2]
        said = f"console=ttyS0 quiet loglevel=1 panic=-1 nokaslr mitigations=off no_timer_check machine={self.name}"
        return [
            *FRONT, "qemu-system-x86_64", "-nodefaults", "-no-user-config", "-no-reboot",
            "-machine", "pc", "-accel", f"tcg,tb-size={TRANSLATED}", "-cpu", "max", "-smp", "1", "-m", str(MEMORY),
            "-display", "none",
            "-kernel", str(self.kernel), "-initrd", str(self.first), "-append", f"{said} place={self.place}",
            "-chardev", "stdio,id=line,signal=off", "-serial", "chardev:line",
            "-drive", f"file={self.disk},if=none,format=raw,id=half,cache=writeback",
            "-device", "virtio-blk-pci,drive=half",
            "-netdev", net, "-device", f"virtio-net-pci,netdev=out,romfile=,mac=52:54:00:00:00:{last:0>2}",
            "-netdev", pair, "-device", f"virtio-net-pci,netdev=pair,romfile=,mac=52:54:00:00:01:{last:0>2}",
        ]  # fmt: skip

    def start(self) -> "Guest":
        """Switches it on, and waits until it is up."""
        if OVER.is_set():
            raise SilentGuest(f"{self.name} isn't switched on, as the script is stopped")
        self.heard, self.started = b"", time.monotonic()
        pipe, both = subprocess.PIPE, subprocess.STDOUT
        self.process = subprocess.Popen(self.words(), stdin=pipe, stdout=pipe, stderr=both, start_new_session=True)
        assert self.process.stdout
        os.set_blocking(self.process.stdout.fileno(), False)
        self.hear(b"guest is up", BOOT)
        status, said = self.run("true", 60)
        if status:
            raise SilentGuest(f"{self.name}: {said}")
        return self

    def is_on(self) -> bool:
        return self.process is not None and self.process.poll() is None

    def used(self) -> float:
        """The seconds of this machine's processors that it took so far."""
        ticks = 0
        for path in Path("/proc").glob("[0-9]*/stat"):
            with contextlib.suppress(OSError):
                words = path.read_text(encoding="utf-8", errors="replace").rpartition(")")[2].split()
                ticks += int(words[11]) + int(words[12]) if self.process and int(words[2]) == self.process.pid else 0
        return ticks / os.sysconf("SC_CLK_TCK")

    def signal(self, number: int) -> None:
        if self.process and self.process.poll() is None:
            os.killpg(self.process.pid, number)

    def cut(self) -> None:
        """Cuts its power: no more instruction is run, and nothing in its memory is left."""
        self.cuts += self.is_on()
        self.signal(signal.SIGKILL)
        if self.process:
            self.process.wait()
            for end in (self.process.stdin, self.process.stdout):
                with contextlib.suppress(OSError):
                    if end:
                        end.close()
        self.process = None

    def hang(self) -> None:
        self.cuts += 1
        self.signal(signal.SIGSTOP)

    def wake(self) -> None:
        self.signal(signal.SIGCONT)

    # The serial line.

    def hear(self, mark: bytes, seconds: float) -> bytes:
        """What it says until the mark, and the mark's line."""
        end = time.monotonic() + seconds
        while True:
            place = self.heard.find(mark)
            line_end = self.heard.find(b"\n", place) if place >= 0 else -1
            if line_end >= 0:
                said, self.heard = self.heard[: line_end + 1], self.heard[line_end + 1 :]
                return said
            self.hear_some(mark, end)

    def hear_some(self, mark: bytes, end: float) -> None:
        assert self.process and self.process.stdout
        left = end - time.monotonic()
        ready = select.select([self.process.stdout], [], [], max(0, min(left, 1)))[0]
        data = self.process.stdout.read() if ready else None
        if data:
            self.heard += data
        elif left < 0 or data == b"" or self.process.poll() is not None:
            tail = self.heard[-600:].decode(errors="replace")
            raise SilentGuest(f"{self.name} doesn't say {mark.decode()}: {tail}")

    def type(self, text: str) -> None:
        assert self.process and self.process.stdin
        try:
            self.process.stdin.write(text.encode())
            self.process.stdin.flush()
        except OSError as error:
            rest = self.process.stdout.read() if self.process.stdout else b""
            tail = (self.heard + (rest or b""))[-3000:].decode(errors="replace")
            raise SilentGuest(f"{self.name} has ended by itself: {tail}") from error

    def run(self, command: str, seconds: float = 120) -> tuple[int, str]:
        """Types a command, and returns its status and what it printed on both outputs."""
        mark = secrets.token_hex(8)
        self.type(f"( {command}\n) < /dev/null 2>&1; echo \"{mark[:8]}\"\"{mark[8:]} $?\"\n")
        try:
            said = self.hear(mark.encode(), seconds).decode(errors="replace").replace("\r", "")
        except SilentGuest as silent:
            raise SilentGuest(f"behind {seconds:.0f} s of `{command}`: {silent}") from None
        found = re.search(rf"{mark} (\d+)\n", said)
        assert found
        return int(found[1]), said[: found.start()]

    def ask(self, command: str, seconds: float = 120) -> str:
        """The same of a command that has to do what it says."""
        status, said = self.run(command, seconds)
        if status:
            raise SilentGuest(f"{self.name}: {command}: status {status}: {said.strip()[-600:]}")
        return said.strip()

    def put(self, text: str, place: str) -> None:
        """Writes a text into a file of the guest, a few lines at a time: its serial line keeps no more."""
        self.ask(f": > {place}")
        lines = text.splitlines(keepends=True)
        while lines:
            part = ""
            while lines and len(part) + len(lines[0]) < 2000:
                part += lines.pop(0)
            self.ask(f"cat >> {place} << 'END-OF-PART'\n{part}END-OF-PART")
