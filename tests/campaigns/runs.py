"""A group is run: its words, its end, what it said and counted. All of it serves and loads on this machine alone."""

import hashlib
import os
import re
import shlex
import signal
import subprocess
import tempfile
import time
from collections.abc import Sequence
from contextlib import suppress
from datetime import UTC, datetime
from pathlib import Path
from typing import Any

from campaigns.groups import CLIENTS, FIRST_SEED, MEASURES, STARTS, TESTS, Group, changed_since, files_here, git
from campaigns.results import FAILED, NOT_RUN, PASSED, Result
from common.needs import APART, ROOT, may_be_apart

# The lines that are kept of a failure, and of a measure; the seconds to clear away; the hours of a smallest run.
TAIL, KEPT, CLEARING, SMALLEST = 12, 400, 60, 1 / 6
FAULT, LEFT_OUT = re.compile(r"(?m)^(?:FAILED|ERROR) (\S+ - .*)$"), re.compile(r"(?m)^SKIPPED \[\d+\] \S+: (.*)$")
COUNT = re.compile(r"\b(\d+) (passed|failed|skipped|xfailed|errors?|refused|not|equivalent|tests)\b")


def ended(words: Sequence[str], folder: Path, hours: float, is_measure: bool) -> int:
    """Runs a command for some hours at most, and ends it with this process, however that ends: its status. The folder
    gets `said` and `errors`. Measures clear nothing away, so root's have a place apart."""
    apart, sign = (APART, "KILL") if is_measure and may_be_apart() else ([], "INT")
    limit = ["timeout", "--signal=INT", f"--kill-after={CLEARING}", str(3600 * hours), "setpriv", "--pdeathsig", sign]
    with open(folder / "said", "wb") as said, open(folder / "errors", "wb") as errors:
        process = subprocess.Popen(
            ["setpriv", "--pdeathsig", "INT", *limit, *apart, *words], cwd=folder if is_measure else ROOT,
            env=os.environ | {"PYTHONDONTWRITEBYTECODE": "1", "COLUMNS": "400"}, stdin=subprocess.DEVNULL,
            stdout=said, stderr=errors,
        )  # fmt: skip
        try:
            return process.wait()
        finally:
            process.send_signal(signal.SIGINT)
            process.wait()
            with suppress(ProcessLookupError):
                os.killpg(process.pid, signal.SIGKILL)


def run(group: Group, words: str, hours: float, program: Path, seed: int) -> tuple[str, list[str], dict[str, int]]:
    """What becomes of a group: passed, failed or not run; what it said, or why; its counts."""
    first, *others = shlex.split(group.run)
    with tempfile.TemporaryDirectory() as name:
        folder = Path(name)
        folder.chmod(0o755)
        command = [str(ROOT / first) if "/" in first else first, *others]
        command += ["--program", str(program)] if first in (TESTS, MEASURES, CLIENTS) else []
        command += [f"--found={folder / 'found'}", "-q", f"--seed={seed}"] if first == TESTS else []
        status = ended([*command, *shlex.split(words)], folder, hours, first.startswith("bench/"))
        files = [folder / it for it in ("said", "errors", "found")]
        output, errors, found = (it.read_text("utf-8", "replace").splitlines() if it.exists() else [] for it in files)
    said, lines = found if first == TESTS else output[-KEPT:], output + errors
    counts = {name: int(count) for line in lines[-3:] for count, name in COUNT.findall(line)}
    faults, skipped = (list(dict.fromkeys(it.findall("\n".join(output)))) for it in (FAULT, LEFT_OUT))
    left_out = (lines or ["it says no reason"])[-1:] if status == 77 else skipped
    if status in (124, 137):
        return FAILED, [f"stopped behind {hours:g} hours", *faults[:TAIL]], counts
    if faults or status not in (0, 77):
        return FAILED, faults[:TAIL] or [f"it ended with status {status}", *lines[-TAIL:]], counts
    return (NOT_RUN, left_out, counts) if left_out and not counts.get(PASSED) else (PASSED, said, counts)


def about_here(program: Path) -> dict[str, Any]:
    """When and where a run begins: the tree's toolchain, the program, and the machine with its load."""
    toolchain = re.search(r"rattle-kit-\S+ logic \w+", (ROOT / "docs/proof/trust.md").read_text("utf-8"))
    model = re.search(r"(?m)^model name\s*: (.*)$", Path("/proc/cpuinfo").read_text())
    return {
        "began": datetime.now(UTC).isoformat(timespec="seconds"),
        "toolchain": toolchain[0] if toolchain else "unknown",
        "program": hashlib.sha256(program.read_bytes()).hexdigest(),
        "machine": f"{os.cpu_count()} {model[1] if model else 'processors'}, Linux {os.uname().release}",
        "processors, load": [len(os.sched_getaffinity(0)), *os.getloadavg()],
    }


def tried(group: Group, size: str, program: Path, seed: int) -> Result:
    """Runs a group at a size, and says what became of it. A missed goal fails."""
    digest, begun = group.digest(size, files_here()), time.monotonic()
    seed = int(next(iter(re.findall(r" --seed (\d+)", group.run)), seed))
    is_changed = any(re.match(group.of, name) for name in changed_since("HEAD"))
    commit = git("log", "-1", "--abbrev=8", "--format=%h of %cs").strip() + " and changed files" * is_changed
    about = about_here(program)
    status, said, counts = run(group, group.words(size) or "", group.most_hours(size), program, seed)
    if missed := [line for line in said if line.endswith(", missed")]:
        status, said = FAILED, [*missed, *said]
    seconds = round(time.monotonic() - begun, 1)
    return Result(group.name, size, group.command(size), commit, digest, status, said, counts, seconds, seed, about)


def started(group: Group, program: Path) -> tuple[str, str]:
    """What becomes of a group's smallest run, or of its help, or of its tests that are collected."""
    begun, alone = time.monotonic(), "--collect-only" if re.search(r"tests/all|pytest", group.run) else "--help"
    words = group.words(STARTS) or alone
    if lacking := group.lacks() if words != alone else "":
        return NOT_RUN, f"{group.name}: NOT RUN: {lacking}"
    status, said, _ = run(group, words, SMALLEST, program, FIRST_SEED)
    told = "; ".join([f"{words} in {time.monotonic() - begun:.1f} s", *(said if status != PASSED else [])])
    return status, f"{group.name}: {status if status == PASSED else status.upper()}: {told}"
