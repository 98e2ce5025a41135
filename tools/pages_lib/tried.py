"""What there is to say against the page of what was tried, docs/proof/tried.md, which tests/campaign writes."""

import subprocess
import sys

from pages_lib.rattle import TOP

FAULT = "fault: "


def judged() -> list[str]:
    """What is wrong with the page (`FAULT` in front), and which of its rows failed or are of another tree."""
    words = [sys.executable, "-B", str(TOP / "tests/campaign"), "--judge"]
    done = subprocess.run(words, capture_output=True, text=True, check=False)
    broken = [f"{FAULT}tests/campaign --judge: {line}" for line in done.stderr.splitlines()[-1:] if done.returncode]
    return done.stdout.splitlines() + broken
