"""The script that keeps each day's journals: what one station ships fills no disk."""

import shutil
import subprocess
from pathlib import Path

import pytest
from conftest import DEPLOY

pytestmark = pytest.mark.skipif(not shutil.which("rsync"), reason="there is no rsync")
SIZE = "#!/bin/sh\ncase $3 in *pc7) echo 2000001 $3;; *) echo 2000000 $3;; esac | tr ' ' '\\t'\n"


@pytest.fixture
def kept(tmp_path: Path) -> Path:
    """The folder of all days, and two stations' folders, of which du(1) has it that one is above the bound."""
    for name in ("pc7", "pc8"):
        (tmp_path / "lib/journals/all" / name / "x").mkdir(parents=True)
        (tmp_path / "lib/journals/all" / name / "x/a.journal").write_text(name)
    for name in ("backups/journals", "bin"):
        (tmp_path / name).mkdir(parents=True)
    (tmp_path / "bin/du").write_text(SIZE)
    (tmp_path / "bin/du").chmod(0o755)
    return tmp_path / "backups/journals"


def run(kept: Path) -> str:
    """Runs the script over these, and gives what it tells."""
    top, text = kept.parents[1], (DEPLOY / "keep-journals").read_text(encoding="utf-8")
    script = text.replace("PATH=/usr", f"PATH={top}/bin:/usr").replace("/var/", f"{top}/")
    return subprocess.run(["sh", "-c", script], capture_output=True, text=True, check=False).stderr


def test_a_folder_that_is_too_large_is_named_and_left_out(kept: Path) -> None:
    told = run(kept)
    found = [it.relative_to(kept).parts[1:] for it in kept.rglob("*.journal")]
    assert found == [("pc8", "x", "a.journal")] and "too much in pc7\n" in told


def test_holes_count_by_their_length(kept: Path) -> None:
    """They cost a station nothing; a copy reads them for hours, and as the smallest one it would come first."""
    (kept.parents[1] / "bin/du").unlink()
    for number in range(21):
        with open(kept.parents[1] / f"lib/journals/all/pc7/x/{number}.journal", "wb") as file:
            file.truncate(100_000_000)
    told = run(kept)
    assert "too much in pc7\n" in told and [it.name for it in kept.glob("*/*")] == ["pc8"]


def test_a_day_of_a_clock_that_was_ahead_is_not_the_last_one(kept: Path) -> None:
    """What is old is linked to the day before, else each day would have all of it anew."""
    file = kept.parents[1] / "lib/journals/all/pc8/x/a.journal"
    for day in ("2000-01-01", "2099-01-01"):
        (kept / day / "pc8/x").mkdir(parents=True)
    shutil.copy2(file, kept / "2000-01-01/pc8/x/a.journal")
    run(kept)
    before = kept / "2000-01-01/pc8/x/a.journal"
    (today,) = {*kept.glob("*/pc8/x/a.journal")} - {before}
    assert today.samefile(before)
