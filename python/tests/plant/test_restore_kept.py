"""The script that keeps each day's journals: what one station ships takes no other's away."""

import os
import shutil
import subprocess

import pytest
from conftest import DEPLOY


@pytest.fixture
def keep(tmp_path):
    """Runs the script in folders of this test; what comes back is what cron mails."""
    if not shutil.which("rsync"):
        pytest.skip("there is no rsync")
    text = (DEPLOY / "keep-journals").read_text(encoding="utf-8")
    text = text.replace("/var/backups/journals", f"{tmp_path}/kept").replace("/var/lib/journals", str(tmp_path))
    (tmp_path / "kept").mkdir()

    def run():
        done = subprocess.run(["sh", "-c", text], capture_output=True, text=True, check=False)
        return done.stdout + done.stderr

    return run


def test_each_folder_is_kept_by_itself(tmp_path, keep):
    for name, size in (("pc7/1", 4), ("pc8/2", 2), ("pc9/3", 3)):
        (tmp_path / "all" / name).mkdir(parents=True)
        (tmp_path / "all" / name / "a.journal").write_bytes(bytes(size << 14))
    for name in ("pc7/seven.journal", "pc8/eight.journal"):
        (tmp_path / "all" / name).touch()
        os.truncate(tmp_path / "all" / name, 200 << 20)
    said = keep()
    assert -1 < said.find("eight.journal is over max-size") < said.find("seven.journal is over max-size")
    (day,) = (tmp_path / "kept").iterdir()
    assert sorted(str(it.relative_to(day)) for it in day.rglob("*.journal")) == [
        "pc7/1/a.journal", "pc8/2/a.journal", "pc9/3/a.journal"
    ]  # fmt: skip
    assert not (day / "pc7/seven.journal").exists()
    before = day.rename(day.with_name("2020-01-01"))
    for name in ("pc7/seven.journal", "pc8/eight.journal"):
        (tmp_path / "all" / name).unlink()
    assert keep() == ""
    assert os.path.samefile(before / "pc7/1/a.journal", day / "pc7/1/a.journal")
    shutil.rmtree(day / "pc8")
    (day / "pc8").touch()  # so the smallest one can't be kept
    (tmp_path / "all/pc9/3/b.journal").touch()
    assert "rsync error" in keep() and (day / "pc9/3/b.journal").exists()


def test_names_that_are_no_stations(tmp_path, keep):
    """A name with a line feed begins no line of the list, a link is no folder, and no file runs as another user."""
    (tmp_path / "all/pc7").mkdir(parents=True)
    (tmp_path / "all/pc7/ship.journal").touch()
    (tmp_path / "all/pc7/ship.journal").chmod(0o4755)
    (tmp_path / "own").mkdir()
    (tmp_path / "own/x.journal").touch()
    for name in ("b\n2 ..", f"c\n1 {tmp_path}/own", ".hidden", "-n", "d e"):
        (tmp_path / "all" / name.replace("/", "_")).mkdir()
    (tmp_path / "all/pc8").symlink_to(tmp_path / "own")
    (tmp_path / "kept").chmod(0o700)
    assert keep().count("who made such a name?") == 4  # a name that begins with a point isn't seen
    (day,) = (tmp_path / "kept").iterdir()
    assert [it.name for it in day.iterdir()] == ["pc7"]
    assert (day / "pc7/ship.journal").stat().st_mode & 0o7777 == 0o755
    assert (tmp_path / "kept").stat().st_mode & 0o777 == 0o700


def test_what_one_station_ships_takes_no_room(tmp_path, keep):
    """A file of many names is one, what is no journal and what is empty isn't copied, nor a folder of many names."""
    (tmp_path / "all/pc7").mkdir(parents=True)
    (tmp_path / "all/pc7/a.journal").write_bytes(bytes(1 << 16))
    for name in "bcd":
        (tmp_path / f"all/pc7/{name}.journal").hardlink_to(tmp_path / "all/pc7/a.journal")
        (tmp_path / f"all/pc7/{name}/{name}").mkdir(parents=True)
    (tmp_path / "all/pc7/other").write_bytes(b"other")
    (tmp_path / "all/pc8").mkdir()
    for number in range(20_000):
        (tmp_path / f"all/pc8/{number}.journal").touch()
    assert "too many names in pc8\n" in keep()
    (day,) = (tmp_path / "kept").iterdir()
    assert sorted(it.name for it in day.rglob("*")) == ["a.journal", "b.journal", "c.journal", "d.journal", "pc7"]
    assert (day / "pc7/a.journal").stat().st_nlink == 4
