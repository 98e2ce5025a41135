"""Which backups stay, by docs/operate/backup-and-restore.md, and what is read of the note of the last one."""

import json
import os

import pytest
from wanekupo.plant.backup.folder import NAME, last_of, last_snapshot, staying_backups

LATE, END = "T020000Z", ".tar.age"


def names(*days):
    return {f"{day}{LATE}" for day in days}


NOVEMBER = [f"2026-11-{day:02}" for day in range(1, 31)]
# The newest of each of the last days that have a backup, and of each of the last weeks that do, by ISO 8601: its weeks
# begin on a Monday, and the first of a year has that year's first Thursday. 2026-11-29 is a Sunday.
CASES = [
    ("nothing", set(), 7, 5, set()),
    ("the newest stays whatever is said", names("2026-11-29", "2026-11-28"), 0, 0, names("2026-11-29")),
    ("days", names(*NOVEMBER), 3, 0, names("2026-11-28", "2026-11-29", "2026-11-30")),
    ("weeks", names(*NOVEMBER), 0, 3, names("2026-11-30", "2026-11-29", "2026-11-22")),
    ("days and weeks", names(*NOVEMBER), 2, 3, names("2026-11-30", "2026-11-29", "2026-11-22")),
    ("a gap takes none away", names("2026-03-01", "2026-06-01", "2026-09-01"), 1, 3,
     names("2026-03-01", "2026-06-01", "2026-09-01")),
    ("days that have one", names("2026-03-01", "2026-06-01", "2026-09-01"), 2, 0, names("2026-06-01", "2026-09-01")),
    # 2020-12-31 and 2021-01-01 are of week 53 of 2020, 2021-01-04 is the first of week 1 of 2021.
    ("one week over the year's turn", names("2020-12-31", "2021-01-01"), 0, 5, names("2021-01-01")),
    ("week 53 and week 1", names("2020-12-31", "2021-01-03", "2021-01-04"), 0, 5, names("2021-01-03", "2021-01-04")),
    # 2024-12-30 is of week 1 of 2025, which ends with 2025-01-05; 2024-12-29 is of week 52 of 2024.
    ("week 1 begins in the old year", names("2024-12-29", "2024-12-30", "2025-01-05"), 0, 5,
     names("2024-12-29", "2025-01-05")),
    ("two of a day", {"2026-11-29T020000Z", "2026-11-29T140000Z"}, 7, 5, {"2026-11-29T140000Z"}),
    ("encrypted ones count as plain ones",
     {"2026-11-29T020000Z" + END, "2026-11-29T140000Z", "2026-11-28T020000Z" + END}, 2, 0,
     {"2026-11-29T140000Z", "2026-11-28T020000Z" + END}),
    ("another name is no backup", names("2026-11-29") | {"mine", ".new-2026-11-30T020000Z", "2026-11-30"}, 1, 1,
     names("2026-11-29")),
]  # fmt: skip


@pytest.mark.parametrize("what, found, days, weeks, kept", CASES, ids=[case[0] for case in CASES])
def test_which_stay(what, found, days, weeks, kept):
    assert staying_backups(found, days, weeks) == kept


FORMS = [
    ("2026-11-29T020000Z", True),
    ("2026-11-29T020000Z.tar.age", True),
    (".new-2026-11-29T020000Z", False),
    ("2026-11-29T020000Z.tar", False),
    ("2026-11-29T020000Z\n", False),
    ("2026-11-29T02:00:00Z", False),
]


@pytest.mark.parametrize("name, is_backup", FORMS)
def test_name_of_a_backup(name, is_backup):
    assert bool(NAME.fullmatch(name)) == is_backup


NOTED = [
    ('{"snapshot": "btrfs", "snapshot_size": "2G"}', ("btrfs", "2G")),
    ('{"snapshot": "lvm", "snapshot_size": ""}', ("lvm", "")),
    ('{"snapshot": "lvm", "snapshot_size": "1G --addtag x"}', ("lvm", "")),
    ('{"snapshot": "lvm", "snapshot_size": "../etc"}', ("lvm", "")),
    ('{"snapshot": "../top", "snapshot_size": "2G"}', ("", "2G")),
    ('{"snapshot": ["btrfs"]}', ("", "")),
    ("{}", ("", "")),
    ("[]", ("", "")),
    ('"lvm"', ("", "")),
    ("", ("", "")),
    ("[" * 65536, ("", "")),
    ('{"a":' * 13000, ("", "")),
    ("9" * 65536, ("", "")),
    ('{"snapshot": "lvm", "x": "' + "y" * 65536 + '"}', ("", "")),
    ("\udc80{}", ("", "")),
]


@pytest.mark.parametrize("text, taken", NOTED, ids=range(len(NOTED)))
def test_last_snapshot_of_any_text(tmp_path, text, taken):
    (tmp_path / "last-backup.json").write_bytes(text.encode(errors="surrogateescape"))
    assert last_snapshot(tmp_path) == taken


def test_note_that_is_no_plain_file(tmp_path):
    noted, other = tmp_path / "last-backup.json", tmp_path / "other"
    other.write_text('{"snapshot": "lvm"}')
    assert last_of(tmp_path) == {}
    noted.symlink_to(other)
    assert last_of(tmp_path) == {}
    noted.unlink()
    os.mkfifo(noted)
    assert last_of(tmp_path) == {}
    noted.unlink()
    other.rename(noted)
    assert last_of(tmp_path) == json.loads('{"snapshot": "lvm"}')
