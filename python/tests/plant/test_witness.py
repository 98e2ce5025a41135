"""A takeover's comparison with the witness, by docs/operate/second-machine.md; what a resource of DRBD has to keep."""

import re
import tomllib
from datetime import datetime, timedelta, timezone
from types import SimpleNamespace

import pytest
from conftest import TOP
from wanekupo.standby import witness
from wanekupo.standby.half import StandbyError
from wanekupo.standby.look import SEAT, numbers_of
from wanekupo.standby.needs import secret_faults
from wanekupo.standby.witness import Reply, compare_numbers, highest_numbers
from wanekupo.standby.witness import tested_numbers as witness_of

OLDER, UNSEEN, LACKS = "This half is an older one", "No witness has the seats", "The witness lacks replies"
NOW = datetime.now(timezone.utc)


def replies(numbers):
    return {seat: Reply(number, f"f, line {number}") for seat, number in numbers.items()}


# Each seat's last number has to be at least the witness's; a half may have one more, as a station has one request under
# way; a seat without a line is named, also one that has asked for nothing here.
PASSED = [
    ({}, {}),
    ({"a1": 17}, {"a1": 17}),
    ({"a1": 18}, {"a1": 17}),
    ({"a1": 1}, {"a1": 0}),
    ({"a1": 17, "a5": 0}, {"a1": 17, "a5": 0}),
    ({"a1": 17, "a5": 1}, {"a1": 17, "a5": 0}),
]
REFUSED = [
    ({"a1": 16}, {"a1": 17}, OLDER, "a1 has 16 here, and a reply to 17 (f, line 17)"),
    ({"a1": 17, "a5": 0}, {"a1": 17, "a5": 1}, OLDER, "a5 has 0 here, and a reply to 1 (f, line 1)"),
    ({"a1": 17}, {"a1": 17, "zz": 5}, OLDER, "zz has 0 here, and a reply to 5 (f, line 5)"),
    ({"a1": 17, "b1": 3}, {"a1": 17, "b1": 999}, OLDER, "b1 has 3 here, and a reply to 999 (f, line 999)"),
    ({"a1": 17, "a5": 0}, {"a1": 17}, UNSEEN, "a5, so"),
    ({"a1": 17, "a5": 0}, {"a1": 17}, UNSEEN, "`seat a5 0`"),
    ({"a1": 17, "b1": 3}, {"a1": 17}, UNSEEN, "`seat b1 3`"),
    ({"a1": 17}, {}, UNSEEN, "`seat a1 17`"),
    ({"a1": 19}, {"a1": 17}, LACKS, "a1 has 19 here, and a reply to 17"),
    ({"a1": 2}, {"a1": 0}, LACKS, "`seat a1 2`"),
    ({"b1": 2, "a1": 1}, {"b1": 3, "a1": 4}, OLDER, "a1 has 1 here, and a reply to 4 (f, line 4), b1 has 2 here"),
    ({"b1": 2, "a1": 1}, {}, UNSEEN, "the seats a1, b1, so"),
    ({"b1": 9, "a1": 8}, {"b1": 3, "a1": 4}, LACKS, "a1 has 8 here, and a reply to 4 (f, line 4), b1 has 9 here"),
    # The older half is told first: it is what must not be served.
    ({"a1": 16, "a5": 0, "b1": 9}, {"a1": 17, "b1": 3}, OLDER, "a1 has 16 here"),
]


@pytest.mark.parametrize("store, witness", PASSED)
def test_compare_passes(store, witness):
    compare_numbers(store, replies(witness))


@pytest.mark.parametrize("store, witness, why, told", REFUSED)
def test_compare_refuses(store, witness, why, told):
    with pytest.raises(StandbyError) as refused:
        compare_numbers(store, replies(witness))
    assert str(refused.value).startswith(why) and told in str(refused.value)


def test_seats_of_the_site_count_as_zero():
    assert numbers_of("seat a1 17\nseat b1 3\n", ["a1", "a5"]) == {"a1": 17, "a5": 0, "b1": 3}
    with pytest.raises(StandbyError):
        compare_numbers(numbers_of("seat a1 17\n", ["a1", "a5"]), replies({"a1": 17}))


# A name is 1 to 32 of A-Z a-z 0-9 . _ -, and a number has at most 16 digits.
LINES = [
    ("seat a1 17", True),
    ("seat A.b_c-9 0", True),
    (f"seat {'a' * 32} {'9' * 16}", True),
    (f"seat {'a' * 33} 1", False),
    (f"seat a1 {'9' * 17}", False),
    ("seat a1 -1", False),
    ("seat a1 1 ", False),
    ("seat a1  1", False),
    ("seat @manager 1", False),
    ("seat a1", False),
    ("seat a/1 1", False),
    ("seat a1 1\n", False),
    ("seat a1 ١٧", False),
    ("Seat a1 1", False),
]


@pytest.mark.parametrize("line, is_seat", LINES)
def test_line_of_a_seat(line, is_seat):
    assert bool(SEAT.fullmatch(line)) == is_seat


def at(moment):
    return moment.strftime("at %Y-%m-%dT%H:%M:%SZ\n")


def test_witness_of_several_parts_has_the_highest_of_each_seat_and_its_line():
    text = at(NOW) + "seat a1 17\nseat b1 4\n" + at(NOW) + "\nseat a1 18\nseat b1 3\n"
    assert witness_of(text, "w", None) == {"a1": Reply(18, "w, line 6"), "b1": Reply(4, "w, line 3")}


def test_witnesses_of_files_and_commands_are_one(tmp_path):
    one, two = tmp_path / "one", tmp_path / "two"
    one.write_text(at(NOW) + "seat a1 17\n")
    two.write_text(at(NOW) + "seat b1 4\nseat a1 3\n")
    found = highest_numbers([str(one)], [f"cat {two}"], None)
    assert found == {"a1": Reply(17, f"{one}, line 2"), "b1": Reply(4, f"`cat {two}`, line 2")}


# Root's table, and parts by name: those that pass, and a part of each that is refused with what is said.
TABLE = '[folders]\npc1 = ["a1", "a2"]\npc2 = ["b1"]\n'
HELD = [
    (["pc1=a1 17,a2 3", "pc2=b1 4", "=health 0"], ""),
    (["pc1=a1 17,b1 4"], "one, line 3 is of the seat b1, which is pc2's by"),
    (["pc1=a1 17,b1 4", "pc2=b1 4"], "one, line 3 is of the seat b1"),
    (["=a1 17"], "give that seat's own part as pc1=FILE"),
    (["pc1=a1 17,health 0"], "line 3 is of the seat health, which is no PC's by"),
    (["pc9=a1 17"], "has no folder pc9"),
]


@pytest.mark.parametrize("parts, told", HELD)
@pytest.mark.parametrize("is_command", [False, True])
def test_a_part_has_its_own_seats_alone(tmp_path, monkeypatch, parts, told, is_command):
    found = SimpleNamespace(st_uid=0, st_mode=0o100644)
    monkeypatch.setattr(witness, "os", SimpleNamespace(stat=lambda path: found))
    table, words = tmp_path / "journals.toml", []
    table.write_text(TABLE)
    for part, name in zip(parts, ("one", "two", "three")):
        owner, _, lines = part.partition("=")
        file = tmp_path / name
        file.write_text(at(NOW) + "".join(f"seat {it}\n" for it in lines.split(",")))
        words.append((f"{owner}=" if owner else "") + (f"cat {file}" if is_command else str(file)))
    given = ([], words) if is_command else (words, [])
    if told:
        with pytest.raises(StandbyError) as refused:
            highest_numbers(*given, None, table)
        assert told in str(refused.value).replace("`", "")
    else:
        assert {it: reply.number for it, reply in highest_numbers(*given, None, table).items()} == \
            {"a1": 17, "a2": 3, "b1": 4, "health": 0}


def test_without_a_table_it_says_that_nobody_held_the_parts(tmp_path, capsys):
    (tmp_path / "one").write_text(at(NOW) + "seat a1 17\nseat b1 4\n")
    assert set(highest_numbers([f"pc1={tmp_path}/one"], [], None, tmp_path / "none")) == {"a1", "b1"}
    assert "nobody has looked whether each part has its own PC's seats alone" in capsys.readouterr().out


TABLES = [
    (0, 0o100644, "", "no table"), (0, 0o100644, "folders = 3\n", "no table"), (0, 0o100644, "[folders", "no table"),
    (0, 0o100644, "[folders]\npc1 = 3\n", "no table"), (0, 0o100644, '[folders]\npc1 = "a1"\n', "no table"),
    (1000, 0o100644, TABLE, "Others than root can write"),
    (0, 0o100664, TABLE, "Others than root can write"),
]  # fmt: skip


@pytest.mark.parametrize("user, mode, text, told", TABLES)
def test_a_table_that_is_none(tmp_path, monkeypatch, user, mode, text, told):
    table = tmp_path / "journals.toml"
    table.write_text(text)
    found = SimpleNamespace(st_uid=user, st_mode=mode)
    monkeypatch.setattr(witness, "os", SimpleNamespace(stat=lambda path: found))
    with pytest.raises(StandbyError, match=told):
        highest_numbers([], [], None, table)


def test_seats_that_only_look_as_the_page_has_them():
    page = (TOP / "docs/operate/second-machine.md").read_text(encoding="utf-8")
    (command,) = re.findall(r'`"(date -u [^"]*)"`', page)
    found = highest_numbers([], [tomllib.loads(f'it = "{command}"')["it"]], NOW - timedelta(seconds=1))
    assert {seat: reply.number for seat, reply in found.items()} == {"health": 0, "restore-acme": 0}


WRONG = [
    ("", "has no line as `seat"),
    (at(NOW), "has no line as `seat"),
    ("seat a1 17\n", "has no line as `at"),
    ("seat a1 17\n" + at(NOW), "has no line as `at"),
    (at(NOW) + "seat a1\n", "neither `at TIME` nor"),
    (at(NOW) + "seat a1 17\nx\x1b[2J\n", "neither `at TIME` nor"),
    ("at 2026-13-29T09:00:00Z\nseat a1 17\n", "is no time"),
    (at(NOW)[:-1] + " or so\nseat a1 17\n", "neither `at TIME` nor"),
    ("at 2026-01-01T09:00:00Z\nseat a1 17\n", "make it anew"),
    (at(NOW) + "seat a1 17\nat 2026-01-01T09:00:00Z\nseat b1 1\n", "make it anew"),
    ("at 2999-01-01T09:00:00Z\nseat a1 17\n", "is to come"),
]


@pytest.mark.parametrize("text, told", WRONG)
def test_no_witness(text, told):
    with pytest.raises(StandbyError) as refused:
        witness_of(text, "w", NOW.replace(microsecond=0))
    assert told in str(refused.value)


COMMANDS = [
    ("false", "ended with status 1"),
    ("sh -c 'echo no such folder >&2; exit 3'", "status 3: no such folder"),
    ("yes", "ended with status 141"),
    ("/nowhere/at/all", "ended with status 127"),
]


@pytest.mark.parametrize("command, told", COMMANDS)
def test_a_command_that_gives_no_witness(command, told):
    with pytest.raises(StandbyError) as refused:
        highest_numbers([], [command], None)
    assert command in str(refused.value) and told in str(refused.value) and len(str(refused.value)) < 1000


# As `drbdsetup show --show-defaults` of drbd-utils 9.22 prints it for DRBD 8.4.
SHOWN = '    net {{\n        cram-hmac-alg   \t"{}";\n        shared-secret   \t"{}";\n    }}\n'
SECRETS = [
    (SHOWN.format("sha256", "0f" * 24), ""),
    (SHOWN.format("sha256", "sixteen letters."), ""),
    (SHOWN.format("sha256", "write-your-own"), "the sample's"),
    (SHOWN.format("sha256", "fifteen letters"), "fewer than 16"),
    (SHOWN.format("sha256", ""), "fewer than 16"),
    ('        cram-hmac-alg   \t"sha256";\n', "fewer than 16"),
    (SHOWN.format("", "0f" * 24), "no `cram-hmac-alg`"),
    (f'        shared-secret   \t"{"0f" * 24}";\n', "no `cram-hmac-alg`"),
    ("", "no `cram-hmac-alg`"),
]


@pytest.mark.parametrize("text, told", SECRETS)
def test_the_secret_of_a_resource(text, told):
    faults = secret_faults(text)
    assert len(faults) == bool(told) and all(told in it and "0f0f" not in it for it in faults)
