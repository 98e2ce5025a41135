"""Whose a journal is: by its folder and root's file, and not by what stands in it."""

import hashlib
import json
import os
import resource
import subprocess
from pathlib import Path

import pytest
from wanekupo.plant.restore import journals as restore_journals
from wanekupo.plant.restore.journals import sources_of, take_journals
from wanekupo.plant.restore.plan import CustomerPlan, RestoreError
from wanekupo.seat import journal_lines
from wanekupo.common.errors import BadJournal
from wanekupo.seat.journal import seat_named
from wanekupo.seat.journal_lines import folders_at, folders_in


def asked(number, seat="a1", **more):
    """A line as docs/integrate/api.md has it, with the digest of what it asks."""
    members = {"chip": "240ac4000001", "nr": number}
    text = json.dumps(members, sort_keys=True, separators=(",", ":"))
    digest = hashlib.sha256(f"/v1/ship\n{text}".encode()).hexdigest()
    line = {"at": "2026-11-29T00:00:00Z", "path": "/v1/ship", "asked": members, "digest": digest, "seat": seat, **more}
    return {name: it for name, it in line.items() if it is not None}


def customers():
    return {
        "acme": CustomerPlan("acme", {"a1": "", "a2": ""}, True),
        "bolt": CustomerPlan("bolt", {"b1": ""}, True),
    }


def put(path, *lines):
    path.parent.mkdir(parents=True, exist_ok=True)
    path.write_text("".join(json.dumps(it) + "\n" for it in lines), encoding="ascii")
    return path


FOLDERS = {"pc7": frozenset(("a1", "a2")), "pc9": frozenset(("b1",)), "both": frozenset(("a1", "b1")),
           "other": frozenset(("z1",))}  # fmt: skip


def taken(words, folders=None, left_out=()):
    """The lines that each customer gets, by their seats: the numbers, in turn."""
    found = customers()
    sources = sources_of([str(it) for it in words], found, FOLDERS if folders is None else folders, "journals.toml")
    take_journals(sources, found, left_out)
    return {
        (name, journal.seat): [line.get("asked", {}).get("nr") for _, _, line in journal.lines]
        for name, it in found.items()
        for journal in it.journals
    }


def test_the_vector_of_the_api():
    """The digest that these tests make is that of docs/integrate/api.md, Test vectors."""
    assert asked(8)["digest"] == "5dd7f8178f0a3513ca9542436e8d97e14b939a6544b34e50b9b2b8e657a94893"


def test_a_folder_has_its_seats(tmp_path):
    put(tmp_path / "pc7/0123/a1-2026-11-28.journal", asked(1))
    put(tmp_path / "pc7/0123/a1-2026-11-29.journal", asked(2))
    put(tmp_path / "pc7/0123/a2-2026-11-29.journal", asked(7, "a2"))
    put(tmp_path / "pc7/4567/a1-2026-11-30.journal", asked(3))
    put(tmp_path / "pc9/89ab/2026-11-30.journal", asked(4, None))  # the folder's only seat
    put(tmp_path / "other/89ab/2026-11-30.journal", asked(4, None))  # no seat of this site
    (tmp_path / "pc9/89ab/notes.txt").write_text("nothing")
    found = taken([tmp_path])
    assert found.pop(("acme", "a1")) in ([1, 2], [3])  # two journals of a seat: another machine's stands beside
    assert found == {("acme", "a2"): [7], ("bolt", "b1"): [4]}


def test_lines_of_two_seats_of_a_folder_in_one_file(tmp_path):
    put(tmp_path / "pc7/log.journal", asked(1), asked(9, "a2"), asked(2))
    assert taken([tmp_path]) == {("acme", "a1"): [1, 2], ("acme", "a2"): [9]}


AT = "2026-11-29T00:00:00Z"
REPLY = {"at": AT, "nr": 10**4000, "status": 200, "reply": {}}
MANY = {**REPLY, "nr": 1, "reply": dict.fromkeys(map(str, range(65)))}

# What a file has, its name, which line is named, and why.
FOREIGN = (
    ("another's line", "a1-2026-11-29.journal", [asked(1), asked(2, "b1")], 2, "is of the seat b1, and the folder pc7"),
    ("another's file", "b1-2026-11-29.journal", [asked(1, "b1")], 1, "and the folder pc7 is of a1, a2"),
    ("no seat, another's name", "b1-2026-11-29.journal", [asked(1, None)], 1, "is of no seat that it names"),
    ("a seat that isn't there", "a1.journal", [asked(1, "\x1b[2Jc1")], 1, "is of the seat \\x1b[2Jc1, and"),
    ("zeros", "a1.journal", [asked(1, digest="0" * 64)], 1, "its digest isn't that of what it asks"),
    ("no digest", "a1.journal", [asked(1, digest=None)], 1, "has no digest"),
    ("another chip", "a1.journal", [asked(1, asked={"chip": "24", "nr": 1})], 1, "its digest isn't that"),
    ("no line", "a1.journal", [asked(1), ["x"]], 2, "is no line of a journal"),
    ("a number that no seat has", "a1.journal", [asked(10**4000)], 1, "is no request of a journal"),
    ("its reply", "a1.journal", [asked(1), REPLY], 2, "is no reply of a journal"),
    ("a number to go on with", "a1.journal", [{"at": AT, "resynchronized": -(10**4000)}], 1, "is no line of a journal"),
    ("more members than a reply has", "a1.journal", [asked(1), MANY], 2, "has more than 64 members"),
    ("a seat of many letters", "a1.journal", [asked(1, "s" * 9000)], 1, f"the seat {'s' * 80}.. (9000 characters)"),
    ("a time that there isn't", "a1.journal", [asked(1, at="2026-13-01T00:00:00Z")], 1, "is no line of a journal"),
)  # fmt: skip


@pytest.mark.parametrize("name, file, lines, line, told", FOREIGN, ids=[it[0] for it in FOREIGN])
def test_a_line_that_is_not_the_folders(tmp_path, name, file, lines, line, told):
    path = put(tmp_path / "pc7/0123" / file, *lines)
    with pytest.raises(RestoreError) as found:
        taken([tmp_path])
    assert f"acme: line {line} of {path} " in str(found.value) and told in str(found.value)
    assert "Nothing was moved. The others go on by --leave-out acme" in str(found.value)
    assert str(found.value).isprintable() and len(str(found.value)) < 600


def test_the_others_go_on(tmp_path):
    """Folders of the one that is left out alone aren't read; its lines in a folder of two customers are passed over."""
    put(tmp_path / "pc7/a1.journal", ["no line"])
    put(tmp_path / "pc9/b1.journal", asked(1, "b1"))
    put(tmp_path / "both/a1.journal", asked(5, "a1"))
    put(tmp_path / "both/b1.journal", asked(6, "b1"))
    (tmp_path / "pc7/pipe.journal").unlink(missing_ok=True)
    os.mkfifo(tmp_path / "pc7/pipe.journal")
    found = taken([tmp_path, f"acme={tmp_path}/pc7"], left_out=["acme"])
    assert found.keys() == {("bolt", "b1")}


def test_what_a_person_says(tmp_path):
    """A journal that was written by hand needs neither seat nor digest; one of another customer's is refused."""
    path = put(tmp_path / "more.journal", asked(1, None, digest=None))
    assert taken([f"acme={path}"]) == {("acme", ""): [1]}
    assert taken([f"bolt={path}"]) == {("bolt", ""): [1]}  # also where a customer has one seat
    path = put(tmp_path / "a2.journal", asked(3, None))
    assert taken([f"acme={path}"]) == {("acme", "a2"): [3]}
    path = put(tmp_path / "b1.journal", asked(3, "b1"))
    with pytest.raises(RestoreError, match="line 1 of .*b1.journal is of the seat b1, and acme has a1, a2"):
        taken([f"acme={path}"])
    path = put(tmp_path / "bad.journal", asked(3, "a1", digest="0" * 64))
    with pytest.raises(RestoreError, match="its digest isn't that of what it asks"):
        taken([f"acme={path}"])
    with pytest.raises(RestoreError, match=f"doesn't say whose it is: give it as CUSTOMER={path}"):
        taken([path])


def test_what_is_no_folder_of_a_station(tmp_path):
    put(tmp_path / "pc8/x.journal", asked(1))
    with pytest.raises(RestoreError, match="journals.toml doesn't say which seats the folder .*pc8 has"):
        taken([tmp_path])
    with pytest.raises(RestoreError, match="journals.toml says which seats each folder"):
        taken([tmp_path], folders={})
    os.rename(tmp_path / "pc8/x.journal", tmp_path / "x.journal")
    (tmp_path / "pc8").rmdir()
    with pytest.raises(RestoreError, match="x.journal is in no station's folder"):
        taken([tmp_path])
    (tmp_path / "x.journal").unlink()
    (tmp_path / "pc7").symlink_to(tmp_path)
    with pytest.raises(RestoreError, match="pc7 is a link, and isn't followed"):
        taken([tmp_path])


def test_the_first_folder_by_name_is_told(tmp_path):
    for number in range(100, 130):
        (tmp_path / f"pc{number}").mkdir()
    with pytest.raises(RestoreError, match="which seats the folder .*pc100 has"):
        taken([tmp_path])


def test_links_and_pipes_are_not_opened(tmp_path):
    other = put(tmp_path / "elsewhere/a1.journal", asked(1))
    own = tmp_path / "all/pc7/a1.journal"
    own.parent.mkdir(parents=True)
    own.symlink_to(other)
    with pytest.raises(RestoreError, match="a1.journal is a link, and isn't followed"):
        taken([tmp_path / "all"])
    own.unlink()
    os.mkfifo(own)
    with pytest.raises(RestoreError, match="a1.journal is no plain file"):
        taken([tmp_path / "all"])
    own.unlink()
    (tmp_path / "all/pc7/0123").symlink_to(other.parent)  # a folder's link is passed over
    assert taken([tmp_path / "all"]) == {}


def test_a_folder_is_bounded(tmp_path, monkeypatch):
    path = put(tmp_path / "pc7/a1.journal", asked(1), asked(2), asked(3))
    monkeypatch.setattr(restore_journals, "MOST_LINES", 3)
    assert taken([tmp_path]) == {("acme", "a1"): [1, 2, 3]}
    monkeypatch.setattr(restore_journals, "MOST_LINES", 2)
    with pytest.raises(RestoreError, match="pc7 has more than"):
        taken([tmp_path])
    monkeypatch.setattr(restore_journals, "MOST_LINES", 3)
    monkeypatch.setattr(restore_journals, "MOST", path.stat().st_size - 1)
    with pytest.raises(RestoreError, match="pc7 has more than"):
        taken([tmp_path])


def lines_of(folder):
    """The lines as a restore has them."""
    found = customers()
    take_journals(sources_of([str(folder)], found, FOLDERS, "journals.toml"), found, [])
    return [line for it in found.values() for journal in it.journals for _, _, line in journal.lines]


def test_what_is_kept_of_a_line_takes_no_more_memory_than_its_bytes(tmp_path):
    """60,000 lists in a list are 240 KB in the file, and 4 MB in memory. Of a refusal nothing is kept."""
    many = {"chip": "240ac4000001", "nr": 1, "x": [[]] * 60_000}
    text = json.dumps(many, sort_keys=True, separators=(",", ":"))
    digest = hashlib.sha256(f"/v1/ship\n{text}".encode()).hexdigest()
    reply = {"at": AT, "nr": 1, "status": 200, "reply": {"state": "shipped", "mac": None, "rest": [{}] * 60_000}}
    long = asked(2, notes=[[]] * 60_000)
    refused = {"at": AT, "nr": 2, "status": 409, "reply": {"no": 17, "error": "wrong_state"}}
    put(tmp_path / "pc7/a1.journal", asked(1, asked=many, digest=digest), reply, long, refused)
    assert lines_of(tmp_path) == [
        {"at": AT, "path": "/v1/ship", "asked": {"chip": "240ac4000001", "nr": 1}, "digest": digest},
        {"at": AT, "nr": 1, "status": 200, "reply": {"state": "shipped", "mac": None}},
        {name: it for name, it in asked(2).items() if name != "seat"},
        {"at": AT, "nr": 2, "status": 409, "reply": {}},
    ]


FORMS = (
    ("a reply that is a number", {"reply": 5}), ("a reply that is a list", {"reply": []}),
    ("a reply that is a text", {"reply": ""}), ("a text to go on with", {"resynchronized": "x"}),
    ("a number to go on with", {"resynchronized": 1}), ("a status", {"status": 200}),
)  # fmt: skip


@pytest.mark.parametrize("name, more", FORMS, ids=[it[0] for it in FORMS])
def test_a_line_is_of_one_kind(tmp_path, name, more):
    path = put(tmp_path / "pc9/b1.journal", asked(1, "b1"), asked(2, "b1", **more))
    with pytest.raises(RestoreError, match=f"^bolt: line 2 of {path} is no line of a journal.*--leave-out bolt$"):
        taken([tmp_path])


def test_what_nobody_thought_of_is_the_customers_too(tmp_path, monkeypatch):
    path = put(tmp_path / "pc9/b1.journal", asked(1, "b1"), asked(2, "b1"))
    slim = restore_journals._slim
    monkeypatch.setattr(restore_journals, "_slim", lambda line: slim(line) if line["asked"]["nr"] < 2 else line["no"])
    with pytest.raises(RestoreError, match=f"^bolt: line 2 of {path} isn't as a station writes it .KeyError.*bolt$"):
        taken([tmp_path])


def test_folders_in_each_other_and_many_files_are_the_customers_too(tmp_path, monkeypatch):
    """As rsync makes them with a station's key."""
    put(tmp_path / "pc7/0123/old/a1.journal", asked(1))
    put(tmp_path / "pc9/0123/b1.journal", asked(1, "b1"))
    assert taken([tmp_path]) == {("acme", "a1"): [1], ("bolt", "b1"): [1]}
    place = os.open(tmp_path / "pc7", os.O_RDONLY)
    for _ in range(1500):
        os.mkdir("d", dir_fd=place)
        place = [os.open("d", os.O_RDONLY, dir_fd=place), os.close(place)][0]
    os.close(place)
    told = "^acme: .*/pc7/d/d has a folder in it, and no journal lies so deep.*The others go on by --leave-out acme$"
    try:
        with pytest.raises(RestoreError, match=told):
            taken([tmp_path])
        assert taken([tmp_path], left_out=["acme"]) == {("bolt", "b1"): [1]}
    finally:
        subprocess.run(["rm", "-r", tmp_path / "pc7/d"], check=True)  # pytest removes by recursion
    monkeypatch.setattr(journal_lines, "MOST_FILES", 3)  # of pc7 two folders and a file
    assert taken([tmp_path]) == {("acme", "a1"): [1], ("bolt", "b1"): [1]}
    (tmp_path / "pc7/more").touch()
    with pytest.raises(RestoreError, match="^acme: .*/pc7 has more than 3 files.*--leave-out acme$"):
        taken([tmp_path])


def test_all_folders_together_are_bounded_and_the_largest_is_named(tmp_path, monkeypatch):
    put(tmp_path / "pc7/a1.journal", asked(1), asked(2))
    size = put(tmp_path / "pc9/b1.journal", asked(1, "b1")).stat().st_size
    monkeypatch.setattr(restore_journals, "MOST_FOLDERS", 1)
    monkeypatch.setattr(restore_journals, "MOST", 3 * size)
    assert taken([tmp_path]) == {("acme", "a1"): [1, 2], ("bolt", "b1"): [1]}
    monkeypatch.setattr(restore_journals, "MOST", 3 * size - 1)
    with pytest.raises(RestoreError, match="^acme: no memory is left for all journals, and most are in .*/pc7, 0 MB"):
        taken([tmp_path])


def test_no_more_than_half_of_the_free_memory_is_taken():
    lines = Path("/proc/meminfo").read_text("ascii").splitlines()
    free = next(int(it.split()[1]) << 10 for it in lines if it.startswith("MemAvailable"))
    before = resource.getrlimit(resource.RLIMIT_AS)
    with restore_journals.half_of_memory():
        with pytest.raises(MemoryError):
            bytearray(free * 5 // 8)
        bytearray(1 << 20)
    assert resource.getrlimit(resource.RLIMIT_AS) == before


def test_no_memory_is_told_by_the_folder_and_the_others_go_on(tmp_path, monkeypatch):
    put(tmp_path / "pc7/a1.journal", asked(1))
    put(tmp_path / "pc9/b1.journal", asked(1, "b1"))
    real = restore_journals.lines_of

    def full(file, **more):
        if "pc7" in str(file):
            raise MemoryError
        return real(file, **more)

    monkeypatch.setattr(restore_journals, "lines_of", full)
    with pytest.raises(RestoreError, match="^acme: no memory is left .* in .*/pc7, .* by --leave-out acme$"):
        taken([tmp_path])
    assert taken([tmp_path], left_out=["acme"]) == {("bolt", "b1"): [1]}


def test_what_comes_while_it_reads_is_left(tmp_path, monkeypatch):
    """A file that grows behind the look at its size is read up to that size."""
    path = put(tmp_path / "pc7/a1.journal", asked(1))
    lstat = os.lstat

    def grown(name):
        found = lstat(name)
        if str(name) == str(path):
            with open(path, "a", encoding="ascii") as file:
                file.write(json.dumps(asked(2, "b1")) + "\n")
        return found

    monkeypatch.setattr(restore_journals.os, "lstat", grown)
    assert taken([tmp_path]) == {("acme", "a1"): [1]}


# Root's file.

TABLES = (
    ('[folders]\npc7 = ["a1", "a2"]\nrestored = ["r1"]\n', {"pc7": {"a1", "a2"}, "restored": {"r1"}}),
    ("[folders]\n", {}),
    ('[folders]\npc7 = []\n', {"pc7": set()}),
    ('[folders]\npc7 = ["a1", "a1"]\n', {"pc7": {"a1"}}),
)  # fmt: skip
BAD = (
    ('[folders]\npc7 = ["a1"]\npc9 = ["a1"]\n', "the seat a1 has two folders, pc7 and pc9"),
    ('[folders]\npc7 = "a1"\n', "has to be the name of a folder"),
    ('[folders]\npc7 = [1]\n', "has to be the name of a folder"),
    ('[folders]\n"../pc7" = ["a1"]\n', "has to be the name of a folder"),
    ("", "has no table"),
    ("folders = 3\n", "has no table"),
)


@pytest.mark.parametrize("text, expected", TABLES)
def test_a_table_of_folders(text, expected, tmp_path):
    assert folders_in(text, tmp_path) == expected


@pytest.mark.parametrize("text, told", BAD)
def test_a_table_that_is_none(text, told, tmp_path):
    with pytest.raises(BadJournal, match=told):
        folders_in(text, tmp_path)


def test_the_file_is_roots_or_this_users(tmp_path):
    path = tmp_path / "journals.toml"
    assert folders_at(path) == {}
    path.write_text('[folders]\npc7 = ["a1"]\n')
    assert folders_at(path) == {"pc7": {"a1"}}
    path.chmod(0o664)
    with pytest.raises(BadJournal, match="or others may write it"):
        folders_at(path)
    path.chmod(0o600)
    (tmp_path / "link").symlink_to(path)
    with pytest.raises(BadJournal, match="is a link, and isn't followed"):
        folders_at(tmp_path / "link")
    path.write_bytes(b"\xff")
    with pytest.raises(BadJournal, match="can't be read"):
        folders_at(path)


NAMES = (("a1-2026-11-29.journal", "a1"), ("pc-a-1-2026-11-29.journal", "pc-a-1"), ("2026-11-29.journal", "pc7"),
         ("a1.journal", "a1"), ("pc.a1.journal", "pc.a1"), ("pc.a1-2026-11-29.journal", "pc.a1"))  # fmt: skip


@pytest.mark.parametrize("name, seat", NAMES)
def test_the_seat_of_a_files_name(name, seat):
    """A seat's name may have points; a file of a day alone lies in the folder of its seat."""
    assert seat_named(Path("pc7", name)) == seat
