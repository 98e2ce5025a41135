"""station-site: what it says of a text, growths of a site over a served store, kills and failed starts.

Each text of sites_faults.py has its number and the words that the program tells. Where a map is wrong the tool's reader
says (python/tests/plant/map_cases.py has the texts), and it has the program's number, also of texts that were changed
by chance. Growths are said in words, tried over a copy of the store, and put in place with one stop. A growth that is
killed right before one of its deeds (a file, a rename, a program) and begun again ends as one that nobody cut, and no
token is lost, made twice, printed, or in a program's words.
"""

import os
import random
import re
import subprocess
import tempfile
from collections.abc import Iterator
from pathlib import Path

import pytest

from common.chip import Failed
from common.commands import PROJECT, copy_project
from common.deployed import expect
from common.grown_sites import GROWN, NO_SITES, OTHERS
from map_cases import CHANGES, MAP
from plant.house import House, digest_of, was_killed
from plant.sites_faults import NO_TOML, SAMPLE, SECRET, SITES
from wanekupo.plant.site.map_faults import map_faults

pytestmark = pytest.mark.needs("curl", "sqlite3", "flock")

# Maps with their first faults, but for texts that no longer mean to be maps.
MAPS = [(MAP.replace(old, new, 1), faults[0]) for old, new, faults in CHANGES if faults and old != MAP]
NONE = (PROJECT / "wanekupo/chips/families/none/map.toml").read_text(encoding="utf-8")

# What a changed text gets in the place of a value or a letter.
VALUES = ["1", "true", '"a"', "[]", "{}", "-1", "0", "256", "9223372036854775808", "1.5", "1979-05-27", '""', '"x y"',
          "[1]", '["a", "a"]', "16777217"]  # fmt: skip
SECRETS = [str(SECRET), f"{SECRET:x}"]
TEXTS = ["acme", "bolt", "a1", "W", "R", "C", "K", "acme-ca", "020000000012", "030000000000", "ffffffffffff"]


@pytest.fixture(scope="module")
def made(program: Path) -> Iterator[House]:
    """A house that others are copies of. Other users may enter its folder."""
    with tempfile.TemporaryDirectory() as folder:
        os.chmod(folder, 0o755)
        house = House(program, Path(folder) / "made")
        house.build()
        yield house


@pytest.fixture
def house(made: House) -> Iterator[House]:
    """A house of a test's own, in which no server runs before it or behind it."""
    with tempfile.TemporaryDirectory(dir=made.folder.parent) as folder:
        os.chmod(folder, 0o755)
        copied = made.copy(Path(folder) / "house")
        yield copied
        copied.end()


@pytest.fixture
def served(house: House) -> House:
    """A house whose server runs."""
    house.service("start")
    return house


def said_of(house: House, command: str, text: str) -> str:
    """The program's own line of a text; nothing where it takes it."""
    path = house.folder / "text.toml"
    path.write_bytes(text.encode())
    words = [house.program, command, path]
    done = subprocess.run(words, stdin=subprocess.DEVNULL, capture_output=True, text=True, check=False)
    return done.stderr.strip() or (f"status {done.returncode}" if done.returncode else "")


def number_of(house: House, text: str) -> int:
    """The program's own number of a map; 0 where it takes it."""
    said = said_of(house, "check-map", text)
    found = re.fullmatch(r"station: map fault (\d)", said)
    if said and not found:
        raise Failed(f"the program says {said!r}")
    return int(found[1]) if found else 0


def told(house: House, text: str) -> tuple[int, list[str]]:
    """The status of `check`, and its lines, with F in the place of the file's path."""
    path = house.folder / "checked.toml"
    path.write_bytes(text.encode())
    run = house.run("check", str(path))
    return run.status, run.said.replace(str(path), "F").splitlines()


# ---- what is wrong with a text


def test_each_number_has_a_text() -> None:
    assert {row[2] for row in SITES} == set(range(1, 7)) and {fault[0] for _, fault in MAPS} == set(range(1, 9))


@pytest.mark.parametrize(("text", "number", "words"), [row[1:] for row in SITES], ids=[row[0] for row in SITES])
def test_faults_of_sites(made: House, text: str, number: int, words: str) -> None:
    line = f"station: site fault {number}: {words}"
    expect("the program's line", said_of(made, "check-site", text), line)
    status, said = told(made, text)
    expect("the status, and the last line", (status, said[-1].removeprefix("station-site: ")), (1, f"F: {line}"))
    expect("other lines", len(said) - 1, int(number == 1))
    expect("tokens that are told", [it for it in SECRETS if it in "".join(said)], [])


@pytest.mark.parametrize(("text", "line", "member"), [row[1:] for row in NO_TOML], ids=[row[0] for row in NO_TOML])
def test_lines_of_no_toml(made: House, text: str, line: int, member: str) -> None:
    first = told(made, text)[1][0]
    expect(first, bool(re.fullmatch(rf"station-site: F:{line}: {member}: .+ \(fault 1\)", first)), True)


@pytest.mark.parametrize(("text", "fault"), MAPS, ids=range(len(MAPS)))
def test_faults_of_maps(made: House, text: str, fault: tuple[int, int, str]) -> None:
    number, line, member = fault
    expect("the program's number", number_of(made, text), number)
    status, said = told(made, text)
    wanted = rf"station-site: F:{line}: {re.escape(member)}: .+ \(fault {number}\)"
    if status != 1 or not re.fullmatch(wanted, said[0]):
        raise Failed(f"status {status}, {said[0]!r}, and not {wanted!r}")
    expect("the last line", said[-1], f"F: station: map fault {number}")
    expect("a fault told twice", len(set(said)), len(said))


def test_newer_toml(made: House) -> None:
    """The program reads TOML 1.1. Of a site it names the place, and of a map the line is told that is no TOML 1.0."""
    newer = 'x = "\\e"\n'
    expect("TOML 1.1 that is a site", told(made, newer + SAMPLE), (0, ["F is a site, says the program"]))
    expect("TOML 1.1 that is a map", told(made, newer + MAP), (0, ["F is a fuse map, says the program"]))
    words = "station-site: F: station: site fault 3: customer bolt, seat 1: the name is there already"
    expect("TOML 1.1 with a fault", told(made, newer + SAMPLE.replace('"b1"', '"a1"')), (1, [words]))
    status, said = told(made, newer + MAP.replace("words = 8", "words = 9"))
    expect("a map of TOML 1.1 with a fault", (status, said[1:]), (1, ["F: station: map fault 2"]))
    expect(said[0], said[0].startswith("station-site: F:1: the text: it is no TOML 1.0"), True)


def changed(text: str, chance: random.Random) -> str:
    """A text with one to three places of it otherwise."""
    lines = text.split("\n")
    for _ in range(chance.choice([1, 1, 2, 3])):
        at, other = chance.randrange(len(lines)), chance.randrange(len(lines))
        line = lines[at]
        ways = [
            lambda: lines.pop(at) and None,
            lambda: lines.insert(other, line),
            lambda: re.sub(r"\d", lambda _: chance.choice("0123456789f"), line, count=chance.choice([1, 2])),
            lambda: line.replace('"', "", 1),
            lambda: re.sub(r"= ?\S+", lambda _: "= " + chance.choice(VALUES), line, count=1),
            lambda: re.sub(r'"[\w-]+"', lambda _: f'"{chance.choice(TEXTS)}"', line, count=1),
            lambda: "\n".join([line, *lines[other : other + 5]]),
            lambda: line[: len(line) // 2] + chance.choice("\"=[]{}#\\'., \x01é") + line[len(line) // 2 :],
        ]
        made = chance.choice(ways)()
        if made is not None and at < len(lines):
            lines[at] = made
        lines = lines or [""]
    return "\n".join(lines)


FILES = sorted((PROJECT / "wanekupo/chips/families").glob("*/*.toml"))


@pytest.mark.parametrize("path", FILES, ids=lambda it: f"{it.parent.name}/{it.stem}")
def test_files_have_the_programs_number(made: House, path: Path) -> None:
    """The program takes each map of this project, and says of each other file of a family what the reader says."""
    text = path.read_text(encoding="utf-8")
    number, found = number_of(made, text), map_faults(text)
    expect("the reader's number", found[0].number if found else 0, number)
    if path.stem == "map":
        expect("a map", number, 0)


@pytest.mark.sizes(200, 2000)
def test_texts_have_the_programs_number(made: House, chance: random.Random, size: int) -> None:
    """Maps that were changed by chance have the program's number."""
    found = set()
    for _ in range(size):
        text = changed(chance.choice([MAP, MAP, NONE]), chance)
        number, faults = number_of(made, text), map_faults(text)
        found.add(number)
        if number != (faults[0].number if faults else 0):
            raise Failed(f"the program says {number}, the reader {faults[:1]}, of {text!r}")
    expect("several numbers", len(found) > 4, True)


# ---- differences and forms

ROWS = [(name, text, 0, "nothing is taken away") for name, text, _ in GROWN]
# What the program says is gone, or has changed, of each other site.
LOST = ["acme, pool 1", "acme, pool 1", *["acme, pool 2"] * 4, *["acme, seat 1"] * 3, *["acme, issuer 1"] * 2, "acme",
        "bolt", "acme"]  # fmt: skip
GONE = [*(f"customer {it}" for it in LOST), "manager", "manager"]
ROWS += [(row[0], row[1], 1, f"new.toml: station: store fault 1: {gone}: it is gone, or has changed\n"
          "nothing of a site can be taken away\n") for row, gone in zip(OTHERS, GONE, strict=True)]  # fmt: skip
SAID = ["the text is no TOML document", "customer bolt: the name is there already",
        "customer acme, pool 3: an address lies in a pool before it too"]  # fmt: skip
ROWS += [(row[0], row[1], 1, f"new.toml: station: site fault {row[2]}: {said}\n")
         for row, said in zip(NO_SITES, SAID, strict=True)]  # fmt: skip


def difference(house: House, text: str):
    """What `diff` says of a text behind the sample's."""
    old, new = house.folder / "old.toml", house.folder / "new.toml"
    old.write_text(SAMPLE)
    new.write_text(text)
    return house.run("diff", str(old), str(new))


def test_26_growths() -> None:
    assert len(ROWS) == 26


@pytest.mark.parametrize(("text", "status", "said"), [row[1:] for row in ROWS], ids=[row[0] for row in ROWS])
def test_growths(made: House, text: str, status: int, said: str) -> None:
    """`diff` takes a growth, and refuses another site and a text of none."""
    run = difference(made, text)
    if run.status != status or said not in run.said:
        raise Failed(f"status {run.status}, {run.said}")


def test_growth_in_words(made: House) -> None:
    said = difference(made, GROWN[4][1]).said.splitlines()
    words = ["bolt gets 1 seat (b2)", "core is a new customer with 1 issuer (core-ca) and 1 seat (seat-of-core)"]
    expect("a growth in words", said, [*words, "nothing is taken away"])


DIGEST = "ab" * 32
INLINE = f"""customer = [{{ name = "acme", issuer = ["x", # first
  ], seat = [{{ name = "s1", token = "{DIGEST}" }}] }}]
# the end
"""
FORMS = [
    ("none served", "# nobody\ncustomer = []\n", ["add-customer", "core", "--issuer", "core-ca", "--seat", "c1"]),
    ("none served, and a manager", f'customer = [] # none\n[manager]\ntoken = "{DIGEST}"\n', ["add-customer", "core"]),
    ("inline", INLINE, ["add-customer", "core", "--issuer", "core-ca", "--pool", "020000000100", "8", "--seat", "c1"]),
    ("a seat inline", INLINE, ["add-seat", "acme", "s2", "s3"]),
    ("an issuer behind a comment", INLINE, ["add-issuer", "acme", "y", "z"]),
    ("ends of lines of Windows", SAMPLE.replace("\n", "\r\n"), ["add-pool", "bolt", "020000000100", "8"]),
    ("no end of line", SAMPLE.rstrip("\n"), ["add-customer", "core", "--seat", "c1"]),
    ("a comment behind a section", SAMPLE.replace("[manager]", "# the office\n[manager]"), ["add-seat", "bolt", "b2"]),
    ("other spaces", SAMPLE.replace("[[customer.seat]]", "  [[ customer . seat ]] # s"), ["add-seat", "acme", "a2"]),
    ("customers in another order", GROWN[1][1], ["add-pool", "acme", "020000000030", "4"]),
]


@pytest.mark.parametrize(("text", "words"), [row[1:] for row in FORMS], ids=[row[0] for row in FORMS])
def test_forms(house: House, text: str, words: list[str]) -> None:
    """Sites written in other forms of TOML grow, and keep all else of their text; the same words twice add once."""
    house.site.write_bytes(text.encode())
    (house.backups / "night/books.db").unlink()  # of another site, so nothing is tried over it
    run = house.run(*words)
    expect(run.said, run.status, 0)
    new = house.folder.joinpath("site.next.toml").read_bytes().decode()
    kept = [line for line in text.replace("customer = []", "").splitlines() if line.strip(" #none")]
    missing = [line for line in kept if line not in new.splitlines() and line[:20] not in new]
    expect("lines that went", missing, [])
    expect("what the program says", said_of(house, "check-site", new), "")
    again = house.run(*words)
    expect("said twice", house.folder.joinpath("site.next.toml").read_bytes().decode(), new)
    expect("its status", again.status, 0)


# ---- over a served store


def holds(house: House, customer: str, names: list[str], said: str) -> None:
    """The seats are known, each with one outer token, which is in its file and is nowhere else."""
    seats, outers = house.records()
    for name in names:
        inner = seats[name]["inner"]
        expect(f"{name}: its customer", seats[name]["customer"], customer)
        expect(f"{name}: its digest in the site", house.site.read_text().count(digest_of(inner)), 1)
        expect(f"{name}: the server's answer", house.asked(inner), 404)
        file = house.given / f"{name}.token"
        own = [it for it in outers if it["seat"] == name]
        expect(f"{name}: its outer tokens", [it["text"] + "\n" for it in own], [file.read_text()])
        expect(f"{name}: the mode of its file", file.stat().st_mode & 0o777, 0o600)
        secrets = [inner, own[0]["text"]]
        expect(f"{name}: tokens that were said", [it for it in secrets if it in said], [])
        started = house.folder / "count.words"
        expect(f"{name}: tokens in words", [it for it in secrets if started.exists() and it in started.read_text()], [])


def whole(house: House, backups: int) -> None:
    """Nothing is left of a run, and each backup is one."""
    expect("what is left", house.left(), [])
    folders = sorted(house.backups.iterdir())
    expect("backups", len(folders), backups)
    for folder in folders:
        names = sorted(path.name for path in folder.iterdir())
        wanted = ["books.db", "books.db-wal", "site.toml"]
        expect(folder.name, [it for it in names if it in wanted], wanted)


def test_steps(served: House) -> None:
    """Customers, seats, pools and issuers over a served store: what is said, the text, the tokens, the backup."""
    house = served
    to = ["--to", str(house.given)]
    more = ["--issuer", "core-ca", "--pool", "020000010000", "65536", "--seat", "c1"]
    run = house.run("add-customer", "core", *more, "--holder", "line 9", *to)
    expect(run.said, run.status, 0)
    words = "core is a new customer with 1 issuer (core-ca), 1 seat (c1) and 65,536 addresses"
    words += " (020000010000 to 02000001ffff)"
    expect("what is said first", run.said.splitlines()[0], words)
    expect("a copy that was tried", "a copy of the backup night took it" in run.said, True)
    expect("the site of now", house.site.read_text(), SAMPLE)
    expect("stops before apply", house.folder.joinpath("stops").exists(), False)
    for more in (["add-seat", "acme", "a2", "a3", *to], ["add-pool", "acme", "020000000030", "4"],
                 ["add-issuer", "bolt", "bolt-2"], ["add-customer", "health", "--seat", "health"]):  # fmt: skip
        run = house.run(*more)
        expect(run.said, run.status, 0)
    said = run.said
    run = house.run("apply")
    expect(run.said, run.status, 0)
    expect("stops", house.folder.joinpath("stops").read_text(), "\n")
    gains = ["acme gets 2 seats (a2, a3) and 4 addresses (020000000030 to 020000000033)"]
    gains += ["bolt gets 1 issuer (bolt-2)"]
    words = [words, "health is a new customer with 1 seat (health)"]
    expect("all of it in words", run.said.splitlines()[:4], [*gains, *words])
    expect("a seat without a token", "the seat health of health is known\n" in run.said, True)
    expect("files of tokens", sorted(it.name for it in house.given.iterdir()), ["a2.token", "a3.token", "c1.token"])
    kept = SAMPLE[: SAMPLE.index('[[customer]]\nname = "bolt')]
    expect("the text of before", house.site.read_text().startswith(kept), True)
    expect("the mode", house.site.stat().st_mode & 0o777, 0o640)
    holds(house, "acme", ["a2", "a3"], said + run.said)
    holds(house, "core", ["c1"], said + run.said)
    expect("the old seat", house.asked("abc"), 404)
    whole(house, 2)
    again = house.run("add-pool", "acme", "020000000030", "4", "--apply")
    expect(again.said, (again.status, "all of it already" in again.said), (0, True))


REFUSED = [
    (["add-seat", "core", "c1"], "has no customer core"),
    (["add-seat", "acme", "b1"], "site fault 3: customer bolt, seat 1: the name is there already"),
    (["add-customer", "acme", "--issuer", "bolt-ca"], "site fault 3: customer bolt, issuer 1: the name is there"),
    (["add-pool", "bolt", "020000000011", "4"], "site fault 4: customer bolt, pool 1: an address lies in a pool"),
    (["add-pool", "bolt", "030000000000", "4"], "site fault 5: customer bolt, pool 1: an address is a group address"),
    (["add-pool", "bolt", "020000000100", "16777217"], "site fault 2: customer bolt, pool 1: count has to be"),
    (["add-issuer", "acme", *(f"i{n}" for n in range(8))], "site fault 6: customer acme: it has more than 8 of issuer"),
    (["add-seat", "acme", "a b"], "is no name"),
    (["add-seat", "acme", "a2", "--to", "/none"], "is no folder"),
    (["add-seat", "acme", "a2", "--to", "GIVEN"], "is there already"),
    (["add-customer", "core", "--issuer", "far-ca", "--other-site", "OTHER"], "the issuer far-ca of core"),
    (["add-pool", "acme", "0200000a0002", "4", "--other-site", "OTHER"], "the addresses 0200000a0002 to 0200000a0003"),
    (["add-seat", "acme", "f1", "--other-site", "OTHER"], "the seat f1"),
]
OTHER = f"""[[customer]]
name = "far"
issuer = ["far-ca"]
[[customer.pool]]
first = "0200000a0000"
count = 4
[[customer.seat]]
name = "f1"
token = "{DIGEST}"
"""


@pytest.mark.parametrize(("words", "said"), REFUSED, ids=[row[1] for row in REFUSED])
def test_refused(house: House, words: list[str], said: str) -> None:
    """Another store's site that shares something is refused, and so is what can't be a site; nothing of it is left."""
    other = house.folder / "other.toml"
    other.write_text(OTHER)
    (house.given / "a2.token").write_text("mine\n")
    named = {"OTHER": str(other), "GIVEN": str(house.given)}
    run = house.run(*(named.get(word, word) for word in words))
    expect("a file of somebody's", (house.given / "a2.token").read_text(), "mine\n")
    if run.status != 1 or said not in run.said:
        raise Failed(f"status {run.status}, {run.said}")
    expect("what is left", house.left(), [])
    expect("the site", house.site.read_text(), SAMPLE)
    expect("seats in the tokens' file", house.records(), ({}, []))


def test_other_site_that_shares_nothing(house: House) -> None:
    other = house.folder / "other.toml"
    other.write_text(OTHER)
    run = house.run("add-pool", "acme", "0200000b0000", "4", "--other-site", str(other))
    expect(run.said, run.status, 0)


HOLDS = [(False, "still holds the old text"), (True, "holds the new text by now")]


@pytest.mark.parametrize(("is_grown", "said"), HOLDS)
def test_failed_start(served: House, is_grown: bool, said: str) -> None:
    """A service that doesn't start, and a program that grows the store and doesn't serve: which text it holds."""
    house = served
    broken = house.folder / "broken"
    broken.touch()
    if is_grown:
        path = house.folder / "service"
        grown = '"$PROGRAM" replay "${words[@]}" < /dev/null; echo 5 > "$here/restarts"; exit 0'
        path.write_text(path.read_text().replace('echo 5 > "$here/restarts"; exit 0', grown))
    run = house.run("add-seat", "acme", "a2", "--to", str(house.given), "--apply")
    expect(run.said, (run.status, said in run.said), (4, True))
    expect("the text in place", 'name = "a2"' in house.site.read_text(), True)
    broken.unlink()
    (house.folder / "restarts").write_text("0\n")
    run = house.run("add-seat", "acme", "a2", "--to", str(house.given), "--apply")
    expect(run.said, run.status, 0)
    holds(house, "acme", ["a2"], run.said)
    whole(house, 2)


@pytest.mark.root
@pytest.mark.nginx
def test_deployed(served: House) -> None:
    """A store of another user, and nginx in front, whose certificate has another name and is known by its file."""
    house = served
    nginx = house.proxied()
    try:
        run = house.run("add-seat", "acme", "a2", "a3", "--holder", "line 2", "--to", str(house.given), "--apply")
        expect(run.said, run.status, 0)
        told = [f"the seat {it} of acme is known, and nginx takes the token in {house.given}/{it}.token"
                for it in ("a2", "a3")]  # fmt: skip
        expect("what is said", [line for line in run.said.splitlines() if line.startswith("the seat")], told)
        holds(house, "acme", ["a2", "a3"], run.said)
        whole(house, 2)
        owners = {path.owner() for path in house.backups.rglob("*")} | {house.db.owner()}
        expect("whose the backups and the store are", owners, {"nobody"})
        site = house.site
        found = (site.owner(), site.group(), site.stat().st_mode & 0o777)
        expect("whose the site is", found, ("root", "nogroup", 0o640))
    finally:
        nginx.terminate()
        nginx.wait()


GROWTH = ["add-customer", "core", "--issuer", "core-ca", "--pool", "020000010000", "8", "--seat", "c1", "--apply"]


@pytest.mark.sizes(4, 1000)
def test_killed(made: House, size: int) -> None:
    """A growth that is killed right before some of its deeds, or before each, and begun again."""
    made.project = made.project if made.project != PROJECT else copy_project(made.folder.parent)
    kills, at = 0, 1
    deeds = killed_at(made, 0)
    expect("deeds are counted, those of programs that it starts too", deeds > 20, True)
    while killed_at(made, at):
        kills, at = kills + 1, at + max(1, deeds // size)
    expect("kills", kills >= min(size, deeds), True)


def killed_at(made: House, at: int) -> int:
    """A growth that is killed before a deed, and begun again, in a house of its own: how many deeds it came to. None
    where it ended before that deed."""
    with tempfile.TemporaryDirectory(dir=made.folder.parent) as folder:
        os.chmod(folder, 0o755)
        house = made.copy(Path(folder) / "house")
        house.project = made.project
        house.service("start")
        try:
            cut = house.run(*GROWTH, "--to", str(house.given), kill_at=at)
            if cut.status == 0:
                expect("a run that nobody cut", house.left(), [])
                return 0 if at else cut.deeds
            if not was_killed(cut):
                raise Failed(f"status {cut.status}, {cut.said}")
            run = house.run("apply") if at % 3 == 0 else None
            if not run or "nothing is prepared" in run.said:
                run = house.run(*GROWTH, "--to", str(house.given))
            if run.status:
                raise Failed(f"begun again: status {run.status}, {run.said}")
            holds(house, "core", ["c1"], cut.said + run.said)
            whole(house, 2)
            expect("c1 in the site", house.site.read_text().count('"c1"'), 1)
            return cut.deeds
        except Failed as failed:
            raise Failed(f"killed before deed {at}: {failed}") from failed
        finally:
            house.end()
