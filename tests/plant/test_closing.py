"""station-site close and successor: a year's store that is ended, and the next one, over a served store of another
user.

A device that is under way is named, and nothing is closed then. A closed site has no token that may more than look. Its
books are in a folder of root's, whose list sha256sum(1) takes, whose numbers are those of the server's reports, and of
which `look` shows what the server showed. A close that is killed right before one of its deeds and begun again ends as
one that nobody cut. The next site shares no name and no address with what the first gave, says the program of both
texts joined; its program knows the seats by their new tokens alone, and gives the address behind the last one.
"""

import csv
import json
import os
import shutil
import subprocess
import tempfile
import time
import tomllib
from collections.abc import Iterator
from pathlib import Path

import pytest

from books.seal_places import make_keys, stamp_service
from common.chip import CHIP, steps
from common.commands import PROJECT, command, copy_project
from common.deployed import TOOL, expect
from common.served import Caller, Server, station
from plant.house import House, digest_of, was_killed

pytestmark = [pytest.mark.root, pytest.mark.needs("curl", "sqlite3", "flock")]

FOLDER, SEATS = "closed-2026", {"a1": "abc", "b1": "hello"}
FILES = {"SHA256SUMS", "books.db", "books.db-wal", "closed.json", "seals", "site.toml"}


def start(house: House) -> None:
    """Starts the server, and waits for it longer than its service does."""
    house.service("start")
    end = time.monotonic() + 60
    while house.asked("abc") != 404 and time.monotonic() < end:
        time.sleep(0.05)


def asked(house: House, token: str, target: str) -> str:
    caller = Caller(house.port, token)
    try:
        return caller.ask("GET", target)[1].decode()
    finally:
        caller.close()


def work(house: House, requests: list[tuple[str, dict]]) -> None:
    """Requests of the seat a1, each of which is accepted."""
    caller = Caller(house.port, "abc")
    for path, members in requests:
        status, body = caller.ask("POST", path, members)
        assert status == 200, body
    caller.close()


def token(house: House, *words: str) -> "subprocess.CompletedProcess[str]":
    made = [TOOL, "--file", house.tokens, "--no-reload", *words]
    return subprocess.run(made, capture_output=True, text=True, check=False)


def live(house: House) -> None:
    """Seats with tokens that may all and that look, and the life of a chip but for its last step."""
    start(house)
    work(house, steps()[:-1])
    for seat, inner in SEATS.items():
        (house.folder / seat).write_text(inner)
        known = ["--known", str(house.folder / seat), "--site", str(house.site)]
        for words in (["seat", seat, *known], ["add", seat], ["add", seat, "--look"]):
            assert token(house, *words).returncode == 0


@pytest.fixture(scope="module")
def made(program: Path) -> Iterator[House]:
    """A house that others are copies of, in which a chip lacks its shipment alone. No server runs."""
    with tempfile.TemporaryDirectory() as folder:
        os.chmod(folder, 0o755)
        house = House(program, Path(folder) / "made")
        house.build()
        live(house)
        house.end()
        yield house


@pytest.fixture
def house(made: House) -> Iterator[House]:
    with tempfile.TemporaryDirectory(dir=made.folder.parent) as folder:
        os.chmod(folder, 0o755)
        copied = made.copy(Path(folder) / "house")
        start(copied)
        yield copied
        copied.end()


def close(house: House, **named: int):
    return house.run("close", str(house.folder / FOLDER), **named)


def open_tokens(house: House) -> list[tuple[str, bool]]:
    return sorted((it["seat"], it["looks"]) for it in house.records()[1] if not it["ended"])


ALL, LOOKS = [(seat, it) for seat in SEATS for it in (False, True)], [(seat, True) for seat in SEATS]


def test_under_way(house: House) -> None:
    run = close(house)
    lines = [f"the device {CHIP} of acme, order o1, is identified", "1 are under way"]
    expect(run.said, (run.status, [it for it in lines if it not in run.said]), (1, []))
    expect("tokens", open_tokens(house), ALL)
    expect("what is left", [*house.left(), *(it.name for it in house.folder.glob("closed*"))], [])
    work(house, steps()[-1:])
    expect("the server goes on", json.loads(asked(house, "abc", f"/v1/device?chip={CHIP}"))["state"], "shipped")


def counts_of(house: House, name: str) -> dict[str, int]:
    """What the server's report says of a customer's devices, without what isn't there."""
    rows = csv.DictReader(asked(house, "test", "/v1/site/report").splitlines())
    (row,) = [it for it in rows if it["customer"] == name]
    states = {state: int(row[state]) for state in ("shipped", "quarantined", "scrapped") if int(row[state])}
    return {"orders": int(row["orders"]), "serials": int(row["quantity"]) - int(row["serials_left"]), "devices": states}


def is_closed(house: House) -> None:
    """All that a closed site is, by the server's own replies and by tools from outside."""
    folder = house.folder / FOLDER
    expect("its files", {it.name for it in folder.iterdir()}, FILES)
    expect("whose they are", {it.owner() for it in (folder, *folder.rglob("*"))}, {"root"})
    expect("who writes them", {it.stat().st_mode & 0o027 for it in (folder, *folder.rglob("*"))}, {0})
    listed = subprocess.run(["sha256sum", "-c", "--quiet", "SHA256SUMS"], cwd=folder, capture_output=True, check=False)
    expect(listed.stderr, listed.returncode, 0)
    told = json.loads((folder / "closed.json").read_text())
    for name in ("acme", "bolt"):
        wanted = counts_of(house, name)
        expect(name, {what: told["customers"][name][what] for what in wanted}, wanted)
    expect("addresses and imports", [told["customers"]["acme"][it] for it in ("addresses", "imported")], [1, 0])
    expect("tokens", open_tokens(house), LOOKS)
    for kind in ("device", "ledger", "identity"):
        words = [*house.as_owner(), *command("wanekupo"), "look", folder / "books.db", kind, CHIP, "--customer", "acme"]
        alone = {**os.environ, "HOME": "/nonexistent"}
        shown = subprocess.run(words, env=alone, capture_output=True, text=True, check=False)
        expect(shown.stderr, shown.stdout, asked(house, "abc", f"/v1/{kind}?chip={CHIP}") + "\n")
    words = [*command("wanekupo"), "seal", "--verify", folder / "seals/000001.rows", folder / "books.db"]
    expect("the seal", subprocess.run(words, capture_output=True, check=False).returncode, 0)
    expect("what is left", house.left(), [])


def test_closed(house: House) -> None:
    work(house, steps()[-1:])
    run = close(house)
    expect(run.said, run.status, 0)
    is_closed(house)
    stops = house.folder.joinpath("stops").read_text()
    again = close(house)
    at = json.loads((house.folder / FOLDER / "closed.json").read_text())["at"]
    expect(again.said, (again.status, f"was closed at {at}; its books are in" in again.said), (0, True))
    expect("stops", house.folder.joinpath("stops").read_text(), stops)
    grown = house.run("add-seat", "acme", "a2", "--apply")
    expect(grown.said, (grown.status, "is closed" in grown.said), (1, True))
    more = token(house, "add", "a1")
    expect(more.stderr, (more.returncode, "was closed at" in more.stderr), (1, True))
    expect("one that looks", token(house, "add", "a1", "--look").returncode, 0)


def test_put_back(house: House) -> None:
    """Both files of the folder in the store's place are the store, and it stays closed."""
    work(house, steps()[-1:])
    expect("closed", close(house).status, 0)
    before = [asked(house, "abc", f"/v1/{it}") for it in (f"device?chip={CHIP}", f"ledger?chip={CHIP}", "report")]
    house.end()
    for name in ("books.db", "books.db-wal"):
        house.db.with_name(name).unlink()
        shutil.copy(house.folder / FOLDER / name, house.db.parent)
        shutil.chown(house.db.with_name(name), house.owner, "nogroup")
    start(house)
    after = [asked(house, "abc", f"/v1/{it}") for it in (f"device?chip={CHIP}", f"ledger?chip={CHIP}", "report")]
    expect("what is shown", after, before)
    expect("tokens", (open_tokens(house), token(house, "add", "b1").returncode), (LOOKS, 1))


@pytest.mark.needs("minisign", "openssl")
def test_signed_and_stamped(house: House, tmp_path: Path) -> None:
    """The list is signed, say minisign itself and `seal --verify`; where the stamp is none nothing is closed."""
    work(house, steps()[-1:])
    pair = ["minisign", "-G", "-W", "-p", tmp_path / "own.pub", "-s", tmp_path / "own.key"]
    subprocess.run(pair, check=True, capture_output=True)
    make_keys(tmp_path)
    with stamp_service(tmp_path) as service:
        words = ["--minisign", str(tmp_path / "own.key"), "--tsa", service.url]
        words += ["--tsa-ca", str(tmp_path / "tsa-ca.pem")]
        service.fault = "page"
        run = house.run("close", str(house.folder / FOLDER), *words)
        expect(run.said, (run.status, "is no time stamp" in run.said, open_tokens(house)), (1, True, ALL))
        service.fault = ""
        run = house.run("close", str(house.folder / FOLDER), *words)
        expect(run.said, run.status, 0)
    folder = house.folder / FOLDER
    verify = ["minisign", "-V", "-q", "-p", tmp_path / "own.pub", "-m", folder / "SHA256SUMS"]
    expect("the list", subprocess.run(verify, check=False, capture_output=True).returncode, 0)
    trusted = ["--minisign", tmp_path / "own.pub", "--tsa-ca", tmp_path / "tsa-ca.pem"]
    verify = [*command("wanekupo"), "seal", "--verify", folder / "seals", *trusted]
    done = subprocess.run(verify, check=False, capture_output=True, text=True)
    lines = done.stdout.splitlines()
    expect("the seal", (done.returncode, lines[0].startswith("No pair was compared")), (3, True))


@pytest.mark.nginx
def test_deployed(house: House) -> None:
    """Through nginx a token that may all is 401 from then on, and one that looks is answered."""
    work(house, steps()[-1:])
    texts = {it["looks"]: it["text"] for it in house.records()[1] if it["seat"] == "a1"}
    nginx = house.proxied()
    try:
        expect("before", [through(house, texts[looks], 200) for looks in (False, True)], [200, 200])
        run = close(house)
        expect(run.said, run.status, 0)
        expect("after", [through(house, texts[False], 401), through(house, texts[True], 200)], [401, 200])
    finally:
        nginx.terminate()
        nginx.wait()


def through(house: House, text: str, wanted: int) -> int:
    """nginx's status for who looks with a token: it starts, and behind a reload a worker of before may answer."""
    end = time.monotonic() + 20
    while (found := asked_of_nginx(house, text)) != wanted and time.monotonic() < end:
        time.sleep(0.2)
    return found


def asked_of_nginx(house: House, text: str) -> int:
    port = str(house.other_words["--nginx"]).rpartition(":")[2]
    words = ["curl", "-s", "-o", os.devnull, "-w", "%{http_code}", "-m", "20", "--cacert", house.folder / "cert.pem"]
    words += ["-H", f"Authorization: Bearer {text}", "--resolve", f"station.example:{port}:127.0.0.1"]
    words += [f"https://station.example:{port}/v1/device?chip={CHIP}"]
    return int(subprocess.run(words, capture_output=True, text=True, check=False).stdout)


def linked(house: House) -> None:
    """Behind the stop the store's user puts a link to a file of root's in the log's place."""
    (house.folder / "secret").write_text("root's own\n")
    service, log = house.folder / "service", house.db.with_name("books.db-wal")
    joins = 'replay "${words[@]}" < /dev/null ;;'
    assert joins in service.read_text()
    links = joins.replace(" ;;", f"; rm {log}; ln -s {house.folder}/secret {log} ;;")
    service.write_text(service.read_text().replace(joins, links))


def shared(house: House) -> None:
    (house.folder / "given").chmod(0o777)


def prepared(house: House) -> None:
    assert house.run("add-seat", "acme", "a2", "--no-token").status == 0


REFUSED = [(linked, FOLDER, "no plain file"), (shared, "given/closed", "can write the folder"),
           (prepared, FOLDER, "is prepared"), (lambda _: None, "given", "is there already"),
           (lambda _: None, "none/closed", "No such file")]  # fmt: skip


@pytest.mark.parametrize(("change", "folder", "said"), REFUSED, ids=[row[2] for row in REFUSED])
def test_refused(house: House, change, folder: str, said: str) -> None:
    """Root follows no link of the store's user, and puts no books where others write; nothing is closed."""
    work(house, steps()[-1:])
    change(house)
    run = house.run("close", str(house.folder / folder))
    expect(run.said, (run.status, said in run.said, "root's own" in run.said), (1, True, False))
    expect("tokens", open_tokens(house), ALL)
    expect("what is left", list(house.folder.glob("closed*")), [])


# ---- the next site

NEW = "site-2.toml"


@pytest.fixture
def closed(house: House) -> House:
    work(house, steps()[-1:])
    run = close(house)
    expect(run.said, run.status, 0)
    return house


def follow(house: House, *words: str, **named: int):
    return house.run("successor", str(house.folder / NEW), "--suffix", "2", "--to", str(house.given), *words, **named)


def test_before_the_end(house: House) -> None:
    run = follow(house)
    expect(run.said, (run.status, "isn't closed" in run.said, house.folder.joinpath(NEW).exists()), (1, True, False))


def test_an_order_behind_the_end(closed: House) -> None:
    """Somebody with an inner token ordered since the seal: the rest isn't known, and nothing is written."""
    members = dict(steps()[1][1], nr=len(steps()) + 1, name="late", first=1)
    work(closed, [("/v1/order", members)])
    run = follow(closed)
    expect(run.said, (run.status, "acme has other orders than" in run.said), (1, True))
    expect("what is left", list(closed.folder.glob("*spent*")), [])


def customers(house: House, name: str = NEW) -> dict[str, dict]:
    return {it["name"]: it for it in tomllib.loads((house.folder / name).read_text())["customer"]}


def test_successor(closed: House, port: int) -> None:
    house, before = closed, customers(closed, "site.toml")
    order = json.loads(asked(house, "abc", "/v1/order?name=o1"))
    run = follow(house, "--server", f"127.0.0.1:{port}")
    expect(run.said, run.status, 0)
    made = customers(house)
    expect("customers", [(it["name"], it["issuer"], [seat["name"] for seat in it["seat"]]) for it in made.values()],
           [(f"{name}-2", [f"{one}-2" for one in it["issuer"]], [f"{seat['name']}-2" for seat in it["seat"]])
            for name, it in before.items()])  # fmt: skip
    given = order["quantity"] * order["macs"]
    begin, count = int(order["mac"], 16) + given, before["acme"]["pool"][0]["count"] - given
    rest = {"first": f"{begin:012x}", "count": count}
    expect("the rest", made["acme-2"]["pool"], [rest, *before["acme"]["pool"][1:]])
    joined = house.folder / "joined.toml"
    parts = [house.folder / name for name in (NEW, "site.spent.toml")]
    joined.write_text("\n".join(it.read_text().partition("[manager]")[0] for it in parts))
    expect("joined", subprocess.run([house.program, "check-site", joined], check=False).returncode, 0)
    joined.write_text("\n".join(it.read_text() for it in reversed(parts)))
    check = token(house, "check", "--site", str(joined))
    expect(check.stderr, check.returncode, 0)
    expect("told", all(f"--same {name}-2={name}" in run.said for name in before), True)
    serve_next(house, port)
    text, records = (house.folder / NEW).read_text(), house.records()
    again = follow(house, "--server", f"127.0.0.1:{port}")
    expect(again.said, (again.status, (house.folder / NEW).read_text(), house.records()), (0, text, records))
    stays(house, "--server", f"127.0.0.1:{port}")
    third = house.run("successor", str(house.folder / "site-3.toml"), "--suffix", "3", "--to", str(house.given))
    expect(third.said, (third.status, f"{house.folder / NEW} follows already" in third.said), (1, True))


def placed(file: Path) -> tuple[int, ...]:
    """Which file has a name, when it was written, and who reads it."""
    found = file.stat()
    return found.st_ino, found.st_mtime_ns, found.st_ctime_ns, found.st_mode, found.st_uid, found.st_gid


def stays(house: House, *words: str) -> None:
    """The next site's file is as the first's: its store's user reads it. Given again the command leaves it as it is,
    also where the site grew since; what is no growth is refused, and stays too."""
    new = house.folder / NEW
    kept = [(it.owner(), it.group(), it.stat().st_mode & 0o777) for it in (new, house.site)]
    expect("whose it is", kept, [("root", "nogroup", 0o640)] * 2)
    read = [*house.as_owner(), house.program, "check-site", new]
    expect("its store's user reads it", subprocess.run(read, check=False, capture_output=True).returncode, 0)
    text = new.read_text()
    for other, status in ((text.replace('"acme-ca-2"', '"acme-ca-2", "more"'), 0), (text.replace("bolt", "volt"), 1)):
        new.write_text(other)
        before, run = placed(new), follow(house, *words)
        expect(run.said, (run.status, "stays as it is" in run.said), (status, bool(status)))
        expect("the file", (placed(new), new.read_text()), (before, other))
    new.write_text(text)


def serve_next(house: House, port: int) -> None:
    """The next program knows its own seats alone, and its first order gets the first address of the rest."""
    seats, outers = house.records()
    expect("where nginx asks", {seats[f"{it}-2"]["server"] for it in SEATS}, {f"127.0.0.1:{port}"})
    texts = {it["seat"]: it["text"] for it in outers if not it["looks"] and not it["ended"]}
    expect("outer tokens", texts, {f"{it}-2": (house.given / f"{it}-2.token").read_text().strip() for it in SEATS})
    words = station(str(house.program), str(house.folder / NEW), str(house.folder / "next.db"), port)
    server = Server(words, port).wait(Server.is_answering)
    try:
        (_, order) = next(it for it in steps() if it[0] == "/v1/order")
        members = order | {"nr": 1, "issuer": "acme-ca-2"}
        for token_of, status in (("abc", 401), (seats["a1-2"]["inner"], 200)):
            caller = Caller(port, token_of)
            found, body = caller.ask("POST", "/v1/order", members)
            caller.close()
            expect("who is known", found, status)
        expect("an address", json.loads(body)["mac"], customers(house)["acme-2"]["pool"][0]["first"])
    finally:
        server.kill()


def test_kept_issuers(closed: House) -> None:
    run = follow(closed, "--keep-issuers")
    expect(run.said, (run.status, "import" in run.said), (0, True))
    wanted = [it["issuer"] for it in customers(closed, "site.toml").values()]
    expect("issuers", [it["issuer"] for it in customers(closed).values()], wanted)


def test_a_name_of_the_first(house: House) -> None:
    """The first has a customer already whose name the next one would get."""
    work(house, steps()[-1:])
    expect("grown", house.run("add-customer", "acme-2", "--apply").status, 0)
    expect("closed", close(house).status, 0)
    run = follow(house)
    expect(run.said, (run.status, "site.spent.toml has it too: the customer acme-2" in run.said), (1, True))


OTHER = """[[customer]]
name = "{}"
issuer = []
[[customer.pool]]
first = "{}"
count = 1
"""


@pytest.mark.parametrize(("name", "first", "said"), [
    ("acme-2", "0200000f0000", "the customer acme-2"), ("far", "020000000013", "the addresses 020000000013 to"),
])  # fmt: skip
def test_others(closed: House, name: str, first: str, said: str) -> None:
    """What another store of the house has is refused, and no seat is made."""
    other = closed.folder / "other.toml"
    other.write_text(OTHER.format(name, first))
    before = closed.records()
    run = follow(closed, "--other-site", str(other))
    expect(run.said, (run.status, said in run.said, closed.records() == before), (1, True, True))
    expect("a text", closed.folder.joinpath(NEW).exists(), False)


# ---- kills


def shipped(house: House) -> None:
    work(house, steps()[-1:])


def shipped_and_closed(house: House) -> None:
    shipped(house)
    expect("closed", close(house).status, 0)


def is_followed(house: House) -> None:
    """The next site is there, and each of its seats has one token, in its file."""
    expect("customers", list(customers(house)), ["acme-2", "bolt-2"])
    seats, outers = house.records()
    digests = {seat["name"]: seat["token"] for it in customers(house).values() for seat in it["seat"]}
    expect("digests", digests, {f"{it}-2": digest_of(seats[f"{it}-2"]["inner"]) for it in SEATS})
    texts = sorted((it["seat"], it["text"]) for it in outers if not it["looks"] and not it["ended"])
    expect("tokens", texts, [(f"{it}-2", (house.given / f"{it}-2.token").read_text().strip()) for it in SEATS])
    expect("what is left", house.left(), [])


@pytest.mark.sizes(6, 1000)
@pytest.mark.parametrize(("before", "act", "holds"), [
    pytest.param(shipped, close, is_closed, id="close"),
    pytest.param(shipped_and_closed, follow, is_followed, id="successor"),
])  # fmt: skip
def test_killed(made: House, size: int, before, act, holds) -> None:
    """Either, killed right before some of its deeds, or before each, and begun again."""
    made.project = made.project if made.project != PROJECT else copy_project(made.folder.parent)

    def killed_at(at: int) -> int:
        """How many deeds a run came to that is killed before one, and begun again; none where it ended before."""
        with tempfile.TemporaryDirectory(dir=made.folder.parent) as folder:
            os.chmod(folder, 0o755)
            house = made.copy(Path(folder) / "house")
            house.project = made.project
            start(house)
            try:
                before(house)
                cut = act(house, kill_at=at)
                assert was_killed(cut) == bool(at) or cut.status == 0, cut.said
                if was_killed(cut):
                    run = act(house)
                    expect(run.said, run.status, 0)
                holds(house)
                return cut.deeds if was_killed(cut) or not at else 0
            finally:
                house.end()

    deeds, at, kills = killed_at(0), 1, 0
    expect("deeds are counted", deeds > 20, True)
    while killed_at(at):
        kills, at = kills + 1, at + max(1, deeds // size)
    expect("kills", kills >= min(size, deeds), True)
