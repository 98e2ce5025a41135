"""Which tokens end with a site, what its folder has and who reads it; what the next one gets, and who its tokens. The
list is held by sha256sum(1). All else of both is tried over a served store (tests/plant/test_closing.py)."""

import argparse
import contextlib
import hashlib
import json
import os
import subprocess
from pathlib import Path
from types import SimpleNamespace

import pytest

from wanekupo.common.site_file import Site, SiteCustomer
from wanekupo.common.token_file import Outer, TokenError, TokenSeat, Tokens, put, tokens_of, tokens_text
from wanekupo.plant.site import closing, successor
from wanekupo.plant.site.plan import SeatWish

MINUTE = "2026-01-01T00:00"


def folder_of(db):
    """A folder of the store's user."""
    file, size = lambda end="": os.open(f"{db}{end}", os.O_RDONLY), lambda end="": os.stat(f"{db}{end}").st_size
    return SimpleNamespace(db=Path(db), user=SimpleNamespace(name="station"), file=file, size=size)


@pytest.fixture
def place(tmp_path, monkeypatch):
    """A site whose commands are noted, and do nothing but say how they ended."""
    monkeypatch.setattr(closing, "StoreFolder", folder_of)
    monkeypatch.setattr(closing, "ACTS", tmp_path / "acts")
    monkeypatch.setattr(closing, "write_rows", lambda copy, file: file.write_text("site {}\n"))
    names = {"plan": "site.growth", "tokens": "tokens.conf", "closed": "closed.json", "db": "books.db"}
    made = SimpleNamespace(site=tmp_path / "site.toml", **{it: tmp_path / name for it, name in names.items()})
    made.calls, made.status = [], 0
    made.user, made.token_words = SimpleNamespace(group=os.getegid(), name="station"), lambda: ["token"]
    made.ran = lambda *it: made.calls.append(it) or subprocess.CompletedProcess(it, made.status, "", "why\n")
    for name, text in (("site.toml", "customer = []\n"), ("books.db", "store"), ("books.db-wal", "log")):
        (tmp_path / name).write_text(text)
    before = os.umask(0)
    tmp_path.chmod(0o755)
    yield made
    os.umask(before)


def words(folder, **more):
    return argparse.Namespace(**{"folder": Path(folder), "patience": 0.1, "signer": None, "service": None, **more})


def test_the_folder_of_a_closed_site(place, tmp_path):
    """While it is made it is root's alone, and behind that the store's user reads it and writes nothing. The list has
    each file, and is signed behind all of them."""
    signed, seen, made = [], [], tmp_path / "closed.new"
    signer = SimpleNamespace(sign=lambda file, data: signed.append((file.name, data == file.read_bytes())))

    def call(function, **_):
        seen.extend((it.name, it.stat().st_mode & 0o777) for it in (made, *made.rglob("*")))
        function()

    place.user.call = call
    data = closing.fill_folder(words(tmp_path / "closed", signer=signer), place, place.db, {"acme": {}})
    private = {"closed.new": 0o700, "seals": 0o700, "books.db": 0o600, "books.db-wal": 0o600, "site.toml": 0o600}
    assert dict(seen) == private and (made / "books.db-wal").read_bytes() == b"log"
    modes = {(it.is_dir(), it.stat().st_mode & 0o777) for it in (made, *made.rglob("*"))}
    assert modes == {(True, 0o750), (False, 0o640)}
    done = subprocess.run(["sha256sum", "-c", "SHA256SUMS"], cwd=made, capture_output=True, text=True, check=True)
    files = "books.db books.db-wal closed.json seals/000001.rows seals/000001.seal seals/chain site.toml"
    assert done.stdout.splitlines() == [f"{it}: OK" for it in files.split()]
    assert signed == [("000001.seal", True), ("SHA256SUMS", True)]
    told = json.loads(data)
    assert data == (made / "closed.json").read_text() and told["seal"] == (made / "seals/chain").read_text().strip()
    assert told["site_sha256"] == hashlib.sha256(b"customer = []\n").hexdigest() and told["seats"] == []
    with pytest.raises(FileExistsError):
        closing.copy_out(folder_of(place.db), made)
    Path(f"{place.db}-wal").write_bytes(bytes(568))  # a page is in it: the file alone is older than the store
    with pytest.raises(TokenError, match="isn't joined"):
        closing.copy_out(folder_of(place.db), tmp_path)


def outer(seat, number, **more):
    text = {} if "ended" in more or "subject" in more else {"text": f"wanekupo_{number:064}"}
    own = {"looks": False, "mark": 12 * "0", "since": MINUTE}
    return Outer(f"{seat}:{number}", number, seat, **{**own, **text, **more})


SEATS = [TokenSeat(seat, "acme", seat) for seat in ("a1", "a2", "a3", "health")] + [TokenSeat("c1", "cog", "y")]
SEATS += [TokenSeat("@manager", "@manager", "z"), TokenSeat("@other", "@other", "w")]


def tokens(*outers):
    return Tokens({it.seat: it for it in SEATS}, list(outers))


def test_the_seats_of_a_site():
    site = Site({"acme": SiteCustomer("acme", seats={"a1": "", "b1": ""})}, hashlib.sha256(b"z").hexdigest())
    assert closing.own_seats(site, tokens()) == {"a1", "@manager"}


def test_which_tokens_end(place, tmp_path, capsys):
    """Those of the site's seats that may more than look; where nginx doesn't know it nothing is closed."""
    outers = [outer("a1", 1), outer("c1", 2), outer("a1", 3, ended=MINUTE), outer("a1", 4, looks=True)]
    put(place.tokens, tokens_text(tokens(*outers)))
    closing.end_tokens(words(tmp_path), place, {"a1"})
    found = tokens_of(place.tokens.read_text(), place.tokens).outers
    assert found[1:] == outers[1:] and found[0].ended > MINUTE and not found[0].text
    closing.end_tokens(words(tmp_path), place, set())
    assert place.calls == [("token", "write")] and capsys.readouterr().out == "ended: a1:1\nended: no token more\n"
    place.status = 1
    with pytest.raises(TokenError, match="nothing is closed: why$") as error:
        closing.end_tokens(words(tmp_path), place, {"a1"})
    assert error.value.status == 5


def noted(place, monkeypatch, module, **steps):
    """Has steps do nothing but give their answers, and notes them."""
    for name, answer in steps.items():
        monkeypatch.setattr(module, name, lambda *it, n=name, answer=answer: place.calls.append((n, *it[1:])) or answer)


# ---- the next site

POOLS = [(0x020000000010, 16), (0x020000000100, 4), (0x020000000200, 2)]


def test_what_the_next_site_gets(place, tmp_path, monkeypatch):
    """Of the first pool ten addresses are reached, of the second all, of the third none."""
    place.closed.write_text(json.dumps({"folder": str(tmp_path)}))
    monkeypatch.setattr(successor, "SealBooks", lambda file: SimpleNamespace(close=lambda: None))
    reached = [(0x020000000010, 8), (0x020000000018, 2), (0x020000000100, 4)]
    monkeypatch.setattr(successor, "reached", lambda *_: reached)
    first = Site({"acme": SiteCustomer("acme", ["ca"], POOLS, {"a1": "1"}), "cog": SiteCustomer("cog", ["cog-ca"])})
    spent, following = successor.sites_of(argparse.Namespace(suffix="-2", keep_issuers=False), place, first)
    assert spent.customers["acme"] == SiteCustomer("acme", ["ca"], [(POOLS[0][0], 10), POOLS[1]], {"a1": "1"})
    acme = SiteCustomer("acme-2", ["ca-2"], [(0x02000000001A, 6), POOLS[2]], {"a1-2": ""})
    assert [*following.customers.values()] == [acme, SiteCustomer("cog-2", ["cog-ca-2"])]


def test_who_gets_a_token_of_the_next_site(place, monkeypatch, capsys):
    """Who had one that may all, or a certificate, and has none yet: begun again nobody gets a second one."""
    outers = [outer("a1", 1, holder="line 1"), outer("a2", 2, subject="CN=pc2"), outer("a3", 3, looks=True)]
    noted(place, monkeypatch, successor, outer_token="", token_run=None, known_seats=tokens(*outers))
    following = Site({"acme-2": SiteCustomer("acme-2", seats={f"{it.seat}-2": "" for it in SEATS[:4]})})
    args = argparse.Namespace(suffix="-2", to="/t")
    successor.give(args, place, following)
    one, two = (SeatWish(f"{it}-2", "acme-2", f"/t/{it}-2.token", by) for it, by in (("a1", "line 1"), ("a2", "")))
    certificate = ("add", "a2-2", "--certificate", "CN=pc2", "--holder", "")
    write = ("token", "write")
    assert place.calls == [("known_seats",), ("outer_token", one), ("token_run", two, *certificate), write]
    more = [outer("a1-2", 4), outer("a2-2", 5, subject="CN=pc2")]
    noted(place, monkeypatch, successor, known_seats=tokens(*outers, *more))
    place.calls.clear()
    successor.give(args, place, following)
    assert place.calls == [("known_seats",), write]


@pytest.mark.parametrize("there", [None, "TEXT", "TEXT, grown", "other"])
def test_one_site_follows(place, tmp_path, monkeypatch, there):
    """What the first gave is written before a token is made. The new text is readable by whom the first is, and a file
    that is there stays as it is, also where it grew since; any other one is refused."""
    new, spent = tmp_path / "site-2.toml", tmp_path / "site.spent.toml"
    args = argparse.Namespace(new=str(new), to=str(tmp_path), patience=0.1, other_site=["o"], server="s")
    steps = {"tested_site": None, "tested_others": None, "give": None, "next_text": "TEXT", "tell_steps": None}
    noted(place, monkeypatch, successor, **steps, sites_of=(Site(), Site()))
    place.refusal = lambda command, text, old: "" if text.startswith(old) else "store fault 1"
    with pytest.raises(TokenError, match="isn't closed"):
        successor.successor(args, place)
    place.closed.write_text("{}")
    place.site.chmod(0o640)
    if there:
        new.write_text(there)
        new.chmod(0o444)
    before = new.stat().st_ino if there else None
    with pytest.raises(TokenError, match="another text") if there == "other" else contextlib.nullcontext():
        successor.successor(args, place)
    tried, told = ["next_text", "tested_site", "tested_others"], ["give", "tell_steps"] * (there != "other")
    assert [it[0] for it in place.calls] == ["sites_of", *tried, *tried, *told]
    assert place.calls[3] == ("tested_others", "TEXT", [str(spent), "o"]) and place.calls[1][-1] is True
    mark = "" if there == "other" else f"# {new} follows\n"
    assert spent.read_text() == f"{mark}customer = []\n" and new.read_text() == (there or "TEXT")
    assert new.stat().st_mode & 0o777 == (0o444 if there else 0o640) and before in (None, new.stat().st_ino)
    args.new = str(tmp_path / "site-3.toml")
    with pytest.raises(TokenError, match=f"^{new} follows already") if mark else contextlib.nullcontext():
        successor.successor(args, place)


def test_a_name_that_another_made(place, tmp_path):
    """A link, also one to nothing, and a file that others write, in which the very text may be."""
    new, other = tmp_path / "site-2.toml", tmp_path / "other"
    other.write_text("TEXT")
    with pytest.raises(TokenError, match="others may write it"):
        successor.is_kept(place, other, "TEXT")
    new.symlink_to(tmp_path / "none")
    with pytest.raises((TokenError, OSError)):
        successor.is_kept(place, new, "TEXT")
    assert new.is_symlink() and not (tmp_path / "none").exists()


UNITS = {
    "station-2.service": [
        "StateDirectory=station-2", "WorkingDirectory=/var/lib/station-2",
        "    exec /usr/local/bin/station serve --site /etc/station/site-2.toml --db books.db --existing \\",
        "        --port 881 --connections 1000000'",
        "    exec /usr/local/bin/station replay --site /etc/station/site-2.toml --db books.db --existing'",
        "SyslogIdentifier=station-2",
    ],
    "station-2-backup.service": [
        "After=local-fs.target station-2.service", "RequiresMountsFor=/var/lib/station-2 /var/backups/station-2",
        "ExecStart=/usr/share/wanekupo/backup --program /usr/bin/station --site /etc/station/site-2.toml \\",
        "    --db /var/lib/station-2/books.db --into /var/backups/station-2 $HOW",
        "ExecStopPost=/usr/share/wanekupo/backup --into /var/backups/station-2 $HOW --clean "
        "--db /var/lib/station-2/books.db", "SyslogIdentifier=station-2-backup",
    ],
    "station-2-backup.timer": [],
}  # fmt: skip


def test_the_next_units(place, tmp_path, capsys):
    """The commands that are told, run in a shell over the package's units: what differs is named here by hand."""
    place.site, place.db = Path("/etc/station/site.toml"), Path("/var/lib/station/books.db")
    place.backups, place.args = Path("/var/backups/station"), SimpleNamespace(start="systemctl start station", port=880)
    args = argparse.Namespace(new="/etc/station/site-2.toml", suffix="-2", server="127.0.0.1:881", keep_issuers=False)
    one, two = SiteCustomer("acme", ["ca"]), SiteCustomer("acme-2", ["ca-2"])
    successor.tell_steps(args, place, [(one, two)])
    told = capsys.readouterr().out
    assert "wanekupo apart FOLDER.. --same acme-2=acme\n" in told and "ca-2 beside ca\n" in told
    script = "\n".join(it for it in told.splitlines() if it.startswith("    ")).partition("    printf")[0]
    deploy = Path(__file__).parents[3] / "deploy"
    cat = f'systemctl() {{ case $2 in *.timer) cat {deploy}/$2;; *) cat {deploy}/$2.service;; esac; }}\n'
    subprocess.run(["sh", "-ec", cat + script.replace("/etc/systemd/system", str(tmp_path))], check=True)
    for name, lines in UNITS.items():
        before = (deploy / name.replace("-2", "")).read_text().splitlines()
        assert [it for it in (tmp_path / name).read_text().splitlines() if it not in before] == lines
