"""The shift's report against counts by jq, and files that are none, and names that are markup."""

import contextlib
import csv
import io
import json
import sqlite3
import subprocess
from pathlib import Path

import pytest

from books.seal_places import PERIOD, expect_said, run
from books.seal_plant import END, START, TOKENS, chip_of
from common.needs import ROOT
from wanekupo.common.errors import OutOfStep
from wanekupo.seat.station import Station

JQ = r"""
reduce .[] as $l ({n: {begun: 0, shipped: 0, identified: 0, lost: 0, stray: 0, key: 0, scrapped: 0}};
  if $l.asked then .asked = $l
  elif $l.status == 200 then
    (.asked.asked.chip // "") as $c | .asked.path as $p | ($l.at >= $from and $l.at < $to) as $in
    | if $p == "/v1/device" then (if $in then .n.begun += 1 else . end)
      elif $p == "/v1/ship" and $in then .n.shipped += 1
      elif $p == "/v1/identity" and $in then .n.identified += 1
      elif $p == "/v1/readback" and $l.reply.state == "quarantined" then
        .gone[$c] = true | (if $in then .n[$l.reply.outcome] += 1 else . end)
      elif $p == "/v1/scrap" and (.gone[$c] | not) and $in then .n.scrapped += 1 else . end
  else . end) | .n
"""


def by_jq(file, start, end):
    """A station's counts, by jq."""
    words = ["jq", "-s", "--arg", "from", start, "--arg", "to", end, JQ, str(file)]
    return json.loads(subprocess.run(words, capture_output=True, text=True, check=True).stdout)


def rows_of(file):
    return list(csv.DictReader(io.StringIO(Path(file).read_text())))


def journals_of(folder):
    return [f"{name}={folder / name}" for name in ("acme", "bolt")]


@pytest.mark.needs("jq")
@pytest.mark.parametrize("start, end", [(START, END), ("2026-11-27T06:10:00Z", "2026-11-27T07:21:00Z")])
def test_counts(folder, tmp_path, start, end):
    """The counts of each station by jq."""
    words = ["--from", start, "--to", end, "--csv", tmp_path, "--html", tmp_path / "shift.html"]
    assert run("shift", *journals_of(folder), *words)[0] == 0
    found = {row["station"]: row for row in rows_of(tmp_path / "stations.csv")}
    lost = rows_of(tmp_path / "lost.csv")
    for customer, seat in (("acme", "a1"), ("acme", "a2"), ("bolt", "b1")):
        wanted = by_jq(folder / customer / f"{seat}.journal", start, end)
        gone = [row["reason"] for row in lost if row["station"] == seat]
        counts = {name: int(found[seat][name]) for name in ("begun", "shipped")}
        counts |= {reason: gone.count(reason) for reason in ("lost", "stray", "key", "scrapped")}
        identified = wanted.pop("identified")
        assert counts == wanted, seat
        assert identified >= counts["shipped"] - 1, seat
    orders = [row for row in rows_of(tmp_path / "orders.csv") if row["customer"] != "all"]
    for name in ("begun", "first", "shipped", "given_up"):
        sums = [sum(int(row[name]) for row in rows) for rows in (orders, found.values())]
        assert sums[0] == sums[1], f"{name} over orders is that over stations"


def test_rest(made, folder, tmp_path, looks):
    """What is left, asked by a token that looks of each customer."""
    words = ["shift", *journals_of(folder), "--from", START, "--to", "2099-01-01T00:00Z", "--csv", tmp_path]
    assert run(*words, *looks, "--url", made.url)[0] == 0
    report = run("report", "--url", made.url, "--token", folder / "acme.look", "--order", "gate-40")[1]
    asked = [row["left"] for row in rows_of(tmp_path / "rest.csv") if row["order"] == "gate-40"]
    assert asked[0] == report.split(",")[-1].strip()


def test_a_foreign_hand(made, folder, tmp_path):
    """It uses a seat's token: the station is out of step, and the audit names the numbers and the entry."""
    seat = made.seat("b1")
    with Station(made.url, TOKENS["b1"], tmp_path / "foreign.json", 20) as foreign:
        foreign.scrap(chip_of(7))
    begin_at = made.clock.now
    with contextlib.suppress(OutOfStep):
        seat.make_order("x", "bolt-ca", "X", 3, 1, 1)
    made.clock.now += 300
    text = run("shift", f"bolt={folder / 'bolt'}", *PERIOD)[1]
    assert "out of step (12)" in text and "not yet" in text, "a station that stopped"
    seat.resynchronize()
    text = run("shift", f"bolt={folder / 'bolt'}", *PERIOD)[1]
    assert "out of step (12)" in text and "not yet" not in text, "and went on"
    assert made.clock.now > begin_at + 300, "the clock goes on"
    words = ("no_line", chip_of(7), "scrapped", "numbers", "has no line")
    expect_said(run("audit", made.copied("foreign"), folder / "acme", folder / "bolt", *PERIOD), words)


# ---- hostile files


STORES = {
    "text": "is no database",
    "cut": "can't be read",
    "view": "has a view, which no store has",
    "schema1.db": "is no store of schema 3: it has schema 1",
    "books.db": "a program has",
    "none": "there is no file",
}


@pytest.mark.parametrize("name", STORES)
def test_a_bad_store(folder, tmp_path, name):
    """Files that are no store that may be read, each with the words by which it is refused."""
    stores = {"schema1.db": ROOT / "bench/schema1.db", "books.db": folder / "books.db"}
    store = stores.get(name) or bad_store(tmp_path / name, folder / "copy/books.db")
    for command in (["audit", store, folder / "acme", *PERIOD], ["seal", folder / "plant", "--store", store]):
        status, text = run(*command)
        assert (status, STORES[name] in text.lower(), len(text.splitlines())) == (2, True, 1), text


def bad_store(path, whole):
    if path.name == "text":
        path.write_text("SQLite is not this\n")
    elif path.name == "cut":
        path.write_bytes(whole.read_bytes()[:3000])
    elif path.name == "view":
        path.write_bytes(whole.read_bytes())
        with contextlib.closing(sqlite3.connect(path)) as base:
            view = "CREATE VIEW given_start AS SELECT 1 AS issuer, 2 AS serial, 3 AS not_before"
            base.executescript(f"DROP TABLE given_start; {view}")
    return path


def test_a_shift_of_bad_journals(tmp_path):
    status, text = run("shift", *bad_journals(tmp_path), *PERIOD)
    assert (status, text.count("warning: line")) == (0, 5), text
    assert controls(text) == []


@pytest.mark.parametrize("name", ["hostile.journal", "no.journal"])
def test_an_audit_of_a_bad_journal(folder, tmp_path, name):
    bad_journals(tmp_path)
    words = ["audit", folder / "copy/books.db", tmp_path / name, *PERIOD, "--html", tmp_path / "page.html"]
    status, text = run(*words, "--csv", tmp_path / "found.csv")
    page = (tmp_path / "page.html").read_text()
    assert (status, controls(text + page)) == (1, [])
    assert not ("<script" in page or "<b>" in page), "no markup"
    assert [it for it in ("src=", "href=", "url(http", "@import") if it in page] == [], "nothing from elsewhere"


def controls(text):
    """The control characters of a text, but for its line ends."""
    return [it for it in text if ord(it) < 32 and it != "\n"]


def bad_journals(bad):
    """A journal whose names are markup and commands to a terminal, and one whose lines are none."""
    escape, markup = "\x1b]0;x\x07", "<script>document.title=1</script>&amp;"
    line = {"at": "2026-11-27T06:00:00Z", "seat": markup, "operator": escape + markup}
    asked = {"nr": 1, "chip": f"{escape}<b>", "order": markup}
    lines = [
        {**line, "asked": asked, "path": "/v1/device", "digest": "0"},
        {**line, "nr": 1, "status": 200, "reply": {"state": "registered", "pending": {}}},
        {**line, "asked": {**asked, "nr": 2}, "path": "/v1/scrap", "digest": "0"},
        {**line, "nr": 2, "status": 200, "reply": {"state": "scrapped"}},
    ]
    (bad / "hostile.journal").write_text("".join(json.dumps(it) + "\n" for it in lines))
    no_line = '{"at":"2026-11-27T06:00:00Z","asked":{"nr":"x"},"path":"/v1/ship"}'
    (bad / "no.journal").write_text('{"at":5}\n[[[\n' + no_line + "\n")
    return [bad / "hostile.journal", bad / "no.journal"]
