"""Stores and journals that somebody changed: each has to be found and named by `wanekupo seal --verify`, by `wanekupo
audit`, or by both, but one that can't be. The program itself opens each of the stores that a careful forger left."""

import json
import subprocess

import pytest

from books.seal_clocks import CLOCKS
from books.seal_forged import FORGED, forge
from books.seal_places import PERIOD, expect_said, run
from books.seal_plant import END, START


@pytest.mark.parametrize("it", [pytest.param(it, id=it.name) for it in (*FORGED, *CLOCKS)])
def test_forged(made, folder, tmp_path, it):
    """By a seal of before, and by an audit."""
    store = forge(it, folder, tmp_path)
    words = [made.program, "replay", "--site", made.site, "--db", store, "--existing"]
    opened = subprocess.run(words, stdin=subprocess.DEVNULL, capture_output=True, timeout=600)
    assert (not opened.returncode) == it.opens
    expect_said(run("seal", "--verify", folder / "plant/000001.rows", store), it.seal)
    period = ["--from", it.period[0], "--to", it.period[1]]
    expect_said(run("audit", store, tmp_path / "acme", tmp_path / "bolt", *period), it.audit)


def test_half_of_the_period(folder):
    store, journals = folder / "copy/books.db", [folder / "acme", folder / "bolt"]
    status, text = run("audit", store, *journals, "--from", START, "--to", "2026-11-27T06:30:00Z")
    assert (status, "Nothing found." in text, "20 outside of it" in text) == (0, True, True), text
    assert len((folder / "acme/a1.journal").read_text().splitlines()) > 60


def test_journals_of_half_of_the_period(folder, tmp_path):
    later = ["--from", "2026-11-27T06:30:00Z", "--to", END]
    for name in ("acme", "bolt"):
        (tmp_path / name).mkdir()
        for file in (folder / name).glob("*.journal"):
            lines = [it for it in file.read_text().splitlines() if json.loads(it)["at"] >= "2026-11-27T06:30"]
            (tmp_path / name / file.name).write_text("".join(f"{it}\n" for it in lines))
    status, text = run("audit", folder / "copy/books.db", tmp_path / "acme", tmp_path / "bolt", *later)
    assert (status, "lie before the first line" in text, "Nothing found" in text) == (3, True, False), text
    told = "The audit could not be finished: acme isn't replayed whole, as these journals lack the numbers 1 to "
    assert (told in text, " of b1; " in text, "The program answered" in text) == (True, True, True), text


def test_a_seat_without_a_journal(folder):
    told = run("audit", folder / "copy/books.db", folder / "acme", *PERIOD)
    expect_said(told, ("no_journal", "bolt", "b1"))
