"""The pages of an audit that finds something, and of a shift, as chromium shows them.

    tests/all books/test_pictures.py --write     puts their pictures into docs/pictures
"""

import contextlib

import pytest

from books.seal_forged import FORGED, forge
from books.seal_places import PERIOD, run
from browser import Browser
from common.needs import ROOT


def audit_page(made, folder, looks, own):
    forge(next(it for it in FORGED if it.name == "an entry added"), folder, own)
    assert run("audit", "store/books.db", "acme", "bolt", *PERIOD, "--html", "audit.html", folder=own)[0] == 1
    return own / "audit.html"


def shift_page(made, folder, looks, own):
    words = ["acme=acme/", "bolt=bolt/", *PERIOD, *looks, "--url", made.url, "--html", own / "shift.html"]
    assert run("shift", *words, folder=folder)[0] == 0
    return own / "shift.html"


@pytest.mark.browser
@pytest.mark.parametrize("make", [audit_page, shift_page])
def test_a_page(made, folder, looks, tmp_path, make, is_written):
    """Its policy keeps nothing of its own back."""
    page = make(made, folder, looks, tmp_path)
    with contextlib.closing(Browser()) as browser:
        browser.call("Page.navigate", url=page.as_uri())
        browser.until("document.readyState === 'complete' && document.querySelector('h1') !== null")
        if is_written:
            browser.picture(ROOT / f"docs/pictures/{make.__name__.replace('_', '-')}.png")
        entries = [told["params"]["entry"] for told in browser.told if told.get("method") == "Log.entryAdded"]
    assert [it["text"] for it in entries if it["source"] == "security"] == []
