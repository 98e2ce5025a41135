"""The tests of a new text: what the program says of it holds, and is told."""

import re
from contextlib import contextmanager

import pytest
from wanekupo.plant.site import trials as trying
from wanekupo.plant.trial_copy import Backup
from wanekupo.common.site_file import read_site
from wanekupo.common.store_user import UserError
from wanekupo.common.token_file import TokenError

ONE, TWO = "%064x" % 1, "%064x" % 2
SITE = f"[[customer]]\nname = 'acme'\nissuer = []\n[[customer.seat]]\nname = 'a1'\ntoken = '{ONE}'\n"
MORE = SITE.replace("issuer = []", "issuer = ['n']")
NO_SITE = SITE.replace("'a1'", "'a/1'")


class FakePlace:
    """A place whose program says what the test wants of a text, of one behind an old one, and of a store's copy."""

    def __init__(self, folder, says=lambda *_: ""):
        self.site, self.next, self.backups = folder / "site.toml", folder / "new.toml", folder / "b"
        self.says, self.calls, self.backup = says, [], None

    def refusal(self, command, text, old=None):
        self.calls.append((command, text, old))
        return self.says(text, old)

    def store_refusal(self, text, copy):
        self.calls.append(("store", text, copy.name))
        return self.says(text, copy)

    def newest_backup(self):
        return self.backup

    @contextmanager
    def copied(self, *what):
        self.calls.append(("copied", *what))
        yield self.site.parent / "room/books.db"

    copied_running = copied


@pytest.fixture
def place(tmp_path):
    return FakePlace(tmp_path)


@pytest.mark.parametrize("said, number", [
    ("station: site fault 3", 3), ("station: map fault 12\n", 12), ("x\nstation: store fault 1", 1), ("", 0),
    ("status -9", 0), ("fault 3", 0), ("station: site fault", 0),
])  # fmt: skip
def test_number_of(said, number):
    assert trying.number_of(said) == number


@pytest.mark.parametrize("text, is_map", [
    (SITE, False), ("customer = []\n", False), ("[manager]\ntoken = 'x'\n", False), ("", False),
    ("name = 'm'\nwr = 'W'\n", True), ("rd='R'", True), ("  coding = 1\n", True), ("[[field]]\n", True),
    ("[[ block ]]\n", True),
    ("[block]\n", True), ("block = []\ncustomer = []\n", False), ("# wr = 1\n", False), ("fields = 1", False),
    ("x = 'wr = 1'\n", False), ("[[field]]\n[[customer]]\n", False), ("wrong = 1\n", False),
    ("manager.token = 1\nwr = 1", False),
])  # fmt: skip
def test_is_map(text, is_map):
    assert trying.is_map(text) == is_map


NO_TOML = SITE.replace("[]", "[")
MAP = "name = 'm'\nwr = 'W'\nrd = 'R'\nblock = [{ words = 9 }]\nfield = [{ name = 'W', block = 0, bit = 0 }]\n"
FIELD = "F:5: field.count: count is missing (fault 2)"
WORDS = "F:4: block.words: words is 9, and has to be 1 to 8 (fault 2)"


@pytest.mark.parametrize("text, said, lines", [
    (SITE, "", []), (MAP, "", []), (NO_TOML, "", []),
    (SITE, "station: site fault 3: customer acme, seat 1: the name is there already", []),
    (NO_SITE, "station: site fault 2: customer acme, seat 1: a name has to be 1 to 32 of A-Z a-z 0-9 . _ -", []),
    (NO_TOML, "station: site fault 1: the text is no TOML document", [r"F:4: the text: it is no TOML 1\.0.* 1\)"]),
    (SITE, "station: site fault 1: the text is no TOML document", []),
    (NO_TOML, "station: site fault 2: manager: ", []), (SITE, "status -9", []), (NO_TOML, "status -9", []),
    (MAP, "station: map fault 2", [WORDS, FIELD]), (MAP, "station: map fault 3", []), (MAP, "status -9", []),
    (MAP + "x = '\n", "station: map fault 1", [r"F:6: the text: it is no TOML 1\.0.* 1\)"]),
    (MAP + 'x = "\\e"\n', "station: map fault 2", [r"F:6: the text: it is no TOML 1\.0.* 1\)"]),
])  # fmt: skip
def test_checked(tmp_path, text, said, lines):
    """The program's own line is the last, and holds. Of what is no TOML 1.0 the line is told where the program names
    no other place, and of a map the places of the number that it told."""
    place = FakePlace(tmp_path, lambda *_: said)
    place.site.write_text(text)
    found = [it.replace(str(place.site), "F") for it in trying.checked(place, place.site)]
    assert place.calls == [("check-site" if "acme" in text else "check-map", text, None)]
    assert found[-1:] == ([f"F: {said}"] if said else [])
    wanted = [it if "\\." in it else re.escape(it) for it in lines]
    assert len(found[:-1]) == len(wanted) and all(map(re.fullmatch, wanted, found))


def test_tested_site(tmp_path):
    place = FakePlace(tmp_path, lambda text, old: "why" if text == MORE else "")
    assert trying.tested_site(place, SITE, "t") == read_site(SITE, "t")
    with pytest.raises(TokenError, match="^t: why$"):
        trying.tested_site(place, MORE, "t")


def test_a_growth(place):
    assert trying.tested_growth(place, SITE, MORE, "t") == ["acme gets 1 issuer (n)"]
    assert place.calls == [("check-site", SITE, None), ("check-site", MORE, SITE)]


LOST = "station: store fault 1: customer acme, issuer 1: it is gone, or has changed"


@pytest.mark.parametrize("says, told", [
    ({(SITE, MORE): LOST}, f"t: {LOST}\nnothing of a site can be taken away"),
    ({(SITE, MORE): "station: site fault 1: x"}, "t: station: site fault 1: x"), ({(SITE, MORE): "why"}, "t: why"),
    ({(MORE, None): "station: site fault 3: x"}, "the text of before: station: site fault 3: x"),
])  # fmt: skip
def test_what_is_no_growth_to_the_program(tmp_path, says, told):
    place = FakePlace(tmp_path, lambda *texts: says.get(texts, ""))
    with pytest.raises(TokenError, match=f"^{re.escape(told)}$"):
        trying.tested_growth(place, MORE, SITE, "t")


@pytest.mark.parametrize("text, refused", [("old", 0), ("new", 1)])
def test_a_copy_is_opened_with_the_text_of_now_and_then_with_the_new_one(place, tmp_path, text, refused):
    trying.try_over(place, tmp_path / "books.db", "old", "new", "what")
    assert place.calls == [("store", "old", "books.db"), ("store", "new", "books.db")]
    place.says = lambda it, copy: "why" if it == text else ""
    title = [place.site, place.next][refused]
    with pytest.raises(TokenError, match=f"^{title}: what refuses it: why$"):
        trying.try_over(place, tmp_path / "books.db", "old", "new", "what")


def test_over_the_newest_backup(place, tmp_path):
    assert trying.tried_over_copy(place, "old", "new")[0] is False
    place.backup = Backup(tmp_path / "2026", 7, is_encrypted=False)
    assert trying.tried_over_copy(place, "old", "new") == (True, "a copy of the backup 2026 took it")
    assert ("copied", tmp_path / "2026/books.db", 7) in place.calls
    place.says = lambda text, db: "why" if text == "new" else ""
    with pytest.raises(TokenError, match="why"):
        trying.tried_over_copy(place, "old", "new")


def test_over_a_copy_of_a_store_that_runs(place, tmp_path):
    """Where the newest backup is encrypted. Where no copy can be made, it is told that nothing was tried."""
    place.backup = Backup(tmp_path / "2026.tar.age", 0, is_encrypted=True)
    is_tried, told = trying.tried_over_copy(place, "old", "new")
    assert is_tried and "as it is now" in told and ("copied",) in place.calls
    place.says = lambda text, db: "why" if text == "new" else ""
    with pytest.raises(TokenError, match="why"):
        trying.tried_over_copy(place, "old", "new")

    def refuse():
        raise UserError("no room")

    place.copied_running = refuse
    is_tried, told = trying.tried_over_copy(place, "old", "new")
    assert not is_tried and "2026.tar.age, is encrypted" in told and "no room" in told


def many(first, count):
    parts = [f"[[customer]]\nname = 'c{it}'\nissuer = []\n" for it in range(first, first + count)]
    return "".join(parts)


def test_others(tmp_path):
    place = FakePlace(tmp_path)
    (tmp_path / "two.toml").write_text(MORE.replace("acme", "bolt").replace("'a1'", "'b1'").replace(ONE, TWO))
    trying.tested_others(place, SITE, [str(tmp_path / "two.toml")])
    other, both = (it[1] for it in place.calls)
    assert other == (tmp_path / "two.toml").read_text() and set(read_site(both, "t").customers) == {"acme", "bolt"}
    (tmp_path / "three.toml").write_text(SITE.replace("acme", "cog").replace("'a1'", "'c1'"))
    with pytest.raises(TokenError, match="three.toml has it too: the token of the seat a1"):
        trying.tested_others(place, SITE, [str(tmp_path / "two.toml"), str(tmp_path / "three.toml")])


def test_others_that_the_program_refuses(tmp_path):
    """Each other text has to be a site, and joined they have to be one."""
    (tmp_path / "two.toml").write_text(many(0, 1))
    other = str(tmp_path / "two.toml")
    for refused in (1, 2):
        place = FakePlace(tmp_path, lambda text, db: "why" if text.count("[[customer]]") == refused else "")
        with pytest.raises(TokenError, match="why"):
            trying.tested_others(place, SITE, [other])


@pytest.mark.parametrize("count, is_joined", [(63, True), (64, False)])
def test_more_customers_than_one_site_may_have_are_not_joined(tmp_path, count, is_joined):
    place = FakePlace(tmp_path)
    (tmp_path / "two.toml").write_text(many(0, count))
    trying.tested_others(place, SITE, [str(tmp_path / "two.toml")])
    assert len(place.calls) == 1 + is_joined
