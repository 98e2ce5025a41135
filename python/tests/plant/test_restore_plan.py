"""What a restore goes by: requests that stand, tokens, seats, and who may be left out."""

import hashlib
import os
import time
from pathlib import Path

import pytest
from wanekupo.plant.restore.plan import (
    CustomerPlan, RestoreError, SeatJournal, asked_of, check_left_out, choose_seats, customers_of, name_customer,
    requests_of_seats, standing, tokens_at,
)  # fmt: skip
from wanekupo.common.token_file import Outer, TokenSeat, Tokens, tokens_text
from wanekupo.common.errors import StationError

AT = "2026-11-29T00:00:0{}Z"


def asked(number, digest="d", at=0, path="/v1/ship", **members):
    return {"at": AT.format(at), "path": path, "asked": {**members, "nr": number}, "digest": digest}


def replied(number, status=200, at=0, **reply):
    return {"at": AT.format(at), "nr": number, "status": status, "reply": reply}


def placed(*lines, file="f"):
    return [(file, number, line) for number, line in enumerate(lines, 1)]


def customer(name="acme", seats=("a1",), tokens=None, journals=()):
    digests = {it: hashlib.sha256((tokens or {}).get(it, it).encode()).hexdigest() for it in seats}
    return CustomerPlan(name, digests, True, [SeatJournal(*it) for it in journals])


# What stands: the number, the digests, and whether the last of them is done.
STANDING = (
    ("asked and answered", [asked(1), replied(1)], {1: [("d", True)]}),
    ("no reply", [asked(1), replied(1), asked(2, "e")], {1: [("d", True)], 2: [("e", False)]}),
    ("sent again", [asked(1), asked(1), replied(1)], {1: [("d", True)]}),
    ("refused, and another", [asked(1), replied(1, 409), asked(1, "e"), replied(1)], {1: [("e", True)]}),
    ("refused", [asked(1), replied(1, 404)], {}),
    ("a late copy", [asked(1, "d"), replied(1, 409), asked(1, "late"), replied(1)], {1: [("late", True)]}),
    (
        "another store",
        [asked(1), replied(1), asked(2), replied(2), {"at": AT.format(0), "resynchronized": 2}, asked(2, "new")],
        {1: [("d", True)], 2: [("new", False)]},
    ),
    (
        "a higher number takes nothing away",
        [asked(1), replied(1), {"at": AT.format(0), "resynchronized": 9}, asked(9), replied(9)],
        {1: [("d", True)], 9: [("d", True)]},
    ),
    ("a reply without its request", [replied(4)], {}),
)


@pytest.mark.parametrize("name, lines, expected", STANDING, ids=[it[0] for it in STANDING])
def test_what_stands(name, lines, expected):
    found = standing(placed(*lines))
    assert {nr: [(it.digest, it.is_done) for it in those] for nr, those in found.items()} == expected


def test_lines_that_go_on_cost_no_more_where_there_are_many():
    """A minute and more where each of them looked at each number."""
    lines = [asked(it) for it in range(1, 20_001)] + 20_000 * [{"at": AT.format(1), "resynchronized": 2**53 - 1}]
    begun = time.process_time()
    assert len(standing(placed(*lines, {"at": AT.format(2), "resynchronized": 3}))) == 2
    assert time.process_time() - begun < 5


def test_a_place_is_safe_to_print():
    (request,) = standing(placed(asked(1), file="all/\x1b[2J.journal"))[1]
    assert request.place == "line 1 of all/\\x1b[2J.journal"


def test_two_journals_of_a_seat_are_read_by_their_times_each_in_its_order():
    """The clock of the first went back between a request and its refusal: it is refused all the same."""
    first = placed(asked(1, at=5), replied(1, 409, at=3), asked(1, "e", at=6), file="one")
    second = placed(asked(2, "f", at=8), replied(2, at=9), file="two")
    it = customer(journals=[("a1", first), ("a1", second), ("", placed(asked(7)))])
    found = requests_of_seats([it])
    assert {seat: {nr: [one.digest for one in those] for nr, those in own.items()} for seat, own in found.items()} == {
        "a1": {1: ["e"], 2: ["f"]}
    }


RECORD = {"issuer": "acme-ca", "serial": "A1", "key_sha256": "00" * 32, "chip": "24", "mac": None}
BAD = (
    [asked(1, path="/v1/map")],
    [asked(1, path="/v1/order", name=7)],
    [asked(1, path="/v1/identity", chip="24"), replied(1, **{**RECORD, "serial": ["A1"]})],
    [asked(1, path="/v1/identity", chip="24"), replied(1, **{**RECORD, "serial": "A\x1b"})],
    [asked(1, path="/v1/identity", chip="24"), replied(1, **{**RECORD, "mac": {}})],
    [asked(1, path="/v1/identity", chip="24"), replied(1, chip="24")],
    [asked(1, chip="24"), replied(1, state=["shipped"])],
    [asked(1, chip="24"), replied(1, state="\x1b[2J")],
    [asked(1), replied(2)],
    [asked(1, path="/v1/identity", chip="24"), replied(1, **RECORD), asked(2, path="/v1/identity", chip="25"),
     replied(2, **{**RECORD, "chip": "25"})],
    [asked(1, path="/v1/order", name="n" * 200_000)],
    [asked(1, path="/v1/map", text="\u00e4" * 33_000)],  # two bytes of a letter
    [asked(1, path="/v1/import", issuer="acme-ca", csv="x" * 65_536)],
    [asked(1, path="/v1/map", text="\ud800")],
    [asked(1, chip="2" * 65_536), replied(1, state="shipped")],
    [asked(1, path="/v1/identity", chip="24"), replied(1, **{**RECORD, "serial": "A" * 65_000})],
)  # fmt: skip


@pytest.mark.parametrize("lines", BAD)
def test_lines_that_no_station_writes_are_named(lines):
    with pytest.raises(RestoreError) as found, name_customer("acme"):
        asked_of(customer(journals=[("a1", placed(*lines, file="all/a1.journal"))]))
    assert str(found.value).startswith("acme: ") and "of all/a1.journal" in str(found.value)
    assert str(found.value).endswith("The others go on by --leave-out acme") and str(found.value).isprintable()
    assert len(str(found.value)) < 500


def test_the_longest_bodies_that_the_server_reads_are_asked_again():
    head = len('{"nr":1,"text":""}')
    for text in ("x" * (65_536 - head), "\u00e4" * ((65_536 - head) // 2)):
        one = customer(journals=[("a1", placed(asked(1, path="/v1/map", text=text)))])
        assert [it.members["text"] for it in asked_of(one)] == [text]
        one = customer(journals=[("a1", placed(asked(1, path="/v1/map", text=text + "x")))])
        with pytest.raises(StationError, match="isn't as a station writes it"):
            asked_of(one)


def test_requests_of_all_journals_by_their_times():
    lines = [asked(1, path="/v1/identity", chip="24", at=1), replied(1, at=2, **RECORD)]
    it = customer(journals=[("a1", placed(asked(5, at=3), file="one")), ("a2", placed(*lines, file="two"))])
    assert [(one.at, one.status, one.file, one.line) for one in asked_of(it)] == [
        (AT.format(1), 200, "two", 2), (AT.format(3), None, "one", 1)
    ]  # fmt: skip


def test_an_error_of_the_client_has_its_advice_and_the_way_on():
    with pytest.raises(RestoreError) as found, name_customer("bolt"):
        raise StationError("it is so", "Do this.")
    assert str(found.value) == "bolt: it is so. Do this. The others go on by --leave-out bolt"


def test_no_memory_is_told_by_the_customer():
    with pytest.raises(RestoreError, match="^bolt: no memory is left .* by --leave-out bolt$"), name_customer("bolt"):
        raise MemoryError


@pytest.mark.parametrize("kind", [KeyError, RecursionError])
def test_what_nobody_thought_of_is_told_by_the_customer(kind):
    told = rf"^bolt: its journals have what no station writes \({kind.__name__}.* bolt$"
    with pytest.raises(RestoreError, match=told), name_customer("bolt"):
        raise kind("x" * 900)
    with pytest.raises(OSError, match="full"), name_customer("bolt"):  # the disk is nobody's
        raise OSError("full")


def test_customers(tmp_path):
    site = tmp_path / "site.toml"
    site.write_text('[[customer]]\nname = "acme"\nissuer = ["x"]\n[[customer.seat]]\nname = "a1"\ntoken = "AB"\n'
                    '[[customer]]\nname = "bolt"\nissuer = []\n', "utf-8")  # fmt: skip
    found = customers_of(site)
    assert {name: (it.seats, it.can_order) for name, it in found.items()} == {
        "acme": ({"a1": "ab"}, True), "bolt": ({}, False)
    }  # fmt: skip
    site.write_text("customer = 3")
    for path in (site, tmp_path / "none"):
        with pytest.raises(RestoreError, match="is no site file|No such file"):
            customers_of(path)


# Tokens.


def written(path, *outers, seats=("a1",)):
    tokens = Tokens({it: TokenSeat(it, "acme", f"inner-{it}") for it in seats}, list(outers))
    path.write_text(tokens_text(tokens), encoding="ascii")
    path.chmod(0o600)
    return path


def outer(seat, **more):
    members = {"looks": False, "mark": "0" * 12, "since": "2026-01-01T00:00", "text": "wanekupo_" + "0" * 64}
    return Outer(f"{seat}:1", 1, seat, **{**members, **more})


def test_tokens(tmp_path):
    folder = tmp_path / "tokens"
    folder.mkdir()
    (folder / "a1.token").write_text("abc\n")
    (folder / "a2.txt").write_text("no")
    assert tokens_at(folder) == ({"a1": "abc"}, [])
    assert tokens_at(tmp_path / "nothing") == ({}, [])
    path = written(tmp_path / "tokens.conf", outer("a1"))
    assert tokens_at(path) == ({"a1": "inner-a1"}, [outer("a1")])
    path = written(tmp_path / "tokens.conf", outer("a1", text="", ended="2026-02-01T00:00"))
    assert tokens_at(path) == ({"a1": "inner-a1"}, [])
    path.write_text(path.read_text() + "# by hand\n")
    with pytest.raises(RestoreError, match="was changed by hand"):
        tokens_at(path)
    path.chmod(0o644)
    with pytest.raises(RestoreError, match="may be read by others"):
        tokens_at(path)


OUTERS = (
    ("a token", outer("a1"), True),
    ("a certificate", outer("a1", text="", subject="CN=pc7"), True),
    ("one with an end that may be past", outer("a1", until="2026-01-02T00:00"), True),
    ("one that looks", outer("a1", looks=True), False),
    ("another customer's", outer("b1"), False),
)


@pytest.mark.parametrize("name, one, is_refused", OUTERS, ids=[it[0] for it in OUTERS])
def test_a_customer_is_left_out_whose_stations_can_not_go_on(tmp_path, name, one, is_refused):
    both = {"acme": customer(), "bolt": customer("bolt", ("b1",))}
    at = written(tmp_path / "tokens.conf")
    if is_refused:
        with pytest.raises(RestoreError, match="First end the tokens of a1: station-token revoke a1"):
            check_left_out(["acme"], both, [one], at)
    else:
        check_left_out(["acme"], both, [one], at)


def test_who_is_left_out_is_known_and_the_tokens_too(tmp_path):
    at = written(tmp_path / "tokens.conf")
    with pytest.raises(RestoreError, match="the site file has no such customer"):
        check_left_out(["acne"], {"acme": customer()}, [], at)
    for place in (tmp_path, tmp_path / "nothing"):
        with pytest.raises(RestoreError, match="needs the file of station-token"):
            check_left_out(["acme"], {"acme": customer()}, [], place)
    check_left_out([], {"acme": customer()}, [outer("a1")], tmp_path)
    with pytest.raises(RestoreError, match="the tokens of a, b, c, d, e, f: station-token revoke a$"):
        check_left_out(["acme"], {"acme": customer(seats="fedcba")}, map(outer, "fedcba"), at)


# The seats with tokens, those with a journal, those that are named; who is chosen, and whether that is warned of.
CHOICES = (
    ("the one of restores", ("a1", "restore-a"), ("a1", "restore-a"), ("a1",), [], "restore-a", False),
    ("one that is free", ("a1", "a2"), ("a1", "a2"), ("a1",), [], "a2", False),
    ("the only one", ("a1", "a2"), ("a1",), ("a1",), [], "a1", True),
    ("the named one", ("a1", "restore-a"), ("a1", "restore-a"), ("a1",), ["a1"], "a1", True),
    ("the first of two", ("a3", "a2"), ("a2", "a3"), ("a1",), [], "a2", False),
)


@pytest.mark.parametrize("name, seats, known, busy, wished, chosen, is_told", CHOICES, ids=[it[0] for it in CHOICES])
def test_the_seat_by_which_a_customer_is_asked(name, seats, known, busy, wished, chosen, is_told):
    tokens = {it: f"token of {it}" for it in known}
    acme = customer(seats=seats, tokens=tokens, journals=[(it, []) for it in busy])
    told = choose_seats({"acme": acme}, tokens, wished, Path("tokens"))
    assert (acme.seat, acme.token, bool(told)) == (chosen, f"token of {chosen}", is_told)


def test_a_customer_without_a_token_is_told_and_one_without_journals_needs_none():
    acme, bolt = customer(journals=[("a1", [])]), customer("bolt", ("b1",))
    with pytest.raises(RestoreError, match="no token of acme is in tokens"):
        choose_seats({"acme": acme, "bolt": bolt}, {"a1": "another's"}, [], Path("tokens"))
    assert choose_seats({"bolt": bolt}, {}, [], Path("tokens")) == [] and not bolt.seat


def test_an_outer_token_in_a_folder_is_named():
    """`station-site` names the files of outer ones SEAT.token too."""
    acme = customer(journals=[("a1", [])])
    with pytest.raises(RestoreError, match=r"a1\.token there is an outer one: station-token inner a1 --to FILE"):
        choose_seats({"acme": acme}, {"a1": "wanekupo_" + "0" * 64}, [], Path("tokens"))
    with pytest.raises(RestoreError) as error:
        choose_seats({"acme": acme}, {"a1": "another's"}, [], Path("tokens"))
    assert "outer" not in str(error.value)


def test_a_folder_of_tokens_has_plain_files_of_its_users_own(tmp_path):
    """Root reads them: it follows no link there, and waits for no pipe."""
    (tmp_path / "a1.token").write_text("abc\n")
    assert tokens_at(tmp_path) == ({"a1": "abc"}, [])
    os.mkfifo(tmp_path / "b1.token")
    with pytest.raises(RestoreError, match="is no plain file"):
        tokens_at(tmp_path)
    (tmp_path / "b1.token").unlink()
    (tmp_path / "b1.token").symlink_to("a1.token")
    with pytest.raises(RestoreError):
        tokens_at(tmp_path)
    (tmp_path / "b1.token").unlink()
    tmp_path.chmod(0o777)
    with pytest.raises(RestoreError, match="others may write it"):
        tokens_at(tmp_path)
