"""A seat's lines in a new text of a site, by Python's own reader of TOML."""

import tomllib

import pytest
from wanekupo.common.errors import PlantError
from wanekupo.common.token_file import TokenSeat
from wanekupo.plant.site.growth import with_seat

ABC = "ba7816bf8f01cfea414140de5dae2223b00361a396177a9cb410ff61f20015ad"
A2 = TokenSeat("a2", "acme", "abc")
BOTH = """# two customers
[[customer]]
name = "acme"   # the first
issuer = ["acme-ca"]
[[customer.pool]]
first = "020000000010"
count = 16
[[customer.seat]]
name = "a1"
token = "{0}"

[[customer]]
issuer = ["bolt-ca"]
name = 'bolt'
""".format("0" * 64)


SITES = [
    BOTH,
    BOTH + "\n\n# the end\n",
    BOTH + "[manager]\ntoken = \"" + "1" * 64 + "\"\n",
    BOTH.replace("[[customer]]", " [[ customer ]]  # c"),
    BOTH.replace("\n", "\r\n"),
    '[manager]\ntoken = "x"\n' + BOTH,
    BOTH.replace('name = "acme"   # the first\n', "note = '''\n[[customer]]\nname = \"acme\"\n'''\nname = \"acme\"\n"),
]


@pytest.mark.parametrize("site", SITES, ids=range(len(SITES)))
@pytest.mark.parametrize("customer, place", [("acme", 0), ("bolt", 1)])
def test_a_seat_more_and_nothing_else(site, customer, place):
    wanted = tomllib.loads(site)
    wanted["customer"][place].setdefault("seat", []).append({"name": "a2", "token": ABC})
    assert tomllib.loads(with_seat(site, TokenSeat("a2", customer, "abc"), "f")) == wanted


@pytest.mark.parametrize("site", [BOTH, BOTH.rstrip(), "\ufeff" + BOTH, "customer = []"], ids=range(4))
def test_a_manager_more(site):
    new = with_seat(site, TokenSeat("@manager", "@manager", "abc"), "f")
    assert new.startswith(site)
    site, new = (tomllib.loads(it.removeprefix("\ufeff")) for it in (site, new))
    assert new == {**site, "manager": {"token": ABC}}


NOWHERE = [
    (BOTH, TokenSeat("c1", "cole", "abc"), "has no customer cole"),
    ('customer = [{name = "acme", issuer = []}]\n', A2, "there is no place"),
    ("customer =", A2, "^f is no site file"),
    ("", A2, "^f is no site file"),
    (BOTH + '[manager]\ntoken = "x"\n', TokenSeat("@manager", "@manager", "abc"), "there is no place"),
]


@pytest.mark.parametrize("site, seat, told", NOWHERE)
def test_no_place_that_is_sure(site, seat, told):
    with pytest.raises(PlantError, match=told):
        with_seat(site, seat, "f")
