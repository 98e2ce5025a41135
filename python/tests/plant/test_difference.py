"""What one site gives more than another, by the table of a growth in docs/reference/files.md; what two may share."""

import pytest
from wanekupo.common.site_file import Site, SiteCustomer, read_site
from wanekupo.plant.site.difference import counted, gains, joined, listed, of_pool, shared

ONE, TWO, THREE, FOUR = ("%064x" % number for number in (0xA1, 2, 3, 4))
ACME = SiteCustomer("acme", ["acme-ca"], [(0x020000000010, 4), (0x020000000020, 4)], {"a1": ONE})
BOLT = SiteCustomer("bolt", ["bolt-ca"], [], {"b1": TWO})


def with_(customer, **members):
    return SiteCustomer(**{**customer.__dict__, **members})


def site_of(*customers, manager=THREE):
    return Site({it.name: it for it in customers}, manager)


OLD = site_of(ACME, BOLT)


@pytest.mark.parametrize("new, told", [
    (OLD, []),
    (site_of(BOLT, ACME), []),
    (site_of(with_(ACME, issuers=["n", "acme-ca"]), BOLT), ["acme gets 1 issuer (n)"]),
    (site_of(with_(ACME, seats={"a9": FOUR, "a1": ONE}), BOLT), ["acme gets 1 seat (a9)"]),
    (site_of(with_(ACME, pools=[*ACME.pools, (0x020000000030, 65536)]), BOLT),
     ["acme gets 65,536 addresses (020000000030 to 02000001002f)"]),
    (site_of(ACME, with_(BOLT, pools=[(0x020000000030, 1)])), ["bolt gets 1 address (020000000030 to 020000000030)"]),
    (site_of(with_(ACME, issuers=["acme-ca", "n", "m"], seats={"a1": ONE, "a2": FOUR}, pools=[*ACME.pools, (0, 2)]),
     BOLT),
     ["acme gets 2 issuers (n, m), 1 seat (a2) and 2 addresses (000000000000 to 000000000001)"]),
    (site_of(ACME, BOLT, SiteCustomer("cog", ["c"], [], {})), ["cog is a new customer with 1 issuer (c)"]),
    (site_of(ACME, BOLT, SiteCustomer("cog", [], [], {})), ["cog is a new customer"]),
])  # fmt: skip
def test_gains(new, told):
    assert gains(OLD, new) == told


def test_a_manager_is_gained():
    assert gains(site_of(ACME, manager=""), site_of(ACME)) == ["the site gets a manager"]


@pytest.mark.parametrize("first, count, is_met", [
    (0x0F, 1, False), (0x0F, 2, True), (0x10, 1, True), (0x13, 1, True), (0x14, 1, False), (0x0, 0x100, True),
    (0x11, 2, True), (0x13, 9, True), (0x14, 12, False), (0x14, 13, True),
])  # fmt: skip
def test_shared_addresses(first, count, is_met):
    other = site_of(SiteCustomer("cog", [], [(0x020000000000 + first, count)], {}), manager="")
    for one, two in ((OLD, other), (other, OLD)):
        assert bool(shared(one, two)) == is_met


def test_the_addresses_of_both_are_told():
    other = site_of(SiteCustomer("cog", [], [(0x020000000012, 15)], {}), manager="")
    assert shared(OLD, other) == [
        "the addresses 020000000012 to 020000000013, which are cog's there",
        "the addresses 020000000020 to 020000000020, which are cog's there",
    ]


@pytest.mark.parametrize("other, told", [
    (site_of(SiteCustomer("acme", [], [], {}), manager=""), "the customer acme"),
    (site_of(SiteCustomer("cog", ["x", "bolt-ca"], [], {}), manager=""),
     "the issuer bolt-ca of bolt, which is cog's there"),
    (site_of(SiteCustomer("cog", seats={"x": FOUR, "a1": "f" * 64}), manager=""), "the seat a1, which is cog's there"),
    (site_of(SiteCustomer("cog", [], [], {"x": FOUR, "y": TWO}), manager=""), "the token of the seat b1"),
    (site_of(SiteCustomer("cog", [], [], {"x": THREE}), manager=""), "the token of the manager"),
    (site_of(manager=ONE), "the token of the seat a1"),
    (site_of(manager=THREE), "the token of the manager"),
])  # fmt: skip
def test_shared(other, told):
    assert shared(OLD, other) == [told]


@pytest.mark.parametrize("other", [
    site_of(manager=""), site_of(SiteCustomer("Acme", ["ACME-CA"], [], {"A1": FOUR}), manager="f" * 64),
    site_of(SiteCustomer("a1", ["acme"], [], {"acme-ca": FOUR}), manager=""),
])  # fmt: skip
def test_nothing_is_shared(other):
    """Names of different kinds may be alike, and case tells them apart."""
    assert shared(OLD, other) == [] and shared(site_of(BOLT, manager=""), site_of(ACME, manager="")) == []


def test_joined_is_all_customers_without_managers():
    cog = SiteCustomer("cog", ["x", "y"], [(0x020000000030, 2)], {"c1": FOUR, "c2": "f" * 64})
    assert read_site(joined([OLD, site_of(cog)]), "t") == site_of(ACME, BOLT, cog, manager="")
    assert read_site(joined([Site(), Site()]), "t") == Site()


def test_words():
    assert [counted(1, "seat"), counted(2, "seat"), counted(0, "seat")] == ["1 seat", "2 seats", "0 seats"]
    assert [counted(1, "address", "addresses"), counted(1000, "address", "addresses")] == ["1 address",
        "1,000 addresses"]
    assert [listed(["a"]), listed(["a", "b"]), listed(["a", "b", "c"])] == ["a", "a and b", "a, b and c"]
    assert [of_pool((0x0200000000FF, 2)), of_pool((10, 1))] == ["0200000000ff to 020000000100",
        "00000000000a to 00000000000a"]
