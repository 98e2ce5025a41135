"""Texts of sites that grew from the sample's, that are other sites, and that are none."""

import hashlib

from common.chip import SITE, Failed

SAMPLE = SITE.read_text(encoding="utf-8")

# What the sample site is made of.
NAME, ISSUER, OTHER_ISSUER = 'name = "acme"\n', 'issuer = ["acme-ca"]\n', 'issuer = ["bolt-ca"]\n'
POOLS = [f'[[customer.pool]]\nfirst = "0200000000{place}"\ncount = 4\n' for place in (10, 20, 30)]
A1 = "ba7816bf8f01cfea414140de5dae2223b00361a396177a9cb410ff61f20015ad"
TEST = "9f86d081884c7d659a2feaa0c55ad015a3bf4f1b2b0b822cd15d6c15b0f00a08"
MANAGER = f'[manager]\ntoken = "{TEST}"\n'
SEAT = f'[[customer.seat]]\nname = "a1"\ntoken = "{A1}"\n'
ACME, BOLT = (f"[[customer]]\n{section}" for section in SAMPLE.removesuffix(MANAGER).split("[[customer]]\n")[1:])


def token_of(word):
    """The SHA-256 of a token."""
    return hashlib.sha256(word.encode()).hexdigest()


def seat(name):
    """A seat with a token of its own."""
    return f'[[customer.seat]]\nname = "{name}"\ntoken = "{token_of(name)}"\n'


def section(name):
    """A customer with an issuer and a seat."""
    return f'[[customer]]\nname = "{name}"\nissuer = ["{name}-ca"]\n{seat(f"seat-of-{name}")}'


def changed(*pairs, text=SAMPLE):
    """The sample with these texts in place of those, each of which stands in it once."""
    for old, new in pairs:
        if text.count(old) != 1:
            raise Failed(f"the sample site has {old!r} {text.count(old)} times")
        text = text.replace(old, new)
    return text


# Texts of which a store under the sample's may be one: the first are growths of it, and the sample's is one of theirs
# where it says so.
GROWN = [
    ("a comment more", f"# the second text\n{SAMPLE}", True),
    ("the customers in another order", f"{BOLT}{ACME}{MANAGER}", True),
    ("a member that isn't named", changed((NAME, f'{NAME}city = "Ghent"\n')), True),
    ("a third pool at the end", changed((POOLS[1], POOLS[1] + POOLS[2])), False),
    ("a third customer, and a seat more for bolt", f'{ACME}{BOLT}{seat("b2")}{section("core")}{MANAGER}', False),
    ("an issuer more, in front", changed((ISSUER, 'issuer = ["acme-2", "acme-ca"]\n')), False),
    ("a seat more for a token that leaked", changed((SEAT, SEAT + seat("a2"))), False),
]

OTHERS = [
    ("acme's pools exchanged", changed((POOLS[0] + POOLS[1], POOLS[1] + POOLS[0]))),
    ("a pool in front of the others", changed((POOLS[0], POOLS[2] + POOLS[0]))),
    ("a pool between the others", changed((POOLS[1], POOLS[2] + POOLS[1]))),
    ("a longer pool", changed((POOLS[1], POOLS[1].replace("count = 4", "count = 8")))),
    ("a pool less", changed((POOLS[1], ""))),
    ("a pool that passed to bolt", changed((POOLS[1], ""), (OTHER_ISSUER, OTHER_ISSUER + POOLS[1]))),
    ("a1 with another token", changed((A1, token_of("another")))),
    ("a1 under another name", changed(('name = "a1"', 'name = "a9"'))),
    ("a1 gone, and another seat", changed((SEAT, seat("a2")))),
    ("an issuer less", changed((ISSUER, "issuer = []\n"))),
    (
        "an issuer that passed to bolt",
        changed((ISSUER, "issuer = []\n"), (OTHER_ISSUER, 'issuer = ["bolt-ca", "acme-ca"]\n')),
    ),
    ("acme under another name", changed((NAME, 'name = "acme-2"\n'))),
    ("a customer less", f"{ACME}{MANAGER}"),
    ("no customer", f"customer = []\n{MANAGER}"),
    ("no manager", changed((MANAGER, ""))),
    ("the manager with another token", changed((TEST, token_of("another")))),
]

# Texts that are no site, with their faults.
NO_SITES = [
    ("no TOML", "customer", 1),
    ("a customer twice", f"{ACME}{BOLT}{BOLT}{MANAGER}", 3),
    ("a pool that meets another", changed((POOLS[1], POOLS[1] + POOLS[1])), 4),
]
