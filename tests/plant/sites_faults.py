"""Texts with a fault each, for test_sites.py: sites, and the number that station.toml(5) gives them.

Of a site there is what docs/reference/program.md has the program say, in the words of crates/site_faults/specs; of what
is no TOML the line and the member that a person has to look at.
"""

from common.chip import SITE

A1 = "ba7816bf8f01cfea414140de5dae2223b00361a396177a9cb410ff61f20015ad"
SAMPLE = SITE.read_text(encoding="utf-8")


def changed(text: str, old: str, new: str) -> str:
    """A text with one place of it otherwise."""
    assert text.count(old) == 1, (old, text.count(old))
    return text.replace(old, new)


def sample(old: str, new: str) -> str:
    return changed(SAMPLE, old, new)


def seats(count: int) -> str:
    return "".join(f'[[customer.seat]]\nname = "s{n}"\ntoken = "{n:064x}"\n' for n in range(count))


def pools(count: int) -> str:
    return "".join(f'[[customer.pool]]\nfirst = "02{n:010x}"\ncount = 1\n' for n in range(count))


def customers(count: int) -> str:
    return "".join(f'[[customer]]\nname = "c{n}"\nissuer = []\n' for n in range(count))


ONE = '[[customer]]\nname = "one"\nissuer = []\n'
BOLT_SEAT = 'name = "b1"\ntoken = "2cf24dba5fb0a30e26e83b2ac5b9e29e1b161e5c1fa7425e73043362938b9824"'

# What stands for a token in these texts, and may be in no line that is told.
SECRET = 31415926535897932

NAME, TOKEN = "a name has to be 1 to 32 of A-Z a-z 0-9 . _ -", "token has to be a SHA-256, 64 hexadecimal digits"
COUNT, ONCE = "count has to be 1 to 16777216", "the name is there already"
NO_ARRAY, GROUP = "issuer has to be an array", "an address is a group address, or has more than 48 bits"

# What it is, the text, the line, the member.
NO_TOML = [
    ("an open text", sample('"acme"', '"acme'), 2, "the text"),
    ("no closing mark", sample("[manager]", "[manager"), 19, "the text"),
    ("a member twice", sample('name = "bolt"', 'name = "bolt"\nname = "core"'), 15, "the text"),
    ("a number of 65 bits", f"x = 9223372036854775808\n{SAMPLE}", 1, "x"),
]

# What it is, the text, the number, the program's words behind it.
SITES = [
    *((what, text, 1, "the text is no TOML document") for what, text, _, _ in NO_TOML),
    ("no customers", '[manager]\ntoken = "' + A1 + '"\n', 2, "customer: it has to be an array of tables"),
    ("a customer that is a table", '[customer]\nname = "a"\n', 2, "customer: it has to be an array of tables"),
    ("no issuers", sample('issuer = ["bolt-ca"]\n', ""), 2, f"customer bolt: {NO_ARRAY}"),
    ("an issuer that is no array", sample('issuer = ["bolt-ca"]', 'issuer = "bolt-ca"'), 2,
     f"customer bolt: {NO_ARRAY}"),
    ("an issuer with a blank", sample('"bolt-ca"', '"bolt ca"'), 2, f"customer bolt, issuer 1: {NAME}"),
    ("a name of 33 letters", sample('"bolt"', f'"{"b" * 33}"'), 2, f"customer 2: {NAME}"),
    ("a token of 63 digits", sample(A1, A1[1:]), 2, f"customer acme, seat 1: {TOKEN}"),
    ("a token itself", sample(A1, "abc"), 2, f"customer acme, seat 1: {TOKEN}"),
    ("a token that is a number", sample(f'"{A1}"', str(SECRET)), 2, f"customer acme, seat 1: {TOKEN}"),
    ("a token in the place of a name", sample('"b1"', f'"wanekupo_{SECRET:064x}"'), 2,
     f"customer bolt, seat 1: {NAME}"),
    ("a token in the place of a seat", f'{ONE}seat = ["{SECRET:064x}"]\n', 2, f"customer one, seat 1: {NAME}"),
    ("an escape in a key", sample('token = "' + A1, '"t\\u006fken" = "abc'), 2, f"customer acme, seat 1: {TOKEN}"),
    ("an address with capitals", sample("020000000010", "02000000001A"), 2,
     "customer acme, pool 1: first has to be twelve digits 0-9 a-f"),
    ("a pool of none", ONE + '[[customer.pool]]\nfirst = "020000000010"\ncount = 0\n', 2,
     f"customer one, pool 1: {COUNT}"),
    ("a pool that is too long", ONE + '[[customer.pool]]\nfirst = "020000000010"\ncount = 16777217\n', 2,
     f"customer one, pool 1: {COUNT}"),
    ("a manager without a token", "customer = []\n[manager]\n", 2, f"manager: {TOKEN}"),
    ("a customer twice", sample('"bolt"', '"acme"'), 3, f"customer acme: {ONCE}"),
    ("an issuer twice", sample('"bolt-ca"', '"acme-ca"'), 3, f"customer bolt, issuer 1: {ONCE}"),
    ("a seat twice", sample('"b1"', '"a1"'), 3, f"customer bolt, seat 1: {ONCE}"),
    ("a token twice, in the other case", sample(BOLT_SEAT, f'name = "b1"\ntoken = "{A1.upper()}"'), 3,
     "customer bolt, seat 1: the token is there already"),
    ("the manager's token", sample("9f86d081884c7d659a2feaa0c55ad015a3bf4f1b2b0b822cd15d6c15b0f00a08", A1), 3,
     "manager: the token is there already"),
    ("two pools that meet", sample("020000000020", "020000000013"), 4,
     "customer acme, pool 2: an address lies in a pool before it too"),
    ("a group address", sample("020000000020", "030000000020"), 5, f"customer acme, pool 2: {GROUP}"),
    ("a pool that runs into group addresses", sample("020000000020", "02fffffffffe"), 5,
     f"customer acme, pool 2: {GROUP}"),
    ("a pool beyond 48 bits", sample("020000000020", "fffffffffffe"), 5, f"customer acme, pool 2: {GROUP}"),
    ("65 customers", customers(65), 6, "customer: there are more than 64"),
    ("65 seats", ONE + seats(65), 6, "customer one: it has more than 64 of seat"),
    ("9 issuers", ONE.replace("[]", str([f"i{n}" for n in range(9)])), 6, "customer one: it has more than 8 of issuer"),
    ("17 pools", ONE + pools(17), 6, "customer one: it has more than 16 of pool"),
    ("a text that is too long", SAMPLE + "#" * (1_048_577 - len(SAMPLE)), 6, "the text has more than 1048576 bytes"),
    ("faults 3, 4 and 5 together", sample("020000000020", "030000000013").replace('"b1"', '"a1"'), 3,
     f"customer bolt, seat 1: {ONCE}"),
]  # fmt: skip
