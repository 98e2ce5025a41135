"""The one reader of a site file: what a text gives, by docs/reference/files.md, and how one that is none is told."""

from pathlib import Path

import pytest
from wanekupo.common.site_file import Site, SiteCustomer, SiteFileError, digest_of, read_site, read_site_file

ABC = "ba7816bf8f01cfea414140de5dae2223b00361a396177a9cb410ff61f20015ad"  # SHA-256 of `abc`, as FIPS 180 has it
SITE = f"""[[customer]]
name = "acme"
issuer = ["x", "y"]
more = 1
[[customer.pool]]
first = "0200000000ff"
count = 7
[[customer.seat]]
name = "a1"
token = "{ABC.upper()}"
[[customer]]
name = "bolt"
issuer = []
"""
ACME, BOLT = SiteCustomer("acme", ["x", "y"], [(0x0200000000FF, 7)], {"a1": ABC}), SiteCustomer("bolt")
SITES = [
    (SITE, Site({"acme": ACME, "bolt": BOLT})),
    (f"{SITE}[manager]\ntoken = '{ABC.upper()}'\n", Site({"acme": ACME, "bolt": BOLT}, ABC)),
    ("\ufeff" + SITE.replace("\n", "\r\n"), Site({"acme": ACME, "bolt": BOLT})),
    ("customer = []\n", Site()),
    ("customer = [{name = 'bolt', issuer = [], seat = [], pool = []}]", Site({"bolt": BOLT})),
]


@pytest.mark.parametrize("text, site", SITES, ids=range(len(SITES)))
def test_what_a_text_gives(text: str, site: Site, tmp_path: Path) -> None:
    assert read_site(text, "t") == site
    (tmp_path / "f").write_bytes(text.encode())
    assert read_site_file(tmp_path / "f") == read_site_file(str(tmp_path / "f")) == site


def test_bytes_that_are_no_text(tmp_path: Path) -> None:
    (tmp_path / "f").write_bytes(b"customer = []\n# \xe9\n")
    with pytest.raises(SiteFileError, match="/f is no site file: it isn't UTF-8$"):
        read_site_file(tmp_path / "f")


def test_the_customer_of_each_seat() -> None:
    assert read_site(SITE, "t").seats() == {"a1": ACME} and Site().seats() == {}


def test_digest() -> None:
    assert digest_of("abc") == ABC


NO_TOML = ["customer =", "x = " + 5000 * "[" + 5000 * "]", "x = " + 5000 * "9", 'x = "\\e"\ncustomer = []']
NO_SITES = [
    "", "customer = 1", "customer = [1]", 'customer = ["a"]', "customer = [{}]", "customer = [{ name = 'a' }]",
    SITE.replace('issuer = ["x", "y"]\n', ""), SITE.replace("count = 7\n", ""), SITE.replace("count = 7", "count = []"),
    SITE.replace('"0200000000ff"', f'"wanekupo_{ABC}"'), '[[customer]]\nname = "a"\nissuer = []\nseat = 5\n',
    SITE.replace(f'"{ABC.upper()}"', "5").replace('name = "a1"\n', ""), "manager = 5\ncustomer = []",
    "customer = []\n[manager]\ntoken = 5\n", "customer = []\n[manager]\n",
]  # fmt: skip


@pytest.mark.parametrize("text", NO_TOML, ids=range(len(NO_TOML)))
def test_no_toml_is_told_in_a_sentence(text: str) -> None:
    """TOML 1.1, which the program reads, is told, too."""
    with pytest.raises(SiteFileError, match=r"^my\.toml is no site file that can be read as TOML 1\.0: .+"):
        read_site(text, "my.toml")


@pytest.mark.parametrize("text", NO_SITES, ids=range(len(NO_SITES)))
def test_no_site_is_told_without_its_words(text: str) -> None:
    """Which may be a token in a wrong place. Where it is wrong is the program's to say."""
    with pytest.raises(SiteFileError, match=r"^my\.toml is no site file: `station check-site` says where$") as error:
        read_site(text, "my.toml")
    assert error.value.status == 1
