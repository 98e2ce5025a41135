"""What a site file gives: its customers, with their issuers, pools and seats, and its manager.

Whether a text is a site the program alone says (`station check-site`). This reads it as TOML 1.0.
"""

import hashlib
import tomllib
from dataclasses import dataclass, field
from pathlib import Path
from typing import Any

from wanekupo.common.errors import PlantError
from wanekupo.common.files import small_bytes

MOST_BYTES = 1 << 20  # of a text
MARK = "\ufeff"  # of the order of bytes, which may stand in front of a text

# The first address of a pool, and how many it has.
Pool = tuple[int, int]


class SiteFileError(PlantError):
    """Why a text can't be read as a site."""


@dataclass
class SiteCustomer:
    """A customer. A seat's name leads to the SHA-256 of its token, in lowercase digits."""

    name: str
    issuers: list[str] = field(default_factory=list)
    pools: list[Pool] = field(default_factory=list)
    seats: dict[str, str] = field(default_factory=dict)


@dataclass
class Site:
    """The customers by their names, and the SHA-256 of the manager's token, or nothing where there is none."""

    customers: dict[str, SiteCustomer] = field(default_factory=dict)
    manager: str = ""

    def seats(self) -> dict[str, SiteCustomer]:
        """The customer of each seat."""
        return {seat: customer for customer in self.customers.values() for seat in customer.seats}


def digest_of(token: str) -> str:
    return hashlib.sha256(token.encode()).hexdigest()


def read_site(text: str, title: str) -> Site:
    """The site of a text, which an error calls by its title."""
    try:
        document = tomllib.loads(text.removeprefix(MARK))
    except (ValueError, RecursionError) as error:  # a number of too many digits is a ValueError, too
        raise SiteFileError(f"{title} is no site file that can be read as TOML 1.0: {error}") from None
    try:
        customers = [_customer(table) for table in document["customer"]]
        manager = document["manager"]["token"].lower() if "manager" in document else ""
    except (LookupError, TypeError, AttributeError, ValueError):  # whose words may have a token
        raise SiteFileError(f"{title} is no site file: `station check-site` says where") from None
    return Site({it.name: it for it in customers}, manager)


def read_site_file(path: str | Path) -> Site:
    try:
        return read_site(small_bytes(path, MOST_BYTES).decode(), str(path))
    except UnicodeDecodeError:
        raise SiteFileError(f"{path} is no site file: it isn't UTF-8") from None


def _customer(table: dict[str, Any]) -> SiteCustomer:
    pools = [(int(pool["first"], 16), int(pool["count"])) for pool in table.get("pool", ())]
    seats = {str(seat["name"]): str(seat["token"]).lower() for seat in table.get("seat", ())}
    return SiteCustomer(str(table["name"]), [str(it) for it in table["issuer"]], pools, seats)
