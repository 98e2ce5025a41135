"""What a site gives more than the one that it grew from, in words; and what two stores' sites share."""

from wanekupo.common.site_file import Pool, Site, SiteCustomer


def counted(count: int, one: str, more: str = "") -> str:
    return f"{count:,} {one if count == 1 else more or one + 's'}"


def listed(parts: list[str]) -> str:
    return parts[0] if len(parts) == 1 else f"{', '.join(parts[:-1])} and {parts[-1]}"


def of_pool(pool: Pool) -> str:
    return f"{pool[0]:012x} to {pool[0] + pool[1] - 1:012x}"


def parts_of(issuers: list[str], seats: list[str], pools: list[Pool]) -> list[str]:
    """What a customer gets, a part for each kind."""
    parts = []
    if issuers:
        parts.append(f"{counted(len(issuers), 'issuer')} ({', '.join(issuers)})")
    if seats:
        parts.append(f"{counted(len(seats), 'seat')} ({', '.join(seats)})")
    if pools:
        ranges = ", ".join(of_pool(pool) for pool in pools)
        parts.append(f"{counted(sum(count for _, count in pools), 'address', 'addresses')} ({ranges})")
    return parts


def gains(old: Site, new: Site) -> list[str]:
    """What a store under the old site would get, of which the new one is a growth."""
    found = []
    for name, customer in new.customers.items():
        before = old.customers.get(name, SiteCustomer(name))
        issuers = [it for it in customer.issuers if it not in before.issuers]
        seats = [it for it in customer.seats if it not in before.seats]
        parts = parts_of(issuers, seats, customer.pools[len(before.pools) :])
        if name not in old.customers:
            found.append(f"{name} is a new customer" + (f" with {listed(parts)}" if parts else ""))
        elif parts:
            found.append(f"{name} gets {listed(parts)}")
    return found + (["the site gets a manager"] if new.manager and not old.manager else [])


def shared(one: Site, other: Site) -> list[str]:
    """What two sites of two stores have in common, and may not."""
    found = [f"the customer {name}" for name in one.customers if name in other.customers]
    issuers = {it: customer.name for customer in other.customers.values() for it in customer.issuers}
    seats, tokens = other.seats(), {it for customer in other.customers.values() for it in customer.seats.values()}
    if other.manager:
        tokens.add(other.manager)
    for customer in one.customers.values():
        found += [f"the issuer {it} of {customer.name}, which is {issuers[it]}'s there" for it in customer.issuers
                  if it in issuers]  # fmt: skip
        found += [f"the seat {it}, which is {seats[it].name}'s there" for it in customer.seats if it in seats]
        found += [f"the token of the seat {it}" for it, token in customer.seats.items() if token in tokens]
        found += meeting(customer, other)
    if one.manager and one.manager in tokens:
        found.append("the token of the manager")
    return found


def meeting(customer: SiteCustomer, other: Site) -> list[str]:
    """The addresses of a customer that are somebody's of another site."""
    found = []
    for first, count in customer.pools:
        for owner in other.customers.values():
            for begin, many in owner.pools:
                if first < begin + many and begin < first + count:
                    least, most = max(first, begin), min(first + count, begin + many)
                    found.append(f"the addresses {of_pool((least, most - least))}, which are {owner.name}'s there")
    return found


def joined(sites: list[Site]) -> str:
    """The text of all customers of several sites, without their managers, as none of them is served."""
    lines = []
    for customer in (it for site in sites for it in site.customers.values()):
        issuers = ", ".join(f'"{it}"' for it in customer.issuers)
        lines += ["[[customer]]", f'name = "{customer.name}"', f"issuer = [{issuers}]"]
        for first, count in customer.pools:
            lines += ["[[customer.pool]]", f'first = "{first:012x}"', f"count = {count}"]
        for seat, token in customer.seats.items():
            lines += ["[[customer.seat]]", f'name = "{seat}"', f'token = "{token}"']
    return "\n".join([*(lines or ["customer = []"]), ""])
