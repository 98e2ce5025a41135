"""Puts more into the text of a site, where its form wants it, and leaves all else of the text as it is.

A new text is taken only where tomllib reads the wanted site from it: the site of before, with these items behind the
others of their kind. Where no place is sure, the lines are told, for a person.
"""

import copy
import tomllib
from collections.abc import Iterator
from typing import Any

from wanekupo.common.site_file import MARK, digest_of, read_site
from wanekupo.common.token_file import TokenError, TokenSeat
from wanekupo.plant.site.positions import Path, Places, places_of


def value_of(item: object) -> str:
    """A value within a line."""
    if isinstance(item, dict):
        return "{ " + ", ".join(f"{name} = {value_of(value)}" for name, value in item.items()) + " }"
    if isinstance(item, list):
        return "[" + ", ".join(value_of(value) for value in item) + "]"
    return f'"{item}"' if isinstance(item, str) else str(item)


def tables_of(kind: str, items: list[dict[str, Any]]) -> str:
    """Items as tables with a header each."""
    lines = []
    for item in items:
        lines += [f"[[{kind}]]", *(f"{name} = {value_of(value)}" for name, value in item.items())]
    return "".join(f"{line}\n" for line in lines)


def customer_lines(customer: dict[str, Any]) -> str:
    """The section of a new customer."""
    head = f'[[customer]]\nname = "{customer["name"]}"\nissuer = {value_of(customer["issuer"])}\n'
    return head + "".join(tables_of(f"customer.{kind}", customer.get(kind, [])) for kind in ("pool", "seat"))


def lines_of(seat: TokenSeat) -> str:
    """What a site file says of a seat, or of the manager."""
    digest = digest_of(seat.inner)
    if seat.is_manager():
        return f'[manager]\ntoken = "{digest}"\n'
    return tables_of("customer.seat", [{"name": seat.seat, "token": digest}])


def with_seat(text: str, seat: TokenSeat, title: str) -> str:
    """The text with a seat more, or with a manager, where there was none."""
    own = {"token": digest_of(seat.inner)}
    if not seat.is_manager():
        return with_items(text, seat.customer, "seat", [{"name": seat.seat, **own}], title)
    document, _ = parsed(text, title)
    return taken([ended(text) + lines_of(seat)], {"manager": own, **document}, title, lines_of(seat))


def ended(text: str) -> str:
    """A text behind which a line may stand."""
    return text if text.endswith("\n") else text + "\n"


def with_customer(text: str, customer: dict[str, Any], title: str) -> str:
    """The text with a customer more, at its end."""
    document, places = parsed(text, title)
    wanted = copy.deepcopy(document)
    wanted["customer"].append(customer)
    section = "\n" + customer_lines(customer)
    tried = [ended(text) + section]
    if not document["customer"]:  # `customer = []`, which no header can add to, goes
        begin, end = places.begins[("customer",)], places.ends[("customer",)]
        tried.append((text[:begin] + text[end:].lstrip(" \t").removeprefix("\n")).rstrip("\n") + "\n" + section)
    tried += list(in_array(text, places, ("customer",), document["customer"], [customer]))
    return taken(tried, wanted, title, section)


def with_items(text: str, name: str, kind: str, items: list[Any], title: str) -> str:
    """The text with more issuers, seats or pools of a customer, behind those that are there."""
    document, places = parsed(text, title)
    place = next((at for at, it in enumerate(document["customer"]) if it["name"] == name), None)
    if place is None:
        raise TokenError(1, f"{title} has no customer {name}")
    wanted = copy.deepcopy(document)
    there = wanted["customer"][place].setdefault(kind, [])
    path: Path = ("customer", place, kind)
    lines = f"{kind}: {', '.join(value_of(item) for item in items)}\n"
    tried = list(in_array(text, places, path, there, items))
    if kind != "issuer":
        lines = tables_of(f"customer.{kind}", items)
        tried += list(in_section(text, places, path[:2], lines))
    there += items
    return taken(tried, wanted, title, f"of {name}:\n{lines}")


def parsed(text: str, title: str) -> tuple[dict[str, Any], Places]:
    read_site(text, title)  # which tells what is none
    return tomllib.loads(text.removeprefix(MARK)), places_of(text)


def in_array(text: str, places: Places, path: Path, there: list[Any], items: list[Any]) -> Iterator[str]:
    """With the items in the array that a value is, behind its last one."""
    more = ", ".join(value_of(item) for item in items)
    if path not in places.begins:
        return
    if there and (*path, len(there) - 1) in places.ends:
        at = places.ends[(*path, len(there) - 1)]
        yield text[:at] + ", " + more + text[at:]
    elif not there:
        at = text.index("[", text.index("=", places.begins[path])) + 1
        yield text[:at] + more + text[at:]


def in_section(text: str, places: Places, path: Path, lines: str) -> Iterator[str]:
    """With the lines behind the last line of what a header begins."""
    headers = places.headers
    here = next((at for at, (header, _) in enumerate(headers) if header == path), None)
    if here is None:
        return
    until = next((begin for header, begin in headers[here + 1 :] if header[: len(path)] != path), len(text))
    last = max(end for it, end in places.ends.items() if it[: len(path)] == path and places.begins[it] < until)
    line = text.find("\n", last)
    yield text[: line + 1] + lines + text[line + 1 :] if line >= 0 else text + "\n" + lines


def taken(tried: list[str], wanted: dict[str, Any], title: str, lines: str) -> str:
    """The first text that is the wanted site."""
    for text in tried:
        try:
            if tomllib.loads(text.removeprefix(MARK)) == wanted:
                return text
        except tomllib.TOMLDecodeError:
            continue
    raise TokenError(1, f"{title}: there is no place for these lines that is sure; put them in by hand:\n{lines}")
