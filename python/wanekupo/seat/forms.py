"""The form of each member of the server's replies (docs/integrate/api.md).

What a hook gets, a label or a file's name has, and what is burnt comes out of these. A reply that breaks a form is
another's page, and is as no reply.
"""

import re
from typing import Any, Callable, Mapping

from wanekupo.seat.states import LOST, PLANS, STATES, STEPS

NAME, SERIAL, PREFIX = (re.compile(it) for it in (r"[A-Za-z0-9._-]{1,32}", r"[A-Z0-9-]{1,64}", r"[A-Z0-9-]{1,32}"))
CHIP, DIGEST, TIME = re.compile(r"[0-9a-f]{12}"), re.compile(r"[0-9a-f]{64}"), re.compile(r"[0-9]{14}Z")
MASK, NOTE = re.compile(r"[0-9a-f]{8}"), re.compile(r"[A-Za-z0-9-]{0,64}")

# A record has no end of its validity.
NO_END = "99991231235959Z"

# The greatest whole number that each reader of JSON has (RFC 8259, section 6).
FAR = 2**53 - 1

# What a reply of an earlier server, which a seat keeps, may lack.
LATER = ("not_before",)

Form = Callable[[Any], bool]


def text_form(pattern: re.Pattern[str]) -> Form:
    return lambda it: isinstance(it, str) and pattern.fullmatch(it) is not None


def word(*words: str) -> Form:
    return lambda it: isinstance(it, str) and it in words


def or_null(form: Form) -> Form:
    return lambda it: it is None or form(it)


def number_form(least: int = 0, most: int = FAR) -> Form:
    return lambda it: type(it) is int and least <= it <= most


def each(form: Form) -> Form:
    return lambda it: isinstance(it, list) and all(map(form, it))


def members(forms: Mapping[str, Form]) -> Form:
    return lambda it: isinstance(it, dict) and not wrong_in(it, forms)


def keys_of_fields(it: Any) -> bool:
    """The SHA-256 of keys by the names of their fields."""
    return isinstance(it, dict) and all(map(text_form(NAME), it)) and all(map(text_form(DIGEST), it.values()))


def wrong_in(reply: Mapping[str, Any], forms: Mapping[str, Form]) -> list[str]:
    """The members that a reply lacks, or has in another form. Others, as of a later server, are passed over."""
    return [name for name, form in forms.items() if not (form(reply[name]) if name in reply else name in LATER)]


COUNT = number_form()
WORDS = each(members({"block": COUNT, "word": COUNT, "mask": text_form(MASK)}))
BURNT = {"bits": WORDS, "keys": keys_of_fields}
BATCHES = {"batch1": members(BURNT), "batch2": members(BURNT)}
LISTED = {
    "chip": text_form(CHIP),
    "order": text_form(NAME),
    "state": word(*STATES),
    "reason": or_null(word(*LOST)),
    "serial": or_null(text_form(SERIAL)),
}
ORDER = {
    "name": text_form(NAME),
    "issuer": text_form(NAME),
    "prefix": text_form(PREFIX),
    "width": number_form(1, 9),
    "first": COUNT,
    "quantity": number_form(1),
    "macs": number_form(0, 4),
    "mac": or_null(text_form(CHIP)),
    "next": or_null(text_form(SERIAL)),
    "not_before": or_null(text_form(TIME)),
}
IDENTITY = {
    "chip": text_form(CHIP),
    "issuer": text_form(NAME),
    "serial": text_form(SERIAL),
    "key_sha256": text_form(DIGEST),
    "mac": or_null(text_form(CHIP)),
    "not_after": word(NO_END),
    "not_before": or_null(text_form(TIME)),
}
ENTRY = BURNT | {"n": number_form(1), "event": word("read", *STEPS), "note": text_form(NOTE), "seat": text_form(NAME)}

# By the request's path.
REPLIES: Mapping[str, Mapping[str, Form]] = {
    "/v1/order": ORDER,
    "/v1/map": {"map": text_form(DIGEST)},
    "/v1/device": LISTED | BURNT | {"map": text_form(DIGEST), "pending": members(BATCHES)},
    "/v1/plan": BATCHES | {"state": word(*PLANS)},
    "/v1/readback": {"outcome": word("match", "short", *LOST), "rest": members(BURNT), "state": word(*STATES)},
    "/v1/identity": IDENTITY,
    "/v1/ship": {"chip": text_form(CHIP), "state": word("shipped")},
    "/v1/scrap": {"chip": text_form(CHIP), "state": word("scrapped")},
    "/v1/import": {"added": COUNT, "present": COUNT},
    "/v1/ledger": {"chip": text_form(CHIP), "entries": each(members(ENTRY))},
    "/v1/devices": {"devices": each(members(LISTED)), "next": or_null(text_form(CHIP))},
}
