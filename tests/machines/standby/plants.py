"""Faults that are planted in what the guests have, and the scenario that has to find each.

The clone stays as it is: the first file system of the guests is edited. What a takeover refuses by itself is planted a
second time together with that test taken away, so that both lines of defence are seen.
"""

from dataclasses import dataclass

from machines.standby.image import STANDBY, Edit
from machines.standby.pair import SAMPLE, SECRET

RESOURCE = "etc/drbd.d/station.res"
# Takes away the takeover's test of what DRBD runs with.
UNTESTED: Edit = (f"{STANDBY}/takeover.py", "    needs.test_resource(half)\n", "")
# DRBD itself refuses A beside this fencing, and takes B.
PROTOCOL_A: Edit = (RESOURCE, "protocol C;", "protocol A;")
PROTOCOL_B: Edit = (RESOURCE, "protocol C;", "protocol B;")
DONT_CARE: Edit = (RESOURCE, "fencing resource-and-stonith;", "fencing dont-care;")
DISCARD: Edit = (RESOURCE, "after-sb-0pri disconnect;", "after-sb-0pri discard-least-changes;")


@dataclass
class Plant:
    """Edits, the scenario that has to fail, and a word of what it has to say then."""

    edits: tuple[Edit, ...]
    scenario: str
    said: str


# What stands in the place of a test.
NEVER = "    if False:\n"
PLANTS = {
    "protocol-a": Plant((PROTOCOL_A,), "a", "only with prot B or C allowed"),
    "protocol-b": Plant((PROTOCOL_B,), "a", "`protocol` is B"),
    "protocol-a-untested": Plant((PROTOCOL_A, DONT_CARE, UNTESTED), "d", "not ^frozen"),
    "dont-care": Plant((DONT_CARE,), "a", "`fencing` is dont-care"),
    "dont-care-untested": Plant((DONT_CARE, UNTESTED), "d", "not ^frozen"),
    "discard": Plant((DISCARD,), "a", "`after-sb-0pri` is discard-least-changes"),
    "secret": Plant(((RESOURCE, SECRET, SAMPLE),), "a", "`shared-secret` is the sample's"),
    "no-secret": Plant(((RESOURCE, f"        {SECRET}\n", ""),), "a", "`shared-secret` has fewer"),
    "compare": Plant(((f"{STANDBY}/witness.py", "    if behind:\n", NEVER),), "c-boot", "not refused as 'This half is"),
    "witness-of-before": Plant(
        ((f"{STANDBY}/witness.py", "    if since and oldest < since:\n", NEVER),), "witness", "of before isn't refused"
    ),
    "tested-state": Plant(((f"{STANDBY}/takeover.py", "    tested_state(state)\n", ""),), "both", "not refused as"),
    "word": Plant(
        ((f"{STANDBY}/takeover.py", "    if is_alone:\n        shut_out(half, args.other_is_off)\n", ""),),
        "f-one",
        "not refused as",
    ),
    "always-7": Plant(
        ((f"{STANDBY}/fence_peer.py", "def answered() -> int:\n", "def answered() -> int:\n    return IS_OFF\n"),),
        "cable",
        "the address still",
    ),
    "address-stays": Plant(
        ((f"{STANDBY}/fence_peer.py", "    run_bounded(shlex.split(settings.leave_address))\n", ""),),
        "cable",
        "the address still",
    ),
}
