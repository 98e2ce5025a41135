"""What a takeover needs of DRBD's resource, as the kernel runs it now: a plant may have changed its file since.

With less a write may be answered that one half lacks, a machine may go on alone unasked, or DRBD may throw a half away
by itself.
"""

import re
import shlex
from pathlib import Path

from wanekupo.standby.half import Half, StandbyError, done

NEEDED = {
    "protocol": "C",
    "fencing": "resource-and-stonith",
    "allow-two-primaries": "no",
    "after-sb-0pri": "disconnect",
    "after-sb-1pri": "disconnect",
    "after-sb-2pri": "disconnect",
    "rr-conflict": "disconnect",
    "disk-flushes": "yes",
    "md-flushes": "yes",
}
# The secret by which the two know each other: the sample's is known to all.
SAMPLE, SHORTEST = "write-your-own", 16
HANDLER = Path("/usr/share/wanekupo/standby/fence-peer")


def test_resource(half: Half) -> None:
    """Refuses a resource that doesn't keep what this set-up promises."""
    text = done(["drbdsetup", "show", "--show-defaults", half.resource])
    found = dict(re.findall(r"^\s+([a-z0-9-]+)\s+([^\s;\"]+);", text, re.MULTILINE))
    wrong = [
        f"`{name}` is {found.get(name, 'unknown')}, and not {value}"
        for name, value in NEEDED.items()
        if found.get(name) != value
    ]
    wrong += secret_faults(text)
    handler = re.search(r"^\s+fence-peer\s+(.+);$", half.asked("dump"), re.MULTILINE)
    words = shlex.split(handler[1]) if handler else []
    if [Path(word).resolve() for word in words] != [HANDLER]:
        wrong.append(f"the handler `fence-peer` is {' '.join(words) or 'missing'}, and not {HANDLER}")
    if wrong:
        told = "Mend it by the deployed `station.res`, with your own secret, on both, and type `drbdadm adjust` there."
        raise StandbyError(f"The resource {half.resource} doesn't keep its promise: {'; '.join(wrong)}. {told}")


def secret_faults(shown: str) -> list[str]:
    """What is wrong with the secret of a resource, which is said nowhere."""
    found = dict(re.findall(r'^\s+(cram-hmac-alg|shared-secret)\s+"?([^";\n]*)"?;', shown, re.MULTILINE))
    secret = found.get("shared-secret", "")
    if not found.get("cram-hmac-alg"):
        return ["there is no `cram-hmac-alg`, so no secret is asked for"]
    if secret == SAMPLE:
        return ["`shared-secret` is the sample's: write your own (`openssl rand -hex 24`)"]
    return [f"`shared-secret` has fewer than {SHORTEST} letters"] if len(secret) < SHORTEST else []
