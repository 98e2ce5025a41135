"""The store on two machines: takes it over on this one, hands it over, and answers DRBD.

    station-standby takeover ..              takes the store over on this machine, or says why this half isn't fit
    station-standby look ..                  only prints what this half has
    station-standby stepdown [--alone]       hands the store over
    station-standby other-is-off NAME        says that the other machine is off
    station-standby fence-peer               DRBD's handler
    station-standby is-mounted               whether the half is mounted, for the server's unit

Each says more by --help. As root, with Python 3.11 (docs/operate/second-machine.md).
"""

import sys

from wanekupo.standby import fence_peer, is_mounted, other_is_off, stepdown, takeover

COMMANDS = {
    "takeover": takeover.main,
    "look": takeover.look_alone,
    "stepdown": stepdown.main,
    "other-is-off": other_is_off.main,
    "fence-peer": fence_peer.main,
    "is-mounted": is_mounted.main,
}
USAGE = f"usage: station-standby {{{','.join(COMMANDS)}}} .."


def main() -> int:
    name, words = (sys.argv[1] if len(sys.argv) > 1 else ""), sys.argv[2:]
    if name in ("-h", "--help"):
        print(f"{USAGE}\n\n{__doc__}")
        return 0
    if name not in COMMANDS:
        print(USAGE, file=sys.stderr)
        return 2
    return COMMANDS[name](words)
