"""Ends with status 0 where this machine's half is mounted at its place, and else with 2 and a sentence.

The server's unit asks it before each start (station.service.conf). Without it a server would run over whatever else is
at that place: an old store, or the volume below DRBD, of which the other machine gets nothing. systemd doesn't start
the unit again behind a status 2.
"""

import sys
from collections.abc import Sequence

from wanekupo.standby.half import Half, StandbyError, read_settings, print_told


def main(words: Sequence[str]) -> int:
    if list(words) in (["-h"], ["--help"]):
        print(__doc__)
        return 0
    try:
        if Half(read_settings()).is_mounted():
            return 0
        print("The store's volume isn't mounted here: `takeover` mounts it.", file=sys.stderr)
    except (StandbyError, OSError) as refused:
        print_told(f"refused: {refused}", sys.stderr)
    return 2
