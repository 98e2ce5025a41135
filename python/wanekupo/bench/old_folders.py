"""`wanekupo run RECIPE --clear-folders`: the folders of chips that an earlier version left, or `keep_folder`.

The server says which chips are shipped or scrapped, and a person says yes: some may want the keys first.
"""

import sys

from wanekupo.bench.bench_files import BenchFiles
from wanekupo.common.printing import print_shown
from wanekupo.seat.station import Station

DONE = 0
GONE = ("shipped", "scrapped")


def clear_old(kept: BenchFiles, station: Station) -> int:
    """Asks, and removes the folders."""
    begun = kept.under_way()
    known = {chip: station.find_device(chip) for chip in kept.chips() if chip not in begun}
    gone = [chip for chip, device in known.items() if device and device.state in GONE]
    others = len(known) - len(gone)
    told = f"{len(gone)} folders are those of shipped and scrapped chips, with their keys"
    print_shown(f"{told}; {others} others stay.\n")
    if not gone:
        return DONE
    print_shown("Type yes to remove them for good: ")
    sys.stdout.flush()
    if sys.stdin.readline().strip() != "yes":
        print_shown("Nothing is removed.\n")
        return DONE
    kept.clear(*gone)
    print_shown("They are removed.\n")
    return DONE
