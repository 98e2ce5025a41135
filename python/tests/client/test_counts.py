"""What a bench counts: chips and not stays, by docs/line/shift.md#what-is-counted, and by the rule of [stop] of
docs/line/bench.md.
"""

import contextlib
import json
from unittest import mock

import support  # noqa: F401  it finds the package

from support import FolderCase

from wanekupo.bench.board import ShiftCounts, ended_socket
from wanekupo.bench.endings import Ended
from wanekupo.bench.bench_files import BenchFiles

# The stays in turn, each a chip and how it ended, or a new shift; then passed, first, failed, and how many chips failed
# with none between that passed.
NEW, ELSEWHERE = "new shift", "elsewhere"
CASES = [
    ("c1 passed, c2 passed", 2, 2, {}, 0),
    ("c1 passed, c1 passed_before", 1, 1, {}, 0),
    ("c1 hook_failed, c1 hook_failed, c1 passed", 1, 0, {}, 0),
    ("c1 hook_failed, c1 hook_late, c2 hook_failed", 0, 0, {"hook_late": 1, "hook_failed": 1}, 2),
    ("c1 no_label, c1 no_label", 1, 1, {}, 1),
    ("c1 no_label, c1 passed", 1, 1, {}, 0),
    ("c1 hook_failed, c1 no_label, c1 passed", 1, 0, {}, 0),
    ("c1 no_label, c1 other_wishes, c1 passed", 1, 1, {}, 0),
    ("c1 stray, c1 lost_before", 0, 0, {"stray": 1}, 1),
    ("c1 elsewhere, c1 passed", 1, 0, {}, 0),
    ("c1 no_burn, new shift, c1 passed", 1, 0, {}, 0),
    ("c1 no_burn, new shift, c1 no_read", 0, 0, {"no_read": 1}, 1),
    ("c1 no_burn, new shift", 0, 0, {}, 0),
    ("c1 used_up, c2 order_full, c3 disk_full, c4 other_order", 0, 0, {}, 0),
    ("c1 gave_way, c2 no_serial", 0, 0, {"gave_way": 1, "no_serial": 1}, 0),
    ("- no_mac, - no_mac, - no_chip", 0, 0, {"no_mac": 2}, 2),
]


class Counts(FolderCase):
    """The counts that a bench keeps."""

    def test_each_chip_once(self):
        for place, (stays, *expected) in enumerate(CASES):
            with self.subTest(stays), contextlib.closing(BenchFiles(self.folder / str(place))) as kept:
                for second, stay in enumerate(stays.split(", ")):
                    moment = f"2099-01-01T00:00:{second:02}Z"
                    at = mock.patch("wanekupo.bench.bench_files.now_text", return_value=moment)
                    with at:
                        self.stay(kept, second, *stay.split())
                shift = kept.shift()
                self.assertEqual([shift.passed, shift.first, shift.failed, len(shift.row)], expected)

    def stay(self, kept, second, chip, name):
        if f"{chip} {name}" == NEW:
            kept.counted(ShiftCounts(f"2099-01-01T00:00:{second:02}Z"))
        elif name == ELSEWHERE:
            kept.elsewhere(chip)
        else:
            ended = Ended(name)
            kept.ended(ended_socket("left", ended, "step", chip.strip("-"), "", "o1"), ended)

    def test_what_an_earlier_release_kept(self):
        """Its counts go on."""
        folder = self.folder / "old"
        folder.mkdir(mode=0o700)
        shift = {"since": "2026-11-29T06:00:00Z", "passed": 7, "failed": {"stray": 2}}
        shift["row"] = [{"step": "burn 1", "reason": "stray", "socket": "left"}]
        old = {"last": {}, "map": "", "shift": shift, "under_way": {}}
        (folder / "bench.json").write_text(json.dumps(old), encoding="ascii")
        (folder / "bench.json").chmod(0o600)
        with contextlib.closing(BenchFiles(folder)) as kept:
            self.stay(kept, 0, "c1", "stray")
            shift = kept.shift()
        self.assertEqual((shift.passed, shift.failed, len(shift.row)), (7, {"stray": 3}, 2))
