"""What is prepared and not yet done: the seats that get outer tokens, and how far the steps are.

The plan is a file beside the site file, SITE.growth, root's alone. It has no token. Each step is noted in it before it
is begun, so a run that was cut is begun again where it was.
"""

import json
from dataclasses import asdict, dataclass, field
from pathlib import Path

from wanekupo.common.token_file import TokenError, put
from wanekupo.common.files import sync
from wanekupo.common.store_user import read_small

# PREPARED: the new text lies beside the old one. STOPPING: the server is being stopped, and the old text is in place.
# PLACED: the new text is in place, and the server is being started.
PREPARED, STOPPING, PLACED = "prepared", "stopping", "placed"


@dataclass
class SeatWish:
    """A new seat; the file of its outer token, or nothing where it gets none; who gets it; and whether this growth made
    its inner token."""

    seat: str
    customer: str
    to: str = ""
    holder: str = ""
    is_made: bool = False


@dataclass
class GrowthPlan:
    stage: str = PREPARED
    backup: str = ""
    is_tried: bool = False  # over a copy of the store
    others: list[str] = field(default_factory=list)
    wishes: list[SeatWish] = field(default_factory=list)

    def add(self, wish: SeatWish) -> None:
        self.wishes = [it for it in self.wishes if it.seat != wish.seat] + [wish]


def read_plan(path: Path) -> GrowthPlan:
    """The plan, or one with nothing in it."""
    try:
        found = json.loads(path.read_text(encoding="utf-8"))
        wishes = [SeatWish(**it) for it in found["wishes"]]
        return GrowthPlan(found["stage"], found["backup"], bool(found.get("is_tried")), found["others"], wishes)
    except FileNotFoundError:
        return GrowthPlan()
    except (ValueError, KeyError, TypeError, RecursionError) as error:
        raise TokenError(1, f"{path} isn't what this command writes: {error}") from None


def keep_plan(path: Path, plan: GrowthPlan) -> None:
    put(path, json.dumps(asdict(plan), indent=1) + "\n")


def drop_plan(path: Path) -> None:
    path.unlink(missing_ok=True)
    sync(path.parent)


def closed_seats(folder: Path) -> dict[str, str]:
    """When the site of each seat was closed, by the marks of closed sites in a folder (closing.py)."""
    found = [json.loads(read_small(file)) for file in sorted(folder.glob("*.closed.json"))]
    return {seat: it["at"] for it in found for seat in it["seats"]}
