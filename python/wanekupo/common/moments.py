"""Moments, as words of the command line and as texts."""

import re
from datetime import datetime, timezone
from typing import Optional

from wanekupo.common.errors import NoPeriod


def moment_of(text: str) -> datetime:
    """As 2026-11-27T06:00, in this machine's time, or with a Z or an offset."""
    try:
        return datetime.fromisoformat(re.sub("Z$", "+00:00", text)).astimezone(timezone.utc)
    except (ValueError, OverflowError):
        forms = "2026-11-27T06:00, 2026-11-27T06:00Z or 2026-11-27T06:00+02:00"
        raise ValueError(f"{text} is no time like {forms}") from None


def text_of(moment: datetime) -> str:
    """As 2026-11-27T06:00:00Z. Texts compare as moments do: a year has four digits, which `%Y` doesn't give each."""
    return f"{moment.replace(microsecond=0, tzinfo=None).isoformat()}Z"


def now_text() -> str:
    """This moment."""
    return text_of(datetime.now(timezone.utc))


def tested_period(start: Optional[datetime], end: Optional[datetime]) -> None:
    if start and end and text_of(start) >= text_of(end):
        raise NoPeriod(f"from {text_of(start)} to {text_of(end)}: --to has to be later than --from")
