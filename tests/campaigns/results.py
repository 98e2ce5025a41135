"""The results of campaigns, docs/proof/tried.json, and their page, docs/proof/tried.md, which is made of them alone."""

import fcntl
import json
import os
import re
import sys
from collections.abc import Iterator, Mapping, Sequence
from dataclasses import asdict, dataclass, field
from typing import Any

from campaigns.groups import RELEASE, Group, changed_since, files_here
from common.needs import ROOT

FILE = ROOT / "docs/proof/tried.json"
PAGE, SHOWN = FILE.with_suffix(".md"), "docs/proof/tried.md"
PASSED, FAILED, NOT_RUN = "passed", "failed", "not run"
LONGEST = 400  # characters of what was said, in a row; a measure's ratios are told whole
GOAL, NUMBER = re.compile(r".*, (?:met|missed|no goal)$"), re.compile(r"(?<![\w.,:-])\d{4,}(?![\w:-])")
HEAD = """# What was tried, and when

`tests/campaign` writes this page of [tried.json](tried.json), and
[nobody else does](../../tests/README.md#a-campaign). `tools/pages` names each row whose files have
changed since. *Lost* is a reply that the books don't have, *twice* what they have too often. All
that a group said: `jq -r '.[] | select(.group == "serving") | .said[]' tried.json`.

| Command | What it found | Commit |
|---|---|---|
"""


@dataclass
class Result:
    """What became of a group: `digest` is of its command and files, `failures` has what failed before at this size."""

    group: str
    size: str
    command: str
    commit: str
    digest: str
    status: str = NOT_RUN
    said: list[str] = field(default_factory=list)
    counts: dict[str, int] = field(default_factory=dict)
    seconds: float | None = None
    seed: int | None = None
    about: dict[str, Any] = field(default_factory=dict)
    failures: list[str] = field(default_factory=list)


def read_results() -> list[Result]:
    return [Result(**row) for row in json.loads(FILE.read_text("utf-8"))] if FILE.exists() else []


def why_old(result: Result, group: Group | None, files: Mapping[str, str]) -> str:
    """Why a result isn't of this tree, or nothing."""
    if group is None:
        return "of no group of the table"
    if result.digest == group.digest(result.size, files):
        return ""
    changed = changed_since(result.commit.partition(" ")[0])
    names = [it for it in changed if re.match(group.of, it)] or ["its command or its files"]
    return f"of {result.commit}; changed since: {names[0]}{f' and {len(names) - 1} more' * (len(names) > 1)}"


def told(result: Result) -> str:
    """What failed, a measure's goals and other ratios, or what was said; of much, the counts and its end."""
    is_failed, counts = result.status == FAILED, ", ".join(f"{it} {name}" for name, it in result.counts.items())
    goals = dict.fromkeys(line.strip() for line in result.said if GOAL.fullmatch(line))
    is_measure = bool(goals) and (not is_failed or bool(GOAL.fullmatch(result.said[0])))
    said, longest = ([*goals], None) if is_measure else (result.said, LONGEST)
    text = f"{'FAILED: ' * is_failed}{'; '.join(said) or counts}"
    if longest and len(text) > longest and not is_failed:
        text = f"{counts or f'{len(said)} lines'}; the last: {said[-1]}"
    return NUMBER.sub(lambda number: f"{int(number[0]):,}", text[:longest])


def row_of(result: Result) -> str:
    """A row of the page."""
    minutes, skipped = (result.seconds or 0) / 60, result.counts.get("skipped")
    more = [f"in {minutes:.0f} min"] * (minutes >= 1) + [f"{skipped} left out"] * bool(skipped)
    seed = f" --seed {result.seed}" * (result.command.startswith("tests/all") and " --seed " not in result.command)
    cells = (f"`{result.command}{seed}`", "; ".join([told(result), *more, *result.failures]), result.commit)
    return "".join(f"| {cell.replace('|', '/')} " for cell in cells) + "|\n"


def page_of(results: Sequence[Result], groups: Mapping[str, Group]) -> str:
    """The page of these results, in the order of the groups; its last row is what is left of a release's size."""
    places = list(groups)
    rows = sorted(results, key=lambda it: (places.index(it.group) if it.group in groups else -1, it.size.zfill(9)))
    done = {it.command for it in results if it.status == PASSED and it.digest}
    left = [f"{name} {it.words(RELEASE)}".strip() for name, it in groups.items() if it.command(RELEASE) not in done]
    last = f"| `tests/campaign --size release` | left, {len(left)} of {len(groups)}: {'; '.join(left)} | |\n"
    return HEAD + "".join(map(row_of, rows)) + last


def keep(results: Sequence[Result], groups: Mapping[str, Group]) -> None:
    """Keeps the results, a line each, and writes their page: each file whole or not at all."""
    rows = [{name: value for name, value in asdict(it).items() if value not in (None, [], {})} for it in results]
    text = "[\n" + ",\n".join(json.dumps(row, ensure_ascii=False) for row in rows) + "\n]\n"
    for file, own in ((FILE, text), (PAGE, page_of(results, groups))):
        new = file.with_name(f".{file.name}-new")
        new.write_text(own, "utf-8")
        os.replace(new, file)


def keep_new(new: Result, groups: Mapping[str, Group]) -> None:
    """Keeps a new result in the place of that of its group and size; if that failed, the new one tells so."""
    results = read_results()
    for it in [it for it in results if (it.group, it.size) == (new.group, new.size)]:
        failed = [f"failed at {it.commit}, seed {it.seed}: {it.said[0]}"] if it.status == FAILED else []
        new.failures = [*it.failures, *failed]
        results.remove(it)
    keep([*results, new], groups)


def judged(groups: Mapping[str, Group]) -> Iterator[str]:
    """`fault:` where the page isn't as written; `failed:` or `old:` of each row that failed or is of another tree."""
    results, files = read_results(), files_here()
    if not PAGE.exists() or PAGE.read_text("utf-8") != page_of(results, groups):
        yield f"fault: {SHOWN} isn't what {FILE.name} and tests/campaign.toml make: tests/campaign --page writes it"
    for it in results:
        why, row = why_old(it, groups.get(it.group), files), f"{SHOWN}: {it.group} ({it.size})"
        if why or it.status == FAILED:
            yield f"failed: {row}: {it.said[0]}" if it.status == FAILED else f"old: {row} is {why}"


def lock() -> None:
    """Takes the results of this tree until this process ends."""
    try:
        fcntl.flock(os.open(FILE.parent, os.O_RDONLY | os.O_DIRECTORY), fcntl.LOCK_EX | fcntl.LOCK_NB)
    except BlockingIOError:
        sys.exit("campaign: another one is under way over the results of this tree")
