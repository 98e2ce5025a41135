"""The comments that a reader of the crates meets first, as texts: the first lines of each crate, those of public
functions, and those of the definitions that a promise rests on."""

import re
from collections.abc import Iterator

from pages_lib import rattle
from pages_lib.audit import audit
from pages_lib.rattle import CRATES, TOP, crates, text_of

PUBLIC = re.compile(r"((?:^ *///.*\n)+)(?:^ *#\[.*\n)*^ *pub (?:const )?fn (\w+)", re.MULTILINE)
DEFINED = r"((?:^-- .*\n)+)(?:^[a-z ]*)\b{}(?=[ :({{])"


def comments() -> Iterator[tuple[str, str]]:
    """The comments, each with where it is."""
    for crate in crates():
        yield f"crates/{crate}: its first lines", rattle.lead_of(crate)
        for path in sorted((CRATES / crate / "src").rglob("*.rt")):
            for text, name in PUBLIC.findall(text_of(path)):
                yield f"{path.relative_to(TOP)}: {name}", re.sub(r"(?m)^ *///? ?", "", text)
    reached = {key for depth, _ in audit().reached.values() for key in depth}
    for module, name in sorted(reached):
        path = audit().definitions.paths[module, name]
        found = re.search(DEFINED.format(re.escape(name)), text_of(path), re.MULTILINE)
        if found:
            yield f"{path.relative_to(TOP)}: {name}", re.sub(r"(?m)^-- ", "", found[1])
