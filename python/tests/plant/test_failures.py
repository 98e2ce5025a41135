"""`tools/failures` tells each place where a 503 begins that its table doesn't name, and each row without a place."""

import shutil
import subprocess
from pathlib import Path

import pytest

ROOT = Path(__file__).resolve().parents[3]
PAGE, FILLED = "office_judges/src/page.rt", "    fill_page(keep, customer, after, &mut scan)?;\n"
ORDERS, WIDTH = "office_sql/src/orders.rt", "    if !has_width"


@pytest.mark.parametrize("name, text, before, said", [
    (PAGE, FILLED, "", ""),
    (PAGE, FILLED, "return Err(Unkept::without_error());", "office_judges page.page_behind makes 1 up"),
    (PAGE, FILLED, "return Err(Unkept::from(AllocError));", "office_judges page.page_behind makes 1 up"),
    (ORDERS, WIDTH, "if first == 0 { return Err(DAMAGED); }", "office_sql orders.range makes 3 up, and"),
    ("failures.txt", "retry.find_retry =", "office.serve ", "office_core office.serve makes 0 up"),
])
def test_a_place_that_begins_or_ends_is_told(tmp_path: Path, name: str, text: str, before: str, said: str) -> None:
    """Over the code as it is the tool says nothing."""
    ignored = shutil.ignore_patterns("out", "specs", "proofs", "must-fail", "data")
    for part in ("tools", "crates"):
        shutil.copytree(ROOT / part, tmp_path / part, ignore=ignored)
    path = tmp_path / "crates" / name
    path.write_text(path.read_text(encoding="utf-8").replace(text, before + text), encoding="utf-8")
    done = subprocess.run([tmp_path / "tools/failures"], capture_output=True, text=True, timeout=60)
    assert (done.returncode == 1) == bool(said) and said in done.stdout and not done.stderr
