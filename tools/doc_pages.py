"""The pages of docs as the packages have them: each link leads to a file that is there too.

    doc_pages.py FOLDER        writes FOLDER/docs, FOLDER/html, FOLDER/README.md and FOLDER/NEWS

A link to what no package has, as a source of the server, becomes plain text, and pages that are about sources aren't
there. The tutorial's two files are the package's samples. The list of promises and the page of the commands are made
here. FOLDER/html has the same as a site, by Debian's mkdocs and debian/theme: it has no script, since mkdocs' search
needs a server, and a page of all headings in its place. README.md is debian's. Python 3.11.
"""

import os
import re
import shutil
import subprocess
import sys
import tempfile
from collections.abc import Mapping
from pathlib import Path

from pages_lib import commands, promises_page
from pages_lib.audit import audit
from pages_lib.markdown import anchors_in
from pages_lib.site import CONTENTS, contents, in_form, order, told

TOP = Path(__file__).resolve().parent.parent

# Where the packages have what the pages link to outside of docs.
DOC = "/usr/share/doc/wanekupo-client"
THERMOSTAT = [f"thermostat/{it}" for it in ("thermostat.toml", "make-csr", "read-csr", "flash", "label", "dac")]
CA = [f"ca/{it}" for it in ("devices.cnf", "sign-cmp", "sign-est")]
SHIPPED = {
    "README.md": f"{DOC}/README.md",
    "CHANGELOG.md": f"{DOC}/NEWS.gz",
    **{f"deploy/{it}": f"{DOC}/examples/{it}" for it in ("station.py", *CA, *THERMOSTAT)},
    "deploy/keep-journals": "/usr/share/doc/wanekupo/examples/keep-journals",
    "deploy/ca/stations.cnf": "/usr/share/doc/wanekupo/examples/ca/stations.cnf",
    "deploy/prometheus/wanekupo-metrics.service": "/usr/lib/systemd/system/wanekupo-metrics.service",
}
# What is about sources, which no package has, and what pages say that name some.
SOURCES = ("docs/decisions.md", "docs/promises.toml") + tuple(
    f"docs/proof/{it}" for it in ("architecture", "claims", "proof", "request", "states", "tried")
)
OF_SOURCES = "Files that are named here, and that the packages haven't, are the sources' own."
SAMPLES = "crates/station/data/", "/usr/share/doc/wanekupo/examples/"

LINK = re.compile(r"(!?)\[([^\]]*)\]\(([^)\s]+)\)")


def mended(page: str, text: str, known: frozenset[str]) -> str:
    """A page's text with its links as they have to be in a package that has these files."""

    def link(found: re.Match[str]) -> str:
        name, mark, anchor = found[3].partition("#")
        path = os.path.relpath(TOP / os.path.dirname(page) / name, TOP)
        if path == promises_page.PROMISES:
            return f"[{found[2]}]({os.path.relpath(promises_page.PROMISES_PAGE, os.path.dirname(page) or '.')})"
        if ":" in name or not name or path in known:
            return found[0]
        if path in commands.MANUALS:
            return f"[{found[2]}]({os.path.relpath(commands.PAGE, os.path.dirname(page))}#{commands.MANUALS[path]})"
        if path in SHIPPED:
            return f"[{found[2]}]({SHIPPED[path]})"
        return found[2]

    return LINK.sub(link, text).replace(*SAMPLES)


def make(folder: Path) -> None:
    """Writes the pages as Markdown, with what they link to, the README, and what changed."""
    pages = {promises_page.PROMISES_PAGE: promises_page.page(audit()), commands.PAGE: commands.commands_page()}
    files = (str(it.relative_to(TOP)) for it in (TOP / "docs").rglob("*") if it.is_file())
    known = frozenset((*(it for it in files if not it.startswith(SOURCES) and not it.endswith(".dot")), *pages))
    for name in sorted(known):
        target = folder / name
        target.parent.mkdir(parents=True, exist_ok=True)
        if name.endswith(".md"):
            text = mended(name, pages.get(name) or (TOP / name).read_text("utf-8"), known)
            told_first = f"\n\n{OF_SOURCES}\n\n" if name.startswith("docs/proof/") else "\n\n"
            target.write_text(text.replace("\n\n", told_first, 1), encoding="utf-8")
        else:
            shutil.copyfile(TOP / name, target)
    news = (TOP / "CHANGELOG.md").read_text(encoding="utf-8")
    (folder / "NEWS").write_text(mended("CHANGELOG.md", news, known), encoding="utf-8")
    readme = (TOP / "debian/README.md").read_text(encoding="utf-8")
    (folder / "README.md").write_text(readme.replace("](../docs/", "](docs/"), encoding="utf-8")


def form(page: str, text: str) -> str:
    """A page's text in mkdocs' form. That of the commands has it already."""
    return text if page == commands.PAGE else "\n".join(in_form(text, anchors_in(text), str)) + "\n"


def make_site(folder: Path, texts: Mapping[str, str]) -> None:
    """Builds a site of these pages, and of what is beside them in the folder."""
    with tempfile.TemporaryDirectory(prefix="pages-") as room:
        pages = Path(room) / "pages"
        shutil.copytree(folder / "docs", pages / "docs")
        for name, text in (texts | {CONTENTS: contents(texts)}).items():
            (pages / name).write_text(form(name, text), encoding="utf-8")
        build(pages, (folder / "html").resolve(), order(texts))


def build(pages: Path, out: Path, rows: list[object]) -> None:
    """Has mkdocs build a site of a folder's pages by debian/theme, without a map of it for search engines."""
    settings = re.sub(r"(?ms)^(theme|plugins):\n.*?(?=^\w)", "", (TOP / "mkdocs.yml").read_text("utf-8"))
    theme = f"theme:\n  name: null\n  custom_dir: {TOP / 'debian/theme'}\nplugins: []\n"
    file = pages.parent / "mkdocs.yml"
    file.write_text(settings + theme + told(pages, out, rows), encoding="utf-8")
    subprocess.run(["mkdocs", "build", "--strict", "--clean", "--quiet", "--config-file", file], check=True)
    for name in out.glob("sitemap.xml*"):
        name.unlink()


def main() -> None:
    folder = Path(sys.argv[1])
    make(folder)
    pages = [folder / "README.md", *sorted(folder.glob("docs/**/*.md"))]
    make_site(folder, {str(it.relative_to(folder)): it.read_text("utf-8") for it in pages})


if __name__ == "__main__":
    main()
