"""The pages of the packages: each link leads to a file that they have, and none of the repository's own is named."""

import ast
import re
import shutil
import sys

import pytest
from conftest import DEPLOY, TOP

from wanekupo.cli.main import COMMANDS

sys.path.insert(0, str(TOP / "tools"))

import doc_pages  # noqa: E402

PAGE = re.compile(r"[\w/{}-]+\.md\b(?:, '[^']+')?")

KNOWN = frozenset(("docs/line/audit.md", "docs/pictures/bench-red.png"))


def test_links():
    for before, after in (
        ("[a](audit.md#top)", "[a](audit.md#top)"),
        ("![b](../pictures/bench-red.png)", "![b](../pictures/bench-red.png)"),
        ("[its\nsource](../../crates/x/src/y.rt#L1), [c](https://c.example)", "its\nsource, [c](https://c.example)"),
        ("[x](../../deploy/ca/devices.cnf)", "[x](/usr/share/doc/wanekupo-client/examples/ca/devices.cnf)"),
        ("[all](../promises.toml)", "[all](../proof/list.md)"),
        ("`crates/station/data/map.toml`", "`/usr/share/doc/wanekupo/examples/map.toml`"),
    ):
        assert doc_pages.mended("docs/line/lots.md", before, KNOWN) == after


def test_all_pages(tmp_path):
    doc_pages.make(tmp_path)
    pages = [*tmp_path.rglob("*.md"), tmp_path / "NEWS"]
    links = [(page, it) for page in pages for it in re.findall(r"\]\(([^)#\s]+)", page.read_text("utf-8"))]
    own = [(page, it) for page, it in links if ":" not in it and not it.startswith("/usr/")]
    assert len(own) > 200 and [it for it in own if not (it[0].parent / it[1]).exists()] == []
    told = set(re.findall(r"(?m)^## wanekupo (.*)$", (tmp_path / doc_pages.commands.PAGE).read_text("utf-8")))
    assert told == {row.name for row in COMMANDS}


def test_words_that_only_sources_have(tmp_path):
    """A page for who has the packages names no path of the sources, but those of the proof, which say that they do."""
    doc_pages.make(tmp_path)
    folders = "tests|tools|crates|bench|deploy|clients|python|kit/tests"
    paths = re.compile(rf"(?<![\w/.-])(?:{folders})/\w|\brepository\b|`rt \w")
    pages = [it for it in tmp_path.rglob("*.md") if it.parent.name != "proof"]
    assert len(pages) > 15
    assert [(it.name, found) for it in pages for found in paths.findall(it.read_text("utf-8"))] == []
    for page in (tmp_path / "docs/proof").glob("*.md"):
        assert doc_pages.OF_SOURCES in page.read_text("utf-8")


@pytest.mark.skipif(not shutil.which("mkdocs"), reason="there is no mkdocs here")
def test_site(tmp_path):
    """Without a script, and with all headings on one page, each of which leads to its place."""
    texts = {
        "README.md": "# Wanekupo\n\n[A shift](docs/line/shift.md#what-the-yield-is)\n",
        "docs/line/shift.md": "# A shift\n\n## What the yield is\n\n- one\n  two\n",
    }
    (tmp_path / "docs/line").mkdir(parents=True)
    doc_pages.make_site(tmp_path, texts)
    made = {str(it.relative_to(tmp_path / "html")): it for it in (tmp_path / "html").rglob("*.*")}
    assert sorted(made) == ["docs/line/shift.html", "headings.html", "index.html"]
    assert all("<script" not in it.read_text("utf-8") for it in made.values())
    for name in ("index.html", "headings.html"):
        assert 'href="docs/line/shift.html#what-the-yield-is"' in made[name].read_text("utf-8")
    assert 'id="what-the-yield-is"' in made["docs/line/shift.html"].read_text("utf-8")


def texts_of(tree):
    """The texts of a module but its docstrings, each value in it by what makes it, in braces."""
    known = {id(node.value) for node in ast.walk(tree) if isinstance(node, ast.Expr)}
    for node in ast.walk(tree):
        if isinstance(node, ast.JoinedStr):
            known |= {id(it) for it in node.values}
            parts = [it.value if isinstance(it, ast.Constant) else f"{{{ast.unparse(it.value)}}}" for it in node.values]
            yield "".join(parts)
        elif isinstance(node, ast.Constant) and isinstance(node.value, str) and id(node) not in known:
            yield node.value


def test_errors_name_pages_that_are_there():
    """Each by its path in the package, the section behind it by its heading, and no page by its title alone."""
    modules = [ast.parse(it.read_bytes()) for it in sorted((TOP / "python/wanekupo").rglob("*.py"))]
    texts = [text for tree in modules for text in texts_of(tree)]
    named = [it for text in texts for it in PAGE.findall(text)]
    assert len(named) >= 10 and not [it for it in texts if re.search(r"\bthe page [`'\"A-Z]", it)]
    for it in named:
        path, _, section = it.partition(", ")
        page = TOP / path.replace("{PAGES}", "docs")
        assert path.startswith("{PAGES}/") and page.is_file(), it
        assert not section or re.search(rf"(?m)^#+ {section[1:-1]}$", page.read_text("utf-8")), it
    manuals = {it.name.split(".")[0] for it in [*DEPLOY.glob("*.[158]"), *(TOP / "debian/man").iterdir()]}
    assert {name for text in texts for name in re.findall(r"\bman ([a-z-]*[a-z])", text)} <= manuals


def test_manuals_name_pages_that_are_there():
    """So does the README of the packages; in a manual a page is named from the packages' folder of pages on."""
    files = [TOP / "debian/README.md", *(TOP / "debian/man").iterdir(), *DEPLOY.glob("*.[158]")]
    named = [(it.name, page) for it in files for page in re.findall(r"\w[\w/-]*\.md\b", it.read_text("utf-8"))]
    assert len(named) >= 20
    assert not [it for it in named if not any((top / it[1]).is_file() for top in (TOP, TOP / "docs"))]


def test_samples_that_pages_name_are_there(tmp_path):
    """The tutorial's two files among them; what the packages have in examples is by debian's lists."""
    doc_pages.make(tmp_path)
    text = "".join(it.read_text("utf-8") for it in tmp_path.rglob("*.md"))
    named = set(re.findall(r"/usr/share/doc/wanekupo(?:-client)?/examples/([\w./-]*\w)", text))
    files = [f"{it}/" for name in ("wanekupo", "wanekupo-client") for it in samples_of(name)]
    assert {"site.toml", "map.toml"} <= named
    assert not [it for it in named if not any(file.startswith(f"{it}/") for file in files)]


def samples_of(package):
    """What a package has in examples, by paths from there on."""
    for line in (TOP / f"debian/{package}.install").read_text("utf-8").splitlines():
        source, target = line.split()
        if "/examples" in target:
            folder = target.partition("/examples")[2].strip("/")
            found = [file for it in TOP.glob(source) for file in ([it] if it.is_file() else it.rglob("*"))]
            parent = (TOP / source).parent
            yield from (f"{folder}/{it.relative_to(parent)}".strip("/") for it in found if it.is_file())
    if package == "wanekupo":
        yield from (line.rpartition("/")[2] for line in (TOP / f"debian/{package}.examples").read_text().split())
