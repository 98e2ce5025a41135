"""The order of the project's packages: imports go down alone, no module changes where others are found, and a name has
one meaning."""

import ast
from collections import defaultdict
from pathlib import Path

PACKAGE = Path(__file__).resolve().parent.parent / "wanekupo"
LAYERS = [{"common"}, {"chips"}, {"seat"}, {"bench", "lots", "books"}, {"standby", "metrics"}, {"plant"}, {"cli"}]
RANK = {package: rank for rank, layer in enumerate(LAYERS) for package in layer}
TEXTS = {str(path.relative_to(PACKAGE)): path.read_text(encoding="utf-8") for path in sorted(PACKAGE.rglob("*.py"))}
TREES = {name: ast.parse(text) for name, text in TEXTS.items()}
# Public functions that more than one module has, today: the number only goes down.
SHARED_FUNCTIONS = 10


def imported(tree: ast.AST) -> list[str]:
    """The packages of this project that a module imports from, wherever in it."""
    found = list[str]()
    for node in ast.walk(tree):
        if isinstance(node, ast.Import):
            found += [it.name for it in node.names]
        elif isinstance(node, ast.ImportFrom):
            assert node.level == 0, "an import by dots"
            found += [f"{node.module}.{it.name}" for it in node.names]
    return [name.split(".")[1] for name in found if name.startswith("wanekupo.")]


def test_imports_go_down() -> None:
    wrong = []
    for name, tree in TREES.items():
        here = name.split("/")[0]
        if here in RANK:
            wrong += [f"{name}: {it}" for it in imported(tree) if it in RANK and it != here and RANK[it] >= RANK[here]]
    assert wrong == []


def test_each_folder_has_a_layer() -> None:
    assert {name.split("/")[0] for name in TEXTS if "/" in name} == set(RANK)


def test_no_module_changes_where_modules_are_found() -> None:
    words = ("sys.path", "PYTHONPATH", "SourceFileLoader", "E402")
    assert [(name, word) for name, text in TEXTS.items() for word in words if word in text] == []


def test_a_class_has_one_meaning() -> None:
    places = defaultdict(list)
    for name, tree in TREES.items():
        for node in ast.walk(tree):
            if isinstance(node, ast.ClassDef):
                places[node.name].append(name)
    assert {name: where for name, where in places.items() if len(where) > 1} == {}


def test_no_more_functions_have_two_meanings() -> None:
    places = defaultdict(list)
    for name, tree in TREES.items():
        for node in tree.body:
            if isinstance(node, ast.FunctionDef) and not node.name.startswith("_"):
                places[node.name].append(name)
    shared = {name: where for name, where in places.items() if len(where) > 1}
    for name, where in sorted(shared.items()):
        print(name, *where)
    assert len(shared) <= SHARED_FUNCTIONS
