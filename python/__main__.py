"""Runs a command of this project out of the tree, as `python3 python station-token --help`."""

import importlib
import sys
import tomllib
from pathlib import Path

PROJECT = Path(__file__).resolve().parent / "pyproject.toml"


def main() -> int:
    scripts = tomllib.loads(PROJECT.read_text(encoding="utf-8"))["project"]["scripts"]
    name = sys.argv[1] if len(sys.argv) > 1 else ""
    if name not in scripts:
        print(f"usage: python3 python COMMAND ..; COMMAND is {', '.join(scripts)}", file=sys.stderr)
        return 2
    sys.dont_write_bytecode = True
    if name != "wanekupo":  # before a library reads what the words name, as OpenSSL does
        importlib.import_module("wanekupo.common.store_words").clean_words()
    module, _, function = scripts[name].partition(":")
    sys.argv[:2] = [name]
    return int(getattr(importlib.import_module(module), function)() or 0)


if __name__ == "__main__":
    sys.exit(main())
