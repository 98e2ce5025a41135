"""The modules that scripts share with the tests: those of tests/common."""

from pathlib import Path

__path__ = [str(Path(__file__).resolve().parents[2] / "tests/common")]
