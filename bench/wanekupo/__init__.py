"""The project's own modules, for scripts: those of python/wanekupo."""

from pathlib import Path

__path__ = [str(Path(__file__).resolve().parents[2] / "python/wanekupo")]
