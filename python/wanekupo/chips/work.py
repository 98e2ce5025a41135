"""What is burnt or awaited of a chip: bits, and keys."""

from dataclasses import dataclass


@dataclass(frozen=True)
class Word:
    """Burnt or awaited bits of one word."""

    block: int
    word: int
    mask: int


@dataclass(frozen=True)
class Work:
    """Bits, and keys by the names of their fields, which are known by their SHA-256."""

    bits: tuple[Word, ...]
    keys: dict[str, str]

    def __bool__(self) -> bool:
        return bool(self.bits or self.keys)
