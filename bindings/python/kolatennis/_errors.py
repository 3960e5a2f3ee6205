"""What the module raises."""
from __future__ import annotations

from typing import Optional


class Error(Exception):
    """Everything that the module raises itself is one, but for an ImportError where the library is missing or another one."""


class OutOfRange(Error, ValueError):
    """A number or a replacement isn't one that it may be."""


class Refused(Error, ValueError):
    """A text gives no receipt, or a file no picture: `reason` is its name, `at` the place of the entry, command or byte, from 0, or None."""

    def __init__(self, reason: str, at: Optional[int]) -> None:
        super().__init__(reason, at)
        self.reason, self.at = reason, at

    def __str__(self) -> str:
        return self.reason if self.at is None else f"{self.reason} at {self.at}"


class NotNow(Error, RuntimeError):
    """A host or a till can't do this now: `reason` is its name."""

    def __init__(self, reason: str) -> None:
        super().__init__(reason)
        self.reason = reason


class Damaged(Error, ValueError):
    """The lines of a till's entries aren't what a till has written: `line` is the number of the first at fault, from 1."""

    def __init__(self, line: int) -> None:
        super().__init__(line)
        self.line = line

    def __str__(self) -> str:
        return f"line {self.line} is no entry, or may not come after those before it"


class Closed(Error, ValueError):
    """A host, a printer or a till is closed."""


class Forked(Error, RuntimeError):
    """A host, a printer or a till was made before a fork, in the parent: both would use the same mark numbers."""


class TooLong(Error, ValueError):
    """The text would have more than 268,435,456 bytes."""


class OutOfMemory(Error, MemoryError):
    """Out of memory."""


class NoPillow(Error, ImportError):
    """Pillow isn't installed, and the picture is none of PBM, PGM and PPM."""


for _error in (Error, OutOfRange, Refused, NotNow, Damaged, Closed, Forked, TooLong, OutOfMemory, NoPillow):
    _error.__module__ = "kolatennis"
