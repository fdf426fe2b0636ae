"""A mistake in what a person wrote, with its place."""

from __future__ import annotations

from dataclasses import dataclass
from typing import Optional


@dataclass(frozen=True)
class Place:
    """A file, and the line and column in it as far as they are known."""

    path: str
    line: Optional[int] = None
    column: Optional[int] = None

    def __str__(self) -> str:
        parts = [self.path]
        for number in (self.line, self.column):
            if number is not None:
                parts.append(str(number))
        return ":".join(parts)


class Mistake(Exception):
    """Ends a command with status 2. `excerpt` is the line to be shown with a mark at the column."""

    def __init__(self, place: Place, words: str, excerpt: Optional[str] = None) -> None:
        super().__init__(words)
        self.place = place
        self.words = words
        self.excerpt = excerpt

    def __str__(self) -> str:
        said = f"{self.place}: {self.words}"
        if self.excerpt is None or self.place.column is None:
            return said
        before = self.excerpt[: self.place.column - 1]
        # tabs are kept, so that the mark stands below its character
        mark = "".join(c if c == "\t" else " " for c in before) + "^"
        return f"{said}\n    {self.excerpt}\n    {mark}"
