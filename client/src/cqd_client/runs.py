"""Which characters of the sources belong to each run of a report, and what identifies a run when lines move."""
from __future__ import annotations

import bisect
import collections
import hashlib
from dataclasses import dataclass
from typing import Iterator, Optional

from .findings import Group, Place, Report
from .tokens import LANGUAGES, Token, tokens_of
from .tree import LANGUAGE_OF


@dataclass(frozen=True)
class Source:
    """A text with the offset at which each of its lines begins, and its tokens if they are as many as the server counted."""
    text: str
    starts: tuple[int, ...]
    tokens: Optional[tuple[Token, ...]]

    def line_at(self, offset: int) -> int:
        """The line, from 1, of the character at this offset."""
        return bisect.bisect_right(self.starts, offset)

    def lines(self, first: int, last: int) -> list[str]:
        """The lines from `first` to `last`, without their ends."""
        last = min(last, len(self.starts))
        end = self.starts[last] if last < len(self.starts) else len(self.text)
        found = self.text[self.starts[first - 1]:end].split("\n") if first <= last else []
        return [line.rstrip("\r") for line in (found[:-1] if end < len(self.text) or found[-1:] == [""] else found)]


@dataclass(frozen=True)
class Run:
    """Where the tokens of one place begin and end: offsets in the text, and columns of its first and last line, from 0."""
    start: int
    end: int
    first_column: int
    end_column: int


class Sources:
    """The texts of a report's files, each read and cut into tokens once, when something of it is asked for."""

    def __init__(self, report: Report) -> None:
        self.report = report
        self.files = {file.path: file for file in report.files}
        self.known: dict[str, Optional[Source]] = {}

    def source(self, path: str) -> Optional[Source]:
        """The source at this path, or None if the caller does not have its text."""
        if path not in self.known:
            text = self.report.text_of(path)
            self.known[path] = None if text is None else self.read(path, text)
        return self.known[path]

    def read(self, path: str, text: str) -> Source:
        starts = [0]
        at = text.find("\n")
        while at >= 0:
            starts.append(at + 1)
            at = text.find("\n", at + 1)
        file = self.files.get(path)
        lang = file.lang if file else LANGUAGE_OF.get(path[path.rfind("."):], "any")
        tokens = tuple(tokens_of(text, lang)) if lang in LANGUAGES else None
        if file and tokens is not None and len(tokens) != file.tokens:
            tokens = None
        return Source(text, tuple(starts), tokens)

    def run(self, group: Group, place: Place) -> Optional[Run]:
        """The run at this place, or None unless its tokens are known to lie on the lines that the server reported."""
        source = self.source(place.path)
        if source is None or source.tokens is None or place.at + group.tokens > len(source.tokens):
            return None
        start, end = source.tokens[place.at][0], source.tokens[place.at + group.tokens - 1][1]
        if source.line_at(start) != place.first or source.line_at(max(start, end - 1)) != place.last:
            return None
        return Run(start, end, start - source.starts[place.first - 1], end - source.starts[place.last - 1])

    def identity(self, group: Group, place: Place) -> str:
        """A hash of the run's tokens, which stays when the run moves or is laid out otherwise.

        Without the tokens it is of the lines' words; without the text, of the path and the number of tokens.
        """
        source = self.source(place.path)
        if source is None:
            content = f"{place.path} {group.tokens}"
        elif source.tokens is not None and self.run(group, place):
            tokens = source.tokens[place.at:place.at + group.tokens]
            content = " ".join([source.text[start:end] for start, end in tokens])
        else:
            content = " ".join(" ".join(source.lines(place.first, place.last)).split())
        return hashlib.sha256(content.encode("utf-8", "surrogatepass")).hexdigest()

    def identified(self) -> Iterator[tuple[Group, Place, str]]:
        """Each place of each group, with a name that no other place has: its path, identity, and number among equal ones."""
        seen: collections.Counter[tuple[str, str]] = collections.Counter()
        for group in self.report.groups:
            for place in group.places:
                identity = self.identity(group, place)
                seen[place.path, identity] += 1
                yield group, place, f"{identity}:{seen[place.path, identity]}"
