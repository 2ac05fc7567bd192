"""The groups of a page as data: which lines of which files it shows, and where their tokens are.

Each line is kept once, however many groups show it. The page's script draws a group when it is opened.
"""
from __future__ import annotations

import bisect
import collections
from typing import Any, Iterable, Iterator

from ..findings import Group, Place, Report
from ..runs import Source, Sources

# Of one place at most so many lines are kept, of one line so many characters, and of all so many characters.
LINES_SHOWN = 400
CHARACTERS_SHOWN = 400
SOURCE_BUDGET = 24_000_000
# Tokens of longer lines, which nobody reads, are not kept.
LONGEST_MARKED = 20_000

CONTINUED = "!"


def largest_first(groups: Iterable[Group]) -> list[Group]:
    return sorted(groups, key=lambda group: (-group.tokens, -len(group.places), group.places[0].path, group.places[0].at))


def duplicated_lines(groups: Iterable[Group]) -> dict[str, int]:
    """How many lines of each file belong to a place of a group."""
    extents: dict[str, list[tuple[int, int]]] = collections.defaultdict(list)
    for group in groups:
        for place in group.places:
            extents[place.path].append((place.first, place.last))
    return {path: sum(last - first + 1 for first, last in merged(found)) for path, found in extents.items()}


def merged(extents: list[tuple[int, int]]) -> list[tuple[int, int]]:
    """The same lines as extents that neither meet nor touch, in order."""
    found: list[tuple[int, int]] = []
    for first, last in sorted(extents):
        if found and first <= found[-1][1] + 1:
            found[-1] = (found[-1][0], max(found[-1][1], last))
        else:
            found.append((first, last))
    return found


def extents_of(lines: bytearray) -> list[tuple[int, int]]:
    """The runs of lines that are set, with the number of their first and last."""
    found = []
    first = lines.find(1)
    while first >= 0:
        end = lines.find(0, first)
        end = len(lines) if end < 0 else end
        found.append((first, end - 1))
        first = lines.find(1, end)
    return found


# --------------------------------------------------------------------------------------------------- tokens


def digit(value: int) -> str:
    """A number as one character, which neither HTML nor JSON has to escape."""
    return chr(0x3D + value) if value < 31 else chr(0xA1 - 31 + value)


DIGITS = tuple(digit(value) for value in range(LONGEST_MARKED + 2))


def units(line: str, column: int) -> int:
    """The column as JavaScript counts it, in UTF-16 code units."""
    return column if line.isascii() else len(line[:column].encode("utf-16-le", "surrogatepass")) // 2


def marks_of(source: Source, first: int, lines: list[str]) -> Iterator[str]:
    """Of each line, from line `first` on, its tokens: of each the distance from the one before, and its length.

    A token that began on an earlier line is `!` and its length here; a token that goes on ends with the line.
    """
    tokens = source.tokens or ()
    position = bisect.bisect_left(tokens, (source.starts[first - 1], 0)) if lines else 0
    for line, begin in zip(lines, source.starts[first - 1:]):
        end = begin + len(line)
        found = []
        at = begin
        if position and tokens[position - 1][1] > begin:
            at = min(tokens[position - 1][1], end)
            found.append(CONTINUED + DIGITS[min(units(line, at - begin), LONGEST_MARKED)])
        while position < len(tokens) and tokens[position][0] <= end:
            start, stop = tokens[position]
            stop = min(stop, end)
            if line.isascii():
                found.append(DIGITS[min(start - at, LONGEST_MARKED)] + DIGITS[min(stop - start, LONGEST_MARKED)])
            else:
                found.append(digit(units(line, start - begin) - units(line, at - begin))
                             + digit(units(line, stop - begin) - units(line, start - begin)))
            at = stop
            position += 1
        yield "".join(found) if len(line) <= LONGEST_MARKED else ""


# ----------------------------------------------------------------------------------------------------- data


class Listing:
    """What the page's script reads."""

    def __init__(self, report: Report) -> None:
        self.sources = Sources(report)
        self.groups = largest_first(report.groups)
        self.paths = sorted({place.path for group in self.groups for place in group.places})
        self.number = {path: number for number, path in enumerate(self.paths)}

    def columns(self, group: Group, place: Place) -> tuple[int, int]:
        """Where the run begins in its first line and ends in its last, or -1 twice if that is not known."""
        run, source = self.sources.run(group, place), self.sources.source(place.path)
        if not run or not source:
            return -1, -1
        if source.text.isascii():
            return run.first_column, run.end_column
        first, last = source.lines(place.first, place.first)[0], source.lines(place.last, place.last)[0]
        return units(first, run.first_column), units(last, run.end_column)

    def index(self) -> dict[str, Any]:
        """The paths, and of each group its tokens and places: file, first and last line, first and end column."""
        return {"paths": self.paths,
                "groups": [[group.tokens, *(value for place in group.places
                                            for value in (self.number[place.path], place.first, place.last,
                                                          *self.columns(group, place)))]
                           for group in self.groups]}

    def shown_extents(self) -> dict[str, list[tuple[int, int]]]:
        """Of each file the lines that are kept: of the largest groups first, while the budget lasts."""
        kept: dict[str, bytearray] = {}
        left = SOURCE_BUDGET
        for group in self.groups:
            for place in group.places:
                source = self.sources.source(place.path)
                if source is None:
                    continue
                lines = kept.setdefault(place.path, bytearray(len(source.starts) + 1))
                first, end = place.first, min(place.last, place.first + LINES_SHOWN - 1, len(source.starts)) + 1
                if 0 in lines[first:end]:
                    left -= (source.starts[end - 1] if end <= len(source.starts) else len(source.text)) - source.starts[first - 1]
                    lines[first:end] = b"\1" * (end - first)
            if left < 0:
                break
        return {path: extents_of(lines) for path, lines in kept.items()}

    def texts(self) -> list[list[Any]]:
        """Of each path its kept extents: the first line's number, the lines, and the tokens of each line."""
        extents = self.shown_extents()
        return [[part for first, last in extents.get(path, []) for part in self.extent(path, first, last)]
                for path in self.paths]

    def extent(self, path: str, first: int, last: int) -> tuple[int, str, str]:
        source = self.sources.source(path)
        lines = source.lines(first, last) if source else []
        marks = "\n".join(marks_of(source, first, lines)) if source and source.tokens is not None else ""
        return first, "\n".join(cut(line) for line in lines), marks


def cut(line: str) -> str:
    return line if len(line) <= CHARACTERS_SHOWN else line[:CHARACTERS_SHOWN] + "…"
