"""What a server's replies say of a project, as typed data that every output format and the HTML page take.

`report_of` turns replies into a `Report`; docs/PROTOCOL.md describes the replies. `arranged` orders and limits its groups.
Lines count from 1, tokens from 0. All types are immutable, so a report can be written in several formats.
"""
from __future__ import annotations

import dataclasses
from dataclasses import dataclass
from typing import Any, Callable, Iterable, Mapping, Optional

DENSITY = "duplicated_lines_density"
METRICS = ("complexity", "duplicated_blocks", "duplicated_files", "duplicated_lines", DENSITY, "files", "lines", "ncloc")


class Malformed(ValueError):
    """A reply is not what docs/PROTOCOL.md describes."""


@dataclass(frozen=True)
class Place:
    """One occurrence of a run of tokens: its file, its first token there, and the lines of its first and last token."""
    path: str
    at: int
    first: int
    last: int

    @property
    def lines(self) -> int:
        return self.last - self.first + 1


@dataclass(frozen=True)
class Group:
    """A run of `tokens` equal tokens with all its occurrences, in the server's order."""
    tokens: int
    places: tuple[Place, ...]

    @property
    def lines(self) -> int:
        """How many lines the first occurrence covers."""
        return self.places[0].lines


@dataclass(frozen=True)
class Function:
    """A function of a file. `failed` is set if its complexity is above the limit that the caller asked for."""
    path: str
    name: str
    first: int
    last: int
    complexity: int
    failed: bool = False


@dataclass(frozen=True)
class File:
    """A file that the server holds. `state` is `ok`, `fault` (with the byte `at` which the language has no token) or `large`."""
    path: str
    lang: str
    lines: int
    tokens: int
    state: str = "ok"
    at: Optional[int] = None


@dataclass(frozen=True)
class Skipped:
    """A file that was not uploaded, and why, in words."""
    path: str
    why: str


@dataclass(frozen=True)
class Condition:
    """A condition of a gate: it fails if the metric is greater (`GT`) or less (`LT`) than `bound`.

    `value` is what was measured, if that is known. Densities are in hundredths of a percent.
    """
    metric: str
    op: str
    bound: int
    value: Optional[int] = None
    failed: bool = False


@dataclass(frozen=True)
class Measures:
    """The eight measures of a project or of a part of it. The density is in hundredths of a percent."""
    complexity: int
    duplicated_blocks: int
    duplicated_files: int
    duplicated_lines: int
    duplicated_lines_density: int
    files: int
    lines: int
    ncloc: int


@dataclass(frozen=True)
class About:
    """Where a report comes from. Each string is empty if it is unknown; `options` are pairs as `("--min", "40")`."""
    commit: str = ""
    branch: str = ""
    date: str = ""
    program: str = ""
    options: tuple[tuple[str, str], ...] = ()


def no_text(path: str) -> Optional[str]:
    """The `text_of` of a report whose sources are not at hand."""
    return None


@dataclass(frozen=True)
class Report:
    """All that a format may show.

    `verdict` is `OK`, `ERROR`, `UNKNOWN` if files are missing, or empty if no gate was asked. `total` is how many groups there were
    before `arranged` limited them. `text_of` returns the source text of a path, or None if the caller does not have it. `raw` is the
    reply line that the `json` format passes on.
    """
    project: str
    version: int
    groups: tuple[Group, ...] = ()
    total: int = 0
    measures: Optional[Measures] = None
    functions: tuple[Function, ...] = ()
    verdict: str = ""
    conditions: tuple[Condition, ...] = ()
    files: tuple[File, ...] = ()
    skipped: tuple[Skipped, ...] = ()
    about: About = About()
    text_of: Callable[[str], Optional[str]] = no_text
    raw: bytes = b""

    @property
    def failed(self) -> tuple[Condition, ...]:
        """The conditions that failed."""
        return tuple(condition for condition in self.conditions if condition.failed)

    @property
    def complex_functions(self) -> tuple[Function, ...]:
        """The functions that are above the limit that was asked for."""
        return tuple(function for function in self.functions if function.failed)


# ------------------------------------------------------------------------------------------------- from replies


def member(value: Any, name: str, kind: type) -> Any:
    """A member of a reply, which has to be of this type."""
    found = value.get(name) if isinstance(value, dict) else None
    if not isinstance(found, kind) or (kind is int and isinstance(found, bool)):
        raise Malformed(f"the server's reply has no member {name} of the documented type")
    return found


def place_of(value: Any) -> Place:
    place = Place(member(value, "path", str), member(value, "at", int), member(value, "first", int), member(value, "last", int))
    if place.at < 0 or not 1 <= place.first <= place.last:
        raise Malformed("the server's reply has a place with lines that no file has")
    return place


def groups_of(reply: Mapping[str, Any]) -> tuple[Group, ...]:
    """The groups of a reply to `groups`, in its order."""
    groups = tuple(Group(member(group, "tokens", int), tuple(place_of(place) for place in member(group, "places", list)))
                   for group in member(reply, "groups", list))
    if not all(len(group.places) > 1 for group in groups) or len(groups) != member(reply, "total", int):
        raise Malformed("the server's reply has a group with fewer than two places, or not all groups")
    return groups


def measures_of(reply: Mapping[str, Any]) -> Measures:
    """The measures of a reply to `measures`."""
    measures = member(reply, "measures", dict)
    return Measures(**{name: member(measures, name, int) for name in METRICS})


def functions_of(reply: Mapping[str, Any], path: str, limit: Optional[int] = None) -> tuple[Function, ...]:
    """The functions of a reply to `functions` about this path. Those above the limit are marked as failed."""
    functions = []
    for value in member(reply, "functions", list):
        complexity = member(value, "complexity", int)
        functions.append(Function(path, member(value, "name", str), member(value, "first", int), member(value, "last", int),
                                  complexity, limit is not None and complexity > limit))
    return tuple(functions)


def files_of(reply: Mapping[str, Any]) -> tuple[File, ...]:
    """The files of a reply to `files`, in its order."""
    return tuple(File(member(file, "path", str), member(file, "lang", str), member(file, "lines", int),
                      member(file, "tokens", int), member(file, "state", str),
                      member(file, "at", int) if file.get("state") == "fault" else None)
                 for file in member(reply, "files", list))


def verdict_of(reply: Mapping[str, Any]) -> tuple[str, tuple[int, ...]]:
    """The verdict of a reply to `verdict`, and the positions of the conditions that failed."""
    verdict = member(reply, "verdict", str)
    failed = tuple(member(reply, "failed", list))
    if verdict not in ("OK", "ERROR") or not all(isinstance(position, int) for position in failed):
        raise Malformed(f"the server's reply has the verdict {verdict!r}")
    if (verdict == "ERROR") != bool(failed):
        raise Malformed("the server's reply has a verdict that its failed conditions contradict")
    return verdict, failed


def judged(conditions: Iterable[Condition], failed: Iterable[int], measures: Optional[Measures]) -> tuple[Condition, ...]:
    """The conditions with what was measured, and whether they are at one of the failed positions.

    A position beyond them is a condition that someone else set: it is shown by its position.
    """
    positions = set(failed)
    known = [dataclasses.replace(condition, failed=position in positions,
                                 value=getattr(measures, condition.metric, condition.value))
             for position, condition in enumerate(conditions)]
    unknown = [Condition(f"condition {position} of the project's gate", "", 0, None, True)
               for position in sorted(positions) if position >= len(known)]
    return tuple(known + unknown)


def report_of(project: str, *, groups: Optional[Mapping[str, Any]] = None, measures: Optional[Mapping[str, Any]] = None,
              verdict: Optional[Mapping[str, Any]] = None, files: Optional[Mapping[str, Any]] = None,
              functions: Iterable[Function] = (), conditions: Iterable[Condition] = (), skipped: Iterable[Skipped] = (),
              about: About = About(), text_of: Callable[[str], Optional[str]] = no_text, raw: bytes = b"") -> Report:
    """The report of what these replies say. Each is the parsed object of an `ok` reply, or None if it was not asked.

    `conditions` are those of the gate that the verdict is about, in the order in which they were set.
    """
    found = groups_of(groups) if groups is not None else ()
    measured = measures_of(measures) if measures is not None else None
    word, failed = verdict_of(verdict) if verdict is not None else ("", ())
    # other clients may have changed the project between the two replies: then these are not the values that were judged
    is_judged = measures is not None and verdict is not None and measures.get("version") == verdict.get("version")
    versions = [member(reply, "version", int) for reply in (groups, measures, verdict, files) if reply is not None]
    return Report(project, max(versions, default=0), found, len(found), measured, tuple(functions), word,
                  judged(conditions, failed, measured if is_judged else None), files_of(files) if files is not None else (), tuple(skipped),
                  about, text_of, raw)


# --------------------------------------------------------------------------------------------- order and limit

SORTS = ("tokens", "path")


def arranged(report: Report, sort: str = "", top: Optional[int] = None) -> Report:
    """The report with its groups ordered, the largest first or by path, and only the first `top` of them."""
    groups = report.groups
    if sort == "tokens":
        groups = tuple(sorted(groups, key=lambda group: (-group.tokens, group.places[0].path, group.places[0].at)))
    elif sort == "path":
        groups = tuple(sorted(groups, key=lambda group: (group.places[0].path, group.places[0].at, -group.tokens)))
    elif sort:
        raise ValueError(f"no order is called {sort!r}")
    return dataclasses.replace(report, groups=groups if top is None else groups[:top])
