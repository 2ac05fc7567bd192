"""The check of what changed: only duplicates and functions that touch a changed line count, and old ones fail no build."""
from __future__ import annotations

import dataclasses
import json
from collections.abc import Sequence
from typing import Any

from .call import Call
from .changed import WHOLE, Lines
from .findings import DENSITY, Condition, Group, Measures, Report, groups_of
from .gate import ANY_DUPLICATE, failed_by
from .protocol import Server
from .upload import Upload

# What conditions of the gate can be about in a check.
JUDGED = ("duplicated_blocks", "duplicated_files", "duplicated_lines", DENSITY, "files", "lines")
# The name that --max-complexity has among the conditions.
FUNCTION_COMPLEXITY = "function_complexity"


def checked(server: Server, call: Call) -> Report:
    """The duplicates and functions that touch a changed line, judged by the gate over the changed lines, or else on any of them."""
    assert call.done is not None
    files = {file.path: file for file in call.files}
    lines = {path: bounded(found if counts_lines_as_git(call.done, path) else WHOLE, files[path].lines)
             for path, found in sorted(call.lines.items()) if path in call.done.known}
    groups = changed_groups(server, call, lines)
    limit = call.options.max_complexity
    functions = [function for function in (call.functions(server, lines) if limit is not None else ())
                 if lines[function.path].meet(function.first, function.last)]
    failed = tuple(function for function in functions if function.failed)
    measures = measures_of_changes(lines, groups)
    conditions = [dataclasses.replace(condition, value=getattr(measures, condition.metric),
                                      failed=failed_by(condition, getattr(measures, condition.metric)))
                  for condition in call.gate or [ANY_DUPLICATE]]
    if limit is not None:
        worst = max((function.complexity for function in functions), default=0)
        conditions.append(Condition(FUNCTION_COMPLEXITY, "GT", limit, worst, bool(failed)))
    word = "ERROR" if any(condition.failed for condition in conditions) else "OK"
    raw = {"groups": [group_json(group) for group in groups], "total": len(groups), "verdict": word,
           "functions": [dataclasses.asdict(function) for function in failed],
           "conditions": [dataclasses.asdict(condition) for condition in conditions],
           "changed": {"files": len(lines), "lines": measures.lines}, "ok": True}
    report = call.report(functions=failed, conditions=conditions, raw=json.dumps(raw, ensure_ascii=False).encode() + b"\n")
    return dataclasses.replace(report, groups=tuple(groups), total=len(groups), verdict=word, conditions=tuple(conditions))


def counts_lines_as_git(done: Upload, path: str) -> bool:
    """Whether git sees the file's lines where the server does. Git reads bytes, and in UTF-16 the byte of a line feed may be part of
    another character."""
    text = done.text_of(path)
    try:
        with open(done.tree.file(path), "rb") as file:
            return text is not None and file.read().count(b"\n") == text.count("\n")
    except OSError:
        return False


def bounded(lines: Lines, last: int) -> Lines:
    return Lines([(start, min(end, last)) for start, end in lines.runs if start <= last], lines.cuts)


def changed_groups(server: Server, call: Call, lines: dict[str, Lines]) -> list[Group]:
    """The groups with a place that touches a changed line, each once, and those places of it first."""
    found: dict[Group, Group] = {}
    for _, members in call.each(server, "groups", lines):
        for group in groups_of(members):
            meeting = [place for place in group.places if place.path in lines and lines[place.path].meet(place.first, place.last)]
            if meeting:
                found[group] = Group(group.tokens, (*meeting, *(place for place in group.places if place not in meeting)))
    return sorted(found.values(), key=lambda group: (group.places[0].path, group.places[0].at, -group.tokens))


def measures_of_changes(lines: dict[str, Lines], groups: Sequence[Group]) -> Measures:
    """What the gate of `check` is about: changed lines, and those of them that are duplicated."""
    spans: dict[str, set[tuple[int, int]]] = {}
    for group in groups:
        for place in group.places:
            if place.path in lines and lines[place.path].meet(place.first, place.last):
                spans.setdefault(place.path, set()).add((place.first, place.last))
    total = sum(found.count for found in lines.values())
    duplicated = sum(lines[path].within(found) for path, found in spans.items())
    return Measures(complexity=0, duplicated_blocks=sum(map(len, spans.values())), duplicated_files=len(spans),
                    duplicated_lines=duplicated, duplicated_lines_density=duplicated * 10_000 // total if total else 0,
                    files=len(lines), lines=total, ncloc=0)


def group_json(group: Group) -> dict[str, Any]:
    return {"tokens": group.tokens, "places": [dataclasses.asdict(place) for place in group.places]}
