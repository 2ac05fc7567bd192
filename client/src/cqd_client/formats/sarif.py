"""SARIF 2.1.0, which GitHub's code scanning and many editors read. A result for each place of each group."""
from __future__ import annotations

import json
from typing import Any, TextIO
from urllib.parse import quote

from ..findings import Function, Group, Place, Report
from ..runs import Sources
from ..wording import counted, function_message, others

# GitHub shows at most 1,000 related locations of a result; more than a few help nobody.
MOST_RELATED = 20

RULES: list[dict[str, Any]] = [
    {"id": "duplicate", "name": "DuplicatedCode", "shortDescription": {"text": "Duplicated code"},
     "fullDescription": {"text": "The same run of tokens occurs at more than one place."},
     "help": {"text": "Move what the places have in common to one place, and use it from the others."},
     "defaultConfiguration": {"level": "warning"}, "properties": {"tags": ["maintainability", "duplication"]}},
    {"id": "complexity", "name": "ComplexFunction", "shortDescription": {"text": "Complex function"},
     "fullDescription": {"text": "The function makes more decisions than the limit allows."},
     "help": {"text": "Split the function, or simplify its decisions."},
     "defaultConfiguration": {"level": "warning"}, "properties": {"tags": ["maintainability", "complexity"]}},
]


def utf16(line: str, column: int) -> int:
    """The column of SARIF, which counts from 1 in UTF-16 code units, of a column in characters from 0."""
    return len(line[:column].encode("utf-16-le", "surrogatepass")) // 2 + 1


def physical(path: str, region: dict[str, int]) -> dict[str, Any]:
    return {"physicalLocation": {"artifactLocation": {"uri": quote(path), "uriBaseId": "%SRCROOT%"}, "region": region}}


def region_of(sources: Sources, group: Group, place: Place) -> dict[str, int]:
    """The lines of a place, with the columns if they are known."""
    region = {"startLine": place.first, "endLine": place.last}
    run, source = sources.run(group, place), sources.source(place.path)
    if run and source:
        region["startColumn"] = utf16(source.lines(place.first, place.first)[0], run.first_column)
        region["endColumn"] = utf16(source.lines(place.last, place.last)[0], run.end_column)
    return region


def duplicate(sources: Sources, group: Group, place: Place, identity: str) -> dict[str, Any]:
    near = [other for other in group.places if other is not place][:MOST_RELATED]
    links = ", ".join(f"[{other.path.rpartition('/')[2]}:{other.first}]({number})" for number, other in enumerate(near, 1)
                      if not set("[]\\") & set(other.path))
    message = f"{counted(group.tokens, 'token')} are duplicated at {links or others(group, place, MOST_RELATED)}"
    if len(near) < len(group.places) - 1:
        message += f" and {counted(len(group.places) - 1 - len(near), 'more place')}"
    return {
        "ruleId": "duplicate", "ruleIndex": 0, "level": "warning", "message": {"text": message + "."},
        "locations": [physical(place.path, region_of(sources, group, place))],
        "relatedLocations": [{"id": number, "message": {"text": "the same tokens"},
                              **physical(other.path, {"startLine": other.first, "endLine": other.last})}
                             for number, other in enumerate(near, 1)],
        "partialFingerprints": {"duplicateTokens/v1": identity},
    }


def complex_function(function: Function) -> dict[str, Any]:
    return {
        "ruleId": "complexity", "ruleIndex": 1, "level": "warning",
        "message": {"text": function_message(function) + "."},
        "locations": [physical(function.path, {"startLine": function.first, "endLine": function.last})],
        "partialFingerprints": {"functionName/v1": function.name},
    }


def properties(report: Report) -> dict[str, Any]:
    """What SARIF has no place for: the verdict and the measures."""
    found: dict[str, Any] = {"project": report.project, "version": report.version}
    if report.verdict:
        found["verdict"] = report.verdict
    if report.measures:
        found["measures"] = vars(report.measures)
    return found


def driver(version: str) -> dict[str, Any]:
    return {"name": "cqd", **({"version": version} if version else {}), "rules": RULES}


def invocation(report: Report) -> dict[str, Any]:
    date = report.about.date
    return {"executionSuccessful": not report.skipped, **({"endTimeUtc": date} if date.endswith("Z") else {})}


def write(report: Report, out: TextIO) -> None:
    sources = Sources(report)
    results = [duplicate(sources, group, place, identity) for group, place, identity in sources.identified()]
    results += [complex_function(function) for function in report.complex_functions]
    log = {
        "$schema": "https://json.schemastore.org/sarif-2.1.0.json", "version": "2.1.0",
        "runs": [{
            "tool": {"driver": driver(report.about.program)},
            "automationDetails": {"id": f"cqd/{report.project}/"},
            "columnKind": "utf16CodeUnits",
            "invocations": [invocation(report)],
            "results": results,
            "properties": properties(report),
        }],
    }
    json.dump(log, out, ensure_ascii=False, separators=(",", ":"))
    out.write("\n")
