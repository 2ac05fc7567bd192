"""GitLab's Code Quality report: a JSON list with an entry for each place of each group."""
from __future__ import annotations

import hashlib
import json
from typing import Any, TextIO

from ..findings import Report
from ..runs import Sources
from ..wording import duplicate_message, function_message

# GitLab shows a description in one line of the merge request.
MOST_OTHERS = 3


def entry(kind: str, severity: str, description: str, path: str, first: int, last: int, identity: str) -> dict[str, Any]:
    fingerprint = hashlib.sha256(f"{kind} {path} {identity}".encode("utf-8", "surrogatepass")).hexdigest()
    return {"type": "issue", "check_name": kind, "description": description, "severity": severity, "fingerprint": fingerprint,
            "location": {"path": path, "lines": {"begin": first, "end": last}}}


def write(report: Report, out: TextIO) -> None:
    entries = [entry("duplicate", "minor", duplicate_message(group, place, MOST_OTHERS), place.path, place.first, place.last,
                     identity)
               for group, place, identity in Sources(report).identified()]
    numbers: dict[tuple[str, str], int] = {}
    for function in report.complex_functions:
        number = numbers[function.path, function.name] = numbers.get((function.path, function.name), 0) + 1
        entries.append(entry("complexity", "major", function_message(function), function.path, function.first, function.last,
                             f"{function.name}:{number}"))
    json.dump(entries, out, ensure_ascii=False, separators=(",", ":"))
    out.write("\n")
