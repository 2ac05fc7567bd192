"""Lines that editors and problem matchers link: `path:line: 254 tokens, also at path:line`."""
from __future__ import annotations

from typing import TextIO

from ..findings import Report
from ..wording import counted, duplicate_message, function_message, left_out, location, shown, violation


def write(report: Report, out: TextIO) -> None:
    """A line for each group, for each function above the limit, and the verdict with the conditions that failed."""
    for group in report.groups:
        first = group.places[0]
        out.write(f"{location(first)}: {duplicate_message(group, first)}\n")
    if len(report.groups) < report.total:
        out.write(f"{counted(report.total - len(report.groups), 'more duplicate')} not shown\n")
    for function in report.complex_functions:
        out.write(f"{shown(function.path)}:{function.first}: {function_message(function)}\n")
    if report.verdict:
        out.write(f"{report.verdict}{': ' + left_out(report) if report.verdict == 'UNKNOWN' else ''}\n")
        for condition in report.failed:
            out.write(f"  {violation(condition)}\n")
