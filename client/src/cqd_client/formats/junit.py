"""JUnit's XML: a test case for each condition of the gate."""
from __future__ import annotations

from typing import Iterator, TextIO
from xml.sax.saxutils import escape

from ..findings import Condition, Report
from ..wording import left_out, requirement, violation
from .cpd import NOT_XML, attribute


def case(project: str, name: str, failure: str = "", kind: str = "failure") -> str:
    head = f"<testcase classname={attribute('cqd.' + project)} name={attribute(name)}"
    if not failure:
        return head + "/>"
    return f'{head}><{kind} type="gate" message={attribute(failure)}>{escape(NOT_XML.sub(chr(0xFFFD), failure))}</{kind}></testcase>'


def cases(project: str, conditions: tuple[Condition, ...]) -> Iterator[str]:
    for condition in conditions:
        yield case(project, requirement(condition), violation(condition) if condition.failed else "")


def write(report: Report, out: TextIO) -> None:
    """A gate whose conditions the caller does not know is one case, with the verdict."""
    found = list(cases(report.project, report.conditions))
    failures = len(report.failed)
    if not found and report.verdict:
        failures = int(report.verdict == "ERROR")
        found = [case(report.project, "Quality gate", "the gate failed" if failures else "")]
    errors = 0
    if report.verdict == "UNKNOWN":
        errors = 1
        found.append(case(report.project, "all files were read", left_out(report), "error"))
    counts = f'tests="{len(found)}" failures="{failures}" errors="{errors}"'
    # the schema has a time without a zone
    timestamp = f" timestamp={attribute(report.about.date[:19])}" if report.about.date else ""
    out.write(f'<?xml version="1.0" encoding="UTF-8"?>\n<testsuites {counts}>\n')
    out.write(f'<testsuite name={attribute("cqd " + report.project)} {counts} skipped="0"{timestamp}>\n')
    out.writelines(line + "\n" for line in found)
    out.write("</testsuite>\n</testsuites>\n")
