"""A short comment for a pull request, in the Markdown that GitHub and GitLab share."""
from __future__ import annotations

from typing import Iterable, Iterator, TextIO

from ..findings import Group, Place, Report
from ..wording import counted, extent, left_out, percent, shown, value_text, violation

# A reader of a pull request looks at a few; the page and the other formats have all.
MOST_GROUPS = 10
MOST_PLACES = 4
MOST_FUNCTIONS = 5

# By this a script finds the comment that it wrote before, to replace it.
MARK = "<!-- cqd -->"


def code(text: str) -> str:
    """The text as a code span, in which neither marks nor mentions have a meaning. No cell of a table ends in it."""
    text = shown(text).replace("\t", " ").replace("|", "\\|")
    fence = "`"
    while fence in text:
        fence += "`"
    return f"{fence} {text} {fence}" if fence != "`" or text.startswith("`") else f"`{text}`"


def head(report: Report) -> Iterator[str]:
    yield MARK
    if report.verdict:
        heads = {"OK": "✅ Quality gate passed", "ERROR": "❌ Quality gate failed"}
        yield f"### {heads.get(report.verdict, '⚠️ Quality gate could not be determined')}: {code(report.project)}"
    else:
        yield f"### Duplicated code in {code(report.project)}"
    yield ""
    if report.verdict == "UNKNOWN":
        yield f"- **{left_out(report)}**"
        yield ""
    for condition in report.failed:
        yield f"- **{violation(condition)}**"
    if report.failed:
        yield ""


def summary(report: Report) -> Iterator[str]:
    parts = [counted(report.total, "duplicate")]
    if report.measures:
        parts.append(f"{percent(report.measures.duplicated_lines_density)} of {counted(report.measures.lines, 'line')} duplicated")
        parts.append(f"complexity {value_text('complexity', report.measures.complexity)}")
    if report.about.commit:
        parts.append(f"at {code(report.about.commit[:12])}")
    yield ", ".join(parts) + "."
    yield ""


def places(group: Group) -> str:
    def one(place: Place) -> str:
        return code(f"{place.path}:{extent(place)}")
    found = "<br>".join(one(place) for place in group.places[:MOST_PLACES])
    beyond = len(group.places) - MOST_PLACES
    return found + (f"<br>and {counted(beyond, 'more place')}" if beyond > 0 else "")


def duplicates(groups: Iterable[Group], total: int) -> Iterator[str]:
    largest = sorted(groups, key=lambda group: -group.tokens)
    if not largest:
        return
    yield "| Tokens | Lines | Places |"
    yield "|---:|---:|:---|"
    for group in largest[:MOST_GROUPS]:
        yield f"| {group.tokens:,} | {group.lines:,} | {places(group)} |"
    yield ""
    if total > MOST_GROUPS:
        yield f"The {MOST_GROUPS} largest of {total:,} are shown."
        yield ""


def functions(report: Report) -> Iterator[str]:
    largest = sorted(report.complex_functions, key=lambda function: -function.complexity)
    if not largest:
        return
    yield "| Complexity | Function | Place |"
    yield "|---:|:---|:---|"
    for function in largest[:MOST_FUNCTIONS]:
        yield f"| {function.complexity:,} | {code(function.name)} | {code(f'{function.path}:{function.first}')} |"
    yield ""


def write(report: Report, out: TextIO) -> None:
    for part in (head(report), summary(report), duplicates(report.groups, report.total), functions(report)):
        out.writelines(line + "\n" for line in part)
