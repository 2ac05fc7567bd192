"""Each format is read back, where Debian has one by a reader that others wrote."""
from __future__ import annotations

import csv
import dataclasses
import importlib
import io
import json
import re
from pathlib import Path
from typing import Any
from urllib.parse import unquote

import pytest

from cqd_client import formats
from cqd_client.findings import Group, Place, Report, arranged
from cqd_client.runs import Sources
from cqd_client.wording import extent, shown
from reports import FIRST, SECOND, hostile, real, two_places

HEADERS = Path("/usr/include/linux")


def written(report: Report, name: str) -> str:
    out = io.StringIO()
    formats.write(report, name, out)
    assert out.getvalue().endswith("\n")
    return out.getvalue()


@pytest.fixture(scope="module")
def headers(program: str) -> Report:
    """The C headers of Debian's linux-libc-dev."""
    files = sorted(HEADERS.glob("*.h"))
    if not files:
        pytest.skip("there is no /usr/include/linux: install linux-libc-dev")
    report = real(program, HEADERS, files)
    assert report.groups
    return report


@pytest.fixture(params=["hostile", "real"])
def report(request: pytest.FixtureRequest) -> Report:
    found: Report = hostile() if request.param == "hostile" else request.getfixturevalue("headers")
    return found


def places(report: Report) -> list[tuple[int, Place]]:
    return [(group.tokens, place) for group in report.groups for place in group.places]


# ------------------------------------------------------------------------------------------------------ text, json


def test_text_has_a_line_for_each_group_that_a_problem_matcher_links(report: Report) -> None:
    lines = written(report, "text").splitlines()
    for group, line in zip(report.groups, lines):
        found = re.fullmatch(r"(.+?):(\d+): ([\d,]+) tokens?, also at (.+)", line)
        assert found and int(found[2]) == group.places[0].first
        assert int(found[3].replace(",", "")) == group.tokens
        assert all(f":{place.first}" in found[4] for place in group.places[1:])
    assert lines[-2:][0] == "ERROR" or "ERROR" in lines
    assert not any(ord(character) < 32 or character == "\u202e" for line in lines for character in line)


def test_json_is_the_reply_as_it_came(report: Report) -> None:
    assert written(report, "json").encode("utf-8") == report.raw.rstrip(b"\n") + b"\n"


# ------------------------------------------------------------------------------------------------------ sarif

# From the standard's text: OASIS, "Static Analysis Results Interchange Format (SARIF) Version 2.1.0", sections 3.13 to 3.52.
# `additionalProperties` is false where the standard allows others only in a property bag.
TEXT = {"type": "object", "required": ["text"], "properties": {"text": {"type": "string", "minLength": 1}}, "additionalProperties": False}
REGION = {"type": "object", "required": ["startLine"], "additionalProperties": False,
          "properties": {name: {"type": "integer", "minimum": 1} for name in ("startLine", "endLine", "startColumn", "endColumn")}}
LOCATION = {
    "type": "object", "additionalProperties": False, "required": ["physicalLocation"],
    "properties": {
        "id": {"type": "integer", "minimum": 0}, "message": TEXT,
        "physicalLocation": {
            "type": "object", "additionalProperties": False, "required": ["artifactLocation", "region"],
            "properties": {"region": REGION, "artifactLocation": {
                "type": "object", "additionalProperties": False, "required": ["uri"],
                "properties": {"uri": {"type": "string", "format": "uri-reference", "pattern": "^[A-Za-z0-9._~/%-]+$"},
                               "uriBaseId": {"type": "string"}}}}}}}
RULE = {"type": "object", "required": ["id"], "additionalProperties": False,
        "properties": {"id": {"type": "string"}, "name": {"type": "string"}, "shortDescription": TEXT, "fullDescription": TEXT,
                       "help": TEXT, "properties": {"type": "object"},
                       "defaultConfiguration": {"properties": {"level": {"enum": ["none", "note", "warning", "error"]}}}}}
RESULT = {
    "type": "object", "required": ["message", "ruleId", "locations"], "additionalProperties": False,
    "properties": {
        "ruleId": {"enum": ["duplicate", "complexity"]}, "ruleIndex": {"type": "integer", "minimum": 0, "maximum": 1},
        "level": {"enum": ["none", "note", "warning", "error"]}, "message": TEXT,
        "locations": {"type": "array", "items": LOCATION, "minItems": 1, "maxItems": 1},
        "relatedLocations": {"type": "array", "items": LOCATION, "uniqueItems": True},
        "partialFingerprints": {"type": "object", "minProperties": 1, "additionalProperties": {"type": "string"}}}}
RUN = {
    "type": "object", "required": ["tool", "results"], "additionalProperties": False,
    "properties": {
        "tool": {"type": "object", "required": ["driver"], "additionalProperties": False, "properties": {
            "driver": {"type": "object", "required": ["name"], "additionalProperties": False, "properties": {
                "name": {"type": "string"}, "version": {"type": "string"},
                "rules": {"type": "array", "items": RULE, "uniqueItems": True}}}}},
        "automationDetails": {"type": "object", "properties": {"id": {"type": "string"}}, "additionalProperties": False},
        "columnKind": {"enum": ["utf16CodeUnits", "unicodeCodePoints"]},
        "invocations": {"type": "array", "items": {
            "type": "object", "required": ["executionSuccessful"], "additionalProperties": False, "properties": {
                "executionSuccessful": {"type": "boolean"},
                "endTimeUtc": {"type": "string", "pattern": r"^\d{4}-\d\d-\d\dT\d\d:\d\d:\d\d(\.\d+)?Z$"}}}},
        "results": {"type": "array", "items": RESULT}, "properties": {"type": "object"}}}
SARIF = {"type": "object", "required": ["version", "runs"], "additionalProperties": False,
         "properties": {"$schema": {"type": "string", "format": "uri"}, "version": {"const": "2.1.0"},
                        "runs": {"type": "array", "items": RUN}}}


def validated(text: str, schema: dict[str, Any]) -> Any:
    jsonschema = pytest.importorskip("jsonschema")
    value = json.loads(text)
    jsonschema.validate(value, schema)
    return value


def test_sarif_is_valid_and_has_every_place(report: Report) -> None:
    run = validated(written(report, "sarif"), SARIF)["runs"][0]
    duplicates = [result for result in run["results"] if result["ruleId"] == "duplicate"]
    found = [(unquote(location["artifactLocation"]["uri"]), location["region"]["startLine"], location["region"]["endLine"])
             for result in duplicates for location in [result["locations"][0]["physicalLocation"]]]
    assert found == [(place.path, place.first, place.last) for _, place in places(report)]
    for result in run["results"]:
        ids = {location["id"] for location in result.get("relatedLocations", ())}
        assert {int(link) for link in re.findall(r"\]\((\d+)\)", result["message"]["text"])} <= ids
        assert run["tool"]["driver"]["rules"][result["ruleIndex"]]["id"] == result["ruleId"]
    assert len({(result["locations"][0]["physicalLocation"]["artifactLocation"]["uri"], json.dumps(result["partialFingerprints"]))
                for result in duplicates}) == len(duplicates)


def test_sarif_columns_enclose_the_run() -> None:
    report = two_places()
    for result in json.loads(written(report, "sarif"))["runs"][0]["results"]:
        location = result["locations"][0]["physicalLocation"]
        lines = [FIRST, SECOND][location["artifactLocation"]["uri"] == "src/b.c"].split("\n")
        region = location["region"]
        units = ["".join(lines[region[name] - 1]).encode("utf-16-le") for name in ("startLine", "endLine")]
        assert units[0][2 * (region["startColumn"] - 1):].decode("utf-16-le").startswith("int sum(")
        assert units[1][:2 * (region["endColumn"] - 1)].decode("utf-16-le").endswith("}")


def fingerprints(report: Report) -> list[str]:
    return [result["partialFingerprints"]["duplicateTokens/v1"]
            for result in json.loads(written(report, "sarif"))["runs"][0]["results"]]


def test_a_fingerprint_stays_when_lines_move_and_changes_with_the_tokens() -> None:
    before = fingerprints(two_places())
    assert before[0] == before[1]
    moved = "int further(void);\n\n\n" + FIRST.replace("    ", "\t").replace("adds", "really adds")
    assert fingerprints(two_places(first=moved)) == before
    renamed = FIRST.replace("sum(", "add("), SECOND.replace("sum(", "add(")
    report = two_places(renamed[0].replace("add(", "sum("), renamed[1].replace("add(", "sum("))
    other = dataclasses.replace(report, text_of={"src/a.c": renamed[0], "src/b.c": renamed[1]}.get)
    assert set(fingerprints(other)).isdisjoint(before)


def test_equal_runs_in_one_file_have_fingerprints_of_their_own() -> None:
    report = two_places()
    group = report.groups[0]
    twice = dataclasses.replace(report, groups=(Group(group.tokens, group.places[:1] * 2),))
    assert len(set(fingerprints(twice))) == 2


def test_real_sources_are_read_as_the_server_reads_them(headers: Report) -> None:
    sources = Sources(headers)
    known = [sources.run(group, place) is not None for group in headers.groups for place in group.places]
    assert sum(known) >= 0.99 * len(known)


# ------------------------------------------------------------------------------------------------------ gitlab

# From "Code Quality report format" of GitLab's documentation.
GITLAB = {"type": "array", "items": {
    "type": "object", "required": ["description", "check_name", "fingerprint", "location", "severity"],
    "properties": {
        "description": {"type": "string", "minLength": 1}, "check_name": {"type": "string"}, "fingerprint": {"type": "string"},
        "severity": {"enum": ["info", "minor", "major", "critical", "blocker"]},
        "location": {"type": "object", "required": ["path", "lines"], "properties": {
            "path": {"type": "string", "pattern": "^(?!\\./)"},
            "lines": {"type": "object", "required": ["begin"], "properties": {"begin": {"type": "integer", "minimum": 1}}}}}}}}


def test_gitlab_is_valid_and_has_every_place_once(report: Report) -> None:
    entries = validated(written(report, "gitlab"), GITLAB)
    found = [(entry["location"]["path"], entry["location"]["lines"]["begin"]) for entry in entries if entry["check_name"] == "duplicate"]
    assert found == [(place.path, place.first) for _, place in places(report)]
    assert len({entry["fingerprint"] for entry in entries}) == len(entries)


# ------------------------------------------------------------------------------------------------- cpd, junit

# From PMD's schema of CPD's reports, version 1.0.0, without its namespace: reports before PMD 7 have none.
CPD = """<grammar xmlns="http://relaxng.org/ns/structure/1.0" datatypeLibrary="http://www.w3.org/2001/XMLSchema-datatypes">
<start><element name="pmd-cpd"><zeroOrMore><element name="duplication">
  <attribute name="lines"><data type="positiveInteger"/></attribute><attribute name="tokens"><data type="positiveInteger"/></attribute>
  <oneOrMore><element name="file"><attribute name="path"/>
    <attribute name="line"><data type="positiveInteger"/></attribute><attribute name="endline"><data type="positiveInteger"/></attribute>
    <optional><attribute name="column"><data type="positiveInteger"/></attribute></optional>
    <optional><attribute name="endcolumn"><data type="positiveInteger"/></attribute></optional></element></oneOrMore>
  <optional><element name="codefragment"><text/></element></optional>
</element></zeroOrMore></element></start></grammar>"""


def xml(text: str) -> Any:
    etree = pytest.importorskip("lxml.etree")
    return etree.fromstring(text.encode("utf-8"))


def test_cpd_is_valid_and_has_every_place_and_the_lines_of_the_first(report: Report) -> None:
    root = xml(written(report, "cpd"))
    from lxml import etree  # pylint: disable=import-outside-toplevel
    etree.RelaxNG(etree.fromstring(CPD)).assertValid(root)
    # what Jenkins' Warnings plugin reads: the paths */pmd-cpd/duplication, its file and its codefragment
    found = [(int(duplication.get("tokens")), file.get("path"), int(file.get("line")))
             for duplication in root.iterfind("duplication") for file in duplication.iterfind("file")]
    assert [(tokens, line) for tokens, _, line in found] == [(tokens, place.first) for tokens, place in places(report)]
    for group, duplication in zip(report.groups, root.iterfind("duplication")):
        first = group.places[0]
        text = report.text_of(first.path)
        assert text
        lines = [line.rstrip("\r") for line in text.split("\n")[first.first - 1:first.last]]
        assert duplication.findtext("codefragment") == "\n".join(lines).replace("\x1b", "\ufffd").replace("\x0c", "\ufffd")


def test_junit_has_a_case_for_each_condition(report: Report) -> None:
    junitparser = pytest.importorskip("junitparser")
    suites = junitparser.JUnitXml.fromstring(written(report, "junit").encode("utf-8"))
    cases = [case for suite in suites for case in suite]
    assert len(cases) == len(report.conditions) == suites.tests
    assert suites.failures == len(report.failed) == sum(bool(case.result) for case in cases) == 1
    assert cases[0].name == f"Duplicated lines density at most {'3.00%' if report.project == 'shop' else '0.01%'}"
    assert "more than" in cases[0].result[0].message


# --------------------------------------------------------------------------------------- csv, markdown, metrics


def test_csv_has_a_row_for_each_place_and_no_formula(report: Report) -> None:
    rows = list(csv.DictReader(io.StringIO(written(report, "csv"), newline="")))
    assert [(int(row["tokens"]), row["path"].removeprefix("./"), int(row["first"]), int(row["last"])) for row in rows] \
        == [(tokens, place.path, place.first, place.last) for tokens, place in places(report)]
    assert not any(value[0] in "=+-@" for row in rows for value in row.values())


def test_markdown_is_short_and_its_names_are_code(report: Report) -> None:
    text = written(report, "markdown")
    assert len(text) < 10_000 and text.count("\n") < 40
    outside = re.sub(r"(`+) ?.*?[^`] ?\1(?!`)", "", text).replace("<br>", "").replace("<!-- cqd -->", "")
    assert "<" not in outside and "@" not in outside and "\u202e" not in text
    rows = [line for line in text.splitlines() if line.startswith("| ")]
    assert all(len(re.findall(r"(?<!\\)\|", row)) == 4 for row in rows)
    assert "failed" in text


def test_markdown_is_what_github_shows(report: Report) -> None:
    """Read by GitHub's own reader of Markdown."""
    cmarkgfm = pytest.importorskip("cmarkgfm", reason="python3-cmarkgfm is missing")
    unsafe = importlib.import_module("cmarkgfm.cmark").Options.CMARK_OPT_UNSAFE
    shown_html = cmarkgfm.github_flavored_markdown_to_html(written(report, "markdown"), unsafe)
    root = xml("<body>" + shown_html.replace("<br>", "<br/>") + "</body>")
    assert {element.tag for element in root.iter() if isinstance(element.tag, str)} <= {
        "body", "h3", "p", "ul", "li", "strong", "code", "table", "thead", "tbody", "tr", "th", "td", "br"}
    largest = sorted(report.groups, key=lambda group: -group.tokens)[:10]
    rows = root.findall("table")[0].findall("tbody/tr")
    assert [int(row.findtext("td").replace(",", "")) for row in rows] == [group.tokens for group in largest]
    for row, group in zip(rows, largest):
        names = [f"{shown(place.path)}:{extent(place)}" for place in group.places[:4]]
        assert [code.text for code in row.findall("td/code")] == names


def test_metrics_are_openmetrics(report: Report) -> None:
    text = written(report, "metrics")
    parser = pytest.importorskip("prometheus_client.openmetrics.parser")
    found = {family.name: family.samples[0].value for family in parser.text_string_to_metric_families(text)}
    assert report.measures
    assert found["cqd_lines"] == report.measures.lines and found["cqd_duplicates"] == report.total
    assert found["cqd_duplicated_lines_density_percent"] == pytest.approx(report.measures.duplicated_lines_density / 100)
    assert found["cqd_gate_failed"] == 1


# ------------------------------------------------------------------------------------------------ all formats


def test_a_report_without_texts_is_written_in_all_formats() -> None:
    report = dataclasses.replace(hostile(), text_of=lambda path: None)
    for name in formats.NAMES:
        written(report, name)


def test_groups_are_ordered_and_limited_before_they_are_written() -> None:
    groups = tuple(Group(tokens, (Place(path, 0, 1, 2), Place("z.c", 0, 1, 2))) for tokens, path in ((3, "c"), (9, "b"), (5, "a")))
    report = Report("p", 1, groups, 3)
    assert [group.tokens for group in arranged(report, "tokens", 2).groups] == [9, 5]
    assert [group.places[0].path for group in arranged(report, "path").groups] == ["a", "b", "c"]
    assert "1 more duplicate not shown" in written(arranged(report, "tokens", 2), "text")
