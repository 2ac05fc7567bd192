"""CSV with a row for each place of each group, for spreadsheets and scripts."""
from __future__ import annotations

import csv
from typing import TextIO

from ..findings import Report

COLUMNS = ("group", "tokens", "places", "path", "first", "last")


def cell(path: str) -> str:
    """The path, so that a spreadsheet does not read it as a formula: `./=x` is the same file as `=x`."""
    return "./" + path if path[0] in "=+-@" else path


def write(report: Report, out: TextIO) -> None:
    rows = csv.writer(out, lineterminator="\n")
    rows.writerow(COLUMNS)
    for number, group in enumerate(report.groups, 1):
        for place in group.places:
            rows.writerow((number, group.tokens, len(group.places), cell(place.path), place.first, place.last))
