"""The HTML page of a report: one file that loads nothing, whatever names and sources hold."""
from __future__ import annotations

import base64
import datetime
import hashlib
import json
from typing import Any, Iterator, TextIO

import jinja2
from markupsafe import Markup

from ..findings import DENSITY, Condition, Function, Report
from ..wording import counted, label, percent, requirement, shown, value_text
from .listing import Listing, duplicated_lines
from .treemap import Cell, Rectangle, cells_of

# How many rows of files and functions are shown, and how many places of a group if scripts may not run.
MOST_FILES = 12
MOST_FUNCTIONS = 12
MOST_LISTED_PLACES = 10

METRICS_SHOWN = ("duplicated_lines", "duplicated_blocks", "duplicated_files", "files", "lines", "ncloc", "complexity")

ENVIRONMENT = jinja2.Environment(loader=jinja2.PackageLoader("cqd_client", "page"), autoescape=True, trim_blocks=True,
                                 lstrip_blocks=True, undefined=jinja2.StrictUndefined)


def asset(name: str) -> str:
    """The text of a style or script of the package."""
    loader = ENVIRONMENT.loader
    assert loader is not None
    return loader.get_source(ENVIRONMENT, name)[0]


def source_hash(text: str) -> str:
    """By this a Content-Security-Policy allows an inline style or script."""
    return "'sha256-" + base64.b64encode(hashlib.sha256(text.encode("utf-8")).digest()).decode("ascii") + "'"


def data(value: Any) -> Markup:
    """JSON for the inside of a script element: nothing in it ends the element or begins a comment."""
    return Markup(json.dumps(value, ensure_ascii=False, separators=(",", ":")).replace("<", "\\u003c"))


def position(rectangle: Rectangle) -> str:
    return (f"left:{rectangle.left:.3f}%;top:{rectangle.top:.3f}%;"
            f"width:{rectangle.width:.3f}%;height:{rectangle.height:.3f}%")


def map_style(cells: list[Cell]) -> str:
    """The places of the map's cells. A style attribute would not pass the page's policy."""
    wide = "".join(f"#c{number}{{{position(cell.wide)}}}\n" for number, cell in enumerate(cells, 1))
    narrow = "".join(f"#c{number}{{{position(cell.narrow)}}}\n" for number, cell in enumerate(cells, 1))
    return f"{wide}@media (max-width:44rem){{\n{narrow}}}\n"


def split(path: str) -> tuple[str, str]:
    """The folder of a path with its slash, and the name, both as they are shown."""
    folder, slash, name = path.rpartition("/")
    return shown(folder + slash), shown(name)


def date_text(date: str) -> str:
    """A date of ISO 8601 as people write it, or the text itself if it is none."""
    try:
        moment = datetime.datetime.fromisoformat(date.replace("Z", "+00:00"))
    except ValueError:
        return shown(date)
    zone = "UTC" if moment.utcoffset() == datetime.timedelta(0) else moment.strftime("%z")
    return f"{moment.day} {moment:%B %Y, %H:%M} {zone}".strip()


def bar(value: int, most: int) -> int:
    """The width of a bar in steps of a twentieth, at least one if there is anything."""
    return max(1, round(20 * value / most)) if value and most else 0


def file_rows(report: Report, duplicated: dict[str, int]) -> list[dict[str, Any]]:
    """The files with the most duplicated lines."""
    lines = {file.path: file.lines for file in report.files}
    found = sorted(duplicated.items(), key=lambda entry: (-entry[1], entry[0]))[:MOST_FILES]
    return [{"path": path, "folder": split(path)[0], "name": split(path)[1], "duplicated": count,
             "share": percent(count * 10_000 // lines[path]) if lines.get(path) else "",
             "bar": bar(count, found[0][1])}
            for path, count in found]


def function_rows(report: Report) -> list[Function]:
    return sorted(report.functions, key=lambda function: (-function.complexity, function.path, function.first))[:MOST_FUNCTIONS]


def omissions(report: Report) -> Iterator[tuple[str, list[tuple[str, str]]]]:
    """What the page does not cover: files that were not uploaded, and files without tokens."""
    if report.skipped:
        yield counted(len(report.skipped), "file") + " not uploaded", [(shown(file.path), file.why) for file in report.skipped]
    empty = [file for file in report.files if file.state != "ok"]
    if empty:
        yield counted(len(empty), "file") + " without tokens", [
            (shown(file.path), f"not valid {file.lang} at byte {file.at:,}" if file.at is not None else "more than 262,144 tokens")
            for file in empty]


def condition_row(condition: Condition) -> dict[str, Any]:
    whole = requirement(condition)
    name = label(condition.metric)
    return {"failed": condition.failed, "name": name, "bound": whole[len(name):].strip(),
            "value": "" if condition.value is None else value_text(condition.metric, condition.value)}


def folders_of(listing: Listing) -> list[str]:
    """All folders that have a group, in order."""
    found = set()
    for path in listing.paths:
        while "/" in path:
            path = path.rpartition("/")[0]
            found.add(path)
    return sorted(found)


def write(report: Report, out: TextIO) -> None:
    """Writes the page to a text stream, which has to encode as UTF-8.

    The map and the shares of the files are of the report's groups, so these should be all groups of the project.
    """
    listing = Listing(report)
    duplicated = duplicated_lines(report.groups)
    is_whole = len(report.groups) == report.total
    cells = cells_of(report.files, duplicated) if is_whole else []
    style, script, positions = asset("style.css"), asset("page.js"), map_style(cells)
    policy = (f"default-src 'none'; style-src {source_hash(style)} {source_hash(positions)}; "
              f"script-src {source_hash(script)}; base-uri 'none'; form-action 'none'")
    context = {
        "report": report, "policy": policy, "style": Markup(style), "positions": Markup(positions), "script": Markup(script),
        "index": data(listing.index()), "texts": data(listing.texts()),
        "groups": listing.groups, "cells": cells, "folders": folders_of(listing),
        "files": file_rows(report, duplicated) if is_whole else [], "functions": function_rows(report),
        "conditions": [condition_row(condition) for condition in report.conditions],
        "metrics": [(metric, label(metric), value_text(metric, getattr(report.measures, metric)))
                    for metric in METRICS_SHOWN] if report.measures else [],
        "density": percent(getattr(report.measures, DENSITY)) if report.measures else "",
        "density_bar": min(100, round(getattr(report.measures, DENSITY) / 100)) if report.measures else 0,
        "omissions": list(omissions(report)), "date": date_text(report.about.date),
        "most_listed": MOST_LISTED_PLACES,
    }
    ENVIRONMENT.get_template("page.html").stream(context).dump(out)


ENVIRONMENT.filters.update(shown=shown, counted=counted, percent=percent)
