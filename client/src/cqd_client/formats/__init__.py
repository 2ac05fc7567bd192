"""Output formats of a report. `write` writes one of `NAMES` to a text stream, which has to encode as UTF-8."""
from __future__ import annotations

import importlib
from typing import TextIO

from ..findings import Report

# The module of each format. It is imported when it is used, since the libraries for XML take a third of the time in which a call starts.
MODULES = {"text": "text", "json": "raw", "sarif": "sarif", "gitlab": "gitlab", "cpd": "cpd", "csv": "table", "junit": "junit",
           "markdown": "markdown", "metrics": "metrics"}
NAMES = tuple(MODULES)


def write(report: Report, name: str, out: TextIO) -> None:
    """Writes the report in the format of this name. What is written ends with a line feed, or is empty."""
    if name not in MODULES:
        raise ValueError(f"no format is called {name!r}")
    importlib.import_module(f"{__name__}.{MODULES[name]}").write(report, out)
