"""OpenMetrics text, as GitLab's metrics report and Prometheus read it."""
from __future__ import annotations

from typing import TextIO

from ..findings import DENSITY, METRICS, Report


def write(report: Report, out: TextIO) -> None:
    """A gauge for each measure, the density as a percentage, and the number of groups."""
    values = [("cqd_duplicates", str(report.total))]
    if report.measures:
        for metric in METRICS:
            value = getattr(report.measures, metric)
            percentage = metric == DENSITY
            values.append((f"cqd_{metric}{'_percent' if percentage else ''}",
                           f"{value // 100}.{value % 100:02}" if percentage else str(value)))
    if report.verdict in ("OK", "ERROR"):
        values.append(("cqd_gate_failed", str(int(report.verdict == "ERROR"))))
    for name, value in values:
        out.write(f"# TYPE {name} gauge\n{name} {value}\n")
    out.write("# EOF\n")
