"""The server's reply, as it came."""
from __future__ import annotations

import dataclasses
import json
from typing import TextIO

from ..findings import Report


def write(report: Report, out: TextIO) -> None:
    """The reply's line. Nothing is ordered or limited. Only a verdict that the call does not share, since files were left out or a
    condition of its own failed, is replaced: whoever reads `OK` reads it of a call that passed."""
    line = report.raw.decode("utf-8").rstrip("\n")
    members = json.loads(line) if report.verdict and '"verdict"' in line else {}
    if members.get("verdict", report.verdict) != report.verdict:
        members |= {"verdict": report.verdict, "conditions": [dataclasses.asdict(condition) for condition in report.conditions],
                    "left_out": [dataclasses.asdict(skipped) for skipped in report.skipped]}
        line = json.dumps(members, ensure_ascii=False)
    out.write(line + "\n")
