"""Gates: their conditions as they are written, what they say in words, and which of them a call judges by."""
from __future__ import annotations

import dataclasses
import re
from collections.abc import Sequence
from typing import Any, Optional

from .faults import Fault, Misuse
from .findings import DENSITY, METRICS, Condition, Report
from .state import State

OPERATORS = {">": "GT", "<": "LT"}
GREATEST = 18_446_744_073_709_551_615
MOST = 32
# The condition that --fail-on any-duplicate adds to those of --gate.
ANY_DUPLICATE = Condition("duplicated_blocks", "GT", 0)


def condition_of(word: str) -> Condition:
    """A condition as METRIC>NUMBER or METRIC<NUMBER, the density in percent with up to two decimals."""
    parts = re.fullmatch(r"\s*([a-z_]+)\s*([<>])\s*([0-9]{1,20})(?:\.([0-9]{1,2}))?\s*%?\s*", word)
    if not parts or parts[1] not in METRICS:
        raise Misuse(f"--gate {word!r} is not METRIC>NUMBER or METRIC<NUMBER; the metrics are {', '.join(METRICS)}")
    is_density = parts[1] == DENSITY
    if not is_density and (parts[4] or "%" in word):
        raise Misuse(f"--gate {word!r}: only {DENSITY} is in percent and has decimals")
    bound = int(parts[3] + (parts[4] or "").ljust(2, "0")) if is_density else int(parts[3])
    if bound > GREATEST:
        raise Misuse(f"--gate {word!r}: the number is above {GREATEST:,}")
    if is_density and parts[2] == ">" and bound >= 10_000:
        raise Misuse(f"--gate {word!r} can never fail: a density is at most 100 percent")
    if parts[2] == "<" and bound == 0:
        raise Misuse(f"--gate {word!r} can never fail: no measure is less than 0")
    return Condition(parts[1], OPERATORS[parts[2]], bound)


def gate_of(words: Optional[Sequence[str]], fail_on: Optional[Sequence[str]]) -> list[Condition]:
    """The conditions of --gate and --fail-on, each once."""
    conditions = [condition_of(word) for word in words or []]
    if "any-duplicate" in (fail_on or []):
        conditions.append(ANY_DUPLICATE)
    conditions = list(dict.fromkeys(conditions))
    if len(conditions) > MOST:
        raise Misuse(f"a gate has at most {MOST} conditions, and these are {len(conditions)}")
    return conditions


def request_of(project: str, conditions: Sequence[Condition]) -> dict[str, Any]:
    return {"op": "gate", "project": project,
            "conditions": [{"metric": condition.metric, "op": condition.op, "error": condition.bound} for condition in conditions]}


def known_gate(conditions: Sequence[Condition], state: Optional[State], project: str) -> list[Condition]:
    """The gate to judge by: the one of the arguments or the configuration, else the one that an earlier call kept in the state
    file. A server forgets its gates when it starts again, and a project without a gate passes, so that a call which knows of
    none must not ask."""
    known = list(conditions) or (list(state.entry.gate) if state else [])
    if not known:
        raise Fault(f"no gate is known for project {project}: give it with --gate or in .cqd.toml")
    return known


def failed_by(condition: Condition, value: int) -> bool:
    return value > condition.bound if condition.op == "GT" else value < condition.bound


def with_faults(report: Report, faulty: int) -> Report:
    """The report with one more condition, of --fail-on fault: no file may have text that its language doesn't have."""
    condition = Condition("files_without_tokens", "GT", 0, faulty, faulty > 0)
    return dataclasses.replace(report, conditions=(*report.conditions, condition),
                               verdict="ERROR" if faulty else report.verdict or "OK")
