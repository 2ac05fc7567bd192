"""What a call asks after its upload, as one report. Nothing is written here: a report holds only if its server ended well."""
from __future__ import annotations

import dataclasses
import heapq
from collections.abc import Sequence

from .call import Call
from .check import checked
from .faults import Fault
from .findings import Condition, Function, Report, measures_of, member, verdict_of
from .gate import failed_by, known_gate, request_of
from .protocol import Reply, Server
from .upload import PASSES

# How many functions a report has: those of greatest complexity.
FUNCTIONS = 20


def answered(server: Server, call: Call) -> Report:
    """The answer to the call's question."""
    call.check_names()
    command, page = call.options.command, bool(call.options.page)
    if command == "check":
        return checked(server, call)
    replies: dict[str, Reply] = {}
    is_kept = bool(call.state and call.state.entry.gate)
    judged: Sequence[Condition] = ()
    if command == "verdict" or call.gate or (command == "report" and is_kept):
        judged = known_gate(call.gate, call.state, call.project)
        replies["verdict"], replies["measures"] = verdict(server, call, judged)
    elif command == "measures" or page:
        replies["measures"] = call.ask(server, call.query("measures"))
    if command in ("groups", "report") or page or needs_groups(call):
        replies["groups"] = call.ask(server, call.query("groups"))
    values = measures_of(replies["measures"].members) if judged else None
    conditions = [dataclasses.replace(condition, value=getattr(values, condition.metric)) for condition in judged]
    # the json format passes on the reply that the command is named after
    raw = replies["groups" if command == "report" else command].line + b"\n"
    return call.report(conditions=conditions, functions=most_complex(server, call) if page else (), raw=raw,
                       **{name: reply.members for name, reply in replies.items()})


def needs_groups(call: Call) -> bool:
    """Whether a format was asked for that lists or counts groups."""
    return any(name not in ("text", "json", "junit") for name in call.options.format or [])


def verdict(server: Server, call: Call, conditions: Sequence[Condition]) -> tuple[Reply, Reply]:
    """The verdict by this gate, and the measures that it is of. The gate is set first: a server may have forgotten it, and another
    client may have set another. The verdict is taken only if it is the one that the measures give by this gate."""
    for _ in range(PASSES):
        call.ask(server, request_of(call.project, conditions))
        reply = call.ask(server, call.query("verdict"))
        measures = call.ask(server, call.query("measures"))
        values = measures_of(measures.members)
        ours = tuple(position for position, condition in enumerate(conditions) if failed_by(condition, getattr(values, condition.metric)))
        if verdict_of(reply.members)[1] == ours:
            call.judged_at = member(reply.members, "version", int)
            if call.state:
                call.state.entry.gate = list(conditions)
            return reply, measures
    raise Fault(f"the verdict of project {call.project} is not by the gate of this call: another client changes its gate or its files")


def most_complex(server: Server, call: Call) -> tuple[Function, ...]:
    """The functions of greatest complexity, the greatest first; of equal ones by path and line."""
    paths = [file.path for file in call.files if file.lang != "any" and file.state == "ok"]
    return tuple(heapq.nsmallest(FUNCTIONS, call.functions(server, paths),
                                 key=lambda function: (-function.complexity, function.path, function.first)))
