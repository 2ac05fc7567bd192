"""One call: what was asked of it, what it uploaded, and the requests and the report that it makes of both."""
from __future__ import annotations

import argparse
import dataclasses
from collections.abc import Iterable, Iterator
from dataclasses import dataclass, field
from typing import Any, Optional

from .changed import Lines
from .faults import Fault
from .findings import About, Condition, File, Function, Report, functions_of, no_text, report_of
from .notes import Notes
from .patterns import compiled, expanded
from .protocol import Reply, Request, Server
from .state import State
from .upload import Upload


# Which options are members of which query.
MEMBERS = {"groups": ("min", "path"), "measures": ("min", "path", "scope", "since"), "verdict": ("min", "scope", "since"), "functions": ()}


@dataclass
class Call:
    """One call: its options, the gate of its arguments, and, after the upload, what was uploaded and what the project has."""
    options: argparse.Namespace
    project: str
    gate: list[Condition]
    state: Optional[State]
    notes: Notes
    lines: dict[str, Lines] = field(default_factory=dict)
    about: About = About()
    done: Optional[Upload] = None
    # the version of the last verdict
    judged_at: int = 0
    files: tuple[File, ...] = ()

    @property
    def scope(self) -> str:
        """The pattern of --scope as the server has it, empty if there is none."""
        scope = vars(self.options).get("scope")
        return expanded(scope) if scope else ""

    def query(self, operation: str, **more: Any) -> Request:
        request: Request = {"op": operation, "project": self.project, "finish": True}
        for name in MEMBERS[operation]:
            value = vars(self.options).get(name)
            if value is not None:
                request[name] = self.scope if name == "scope" else value
        return {**request, **more}

    def ask(self, server: Server, request: Request) -> Reply:
        with self.notes.waiting(f"waiting for the server: {request['op']}"):
            return server.answer(request)

    def report(self, **replies: Any) -> Report:
        done = self.done
        report = report_of(self.project, about=self.about, skipped=done.skipped if done else (),
                           text_of=done.text_of if done else no_text, **replies)
        return dataclasses.replace(report, files=self.files)

    def each(self, server: Server, operation: str, paths: Iterable[str]) -> Iterator[tuple[str, dict[str, Any]]]:
        """What the server answers about each of these paths."""
        for request, reply in server.ask_each(self.query(operation, path=path) for path in paths):
            if not reply.is_ok:
                raise Fault(f"{operation} of {request['path']}: {reply.refusal()}")
            yield request["path"], reply.members

    def functions(self, server: Server, paths: Iterable[str]) -> Iterator[Function]:
        limit = vars(self.options).get("max_complexity")
        for path, members in self.each(server, "functions", paths):
            yield from functions_of(members, path, limit)

    def check_names(self) -> None:
        """A name that is wrong must not pass: a project without files, a file that it doesn't have, a scope that no file fits."""
        if not self.files:
            raise Fault(f"project {self.project} has no files")
        path = vars(self.options).get("path")
        if path and all(file.path != path for file in self.files):
            raise Fault(f"project {self.project} has no file {path}")
        if self.scope:
            form = compiled(self.scope)
            if not any(form.fullmatch(file.path + "/") for file in self.files):
                raise Fault(f"no file of project {self.project} fits --scope {self.options.scope}")
