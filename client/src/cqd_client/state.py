"""What earlier calls did on servers that live on: a file that calls side by side share, and none of them loses what another wrote."""
from __future__ import annotations

import contextlib
import fcntl
import json
import os
from collections.abc import Iterator
from dataclasses import dataclass, field
from pathlib import Path
from typing import Any

from .faults import Fault
from .findings import METRICS, Condition
from .notes import Notes
from .tree import real

FORM = 2


@dataclass(frozen=True)
class Known:
    """An upload: the hash of the language and text, and the change by which the server has it."""
    hash: str
    change: int


@dataclass
class Entry:
    """One project on one server: its uploads by path, the gate that was last set, and by scope (empty if there was none) the
    version of the last verdict that passed. Uploads and versions are of the server's life that `epoch` names."""
    files: dict[str, Known] = field(default_factory=dict)
    gate: list[Condition] = field(default_factory=list)
    passed: dict[str, int] = field(default_factory=dict)
    epoch: str = ""

    def copy(self) -> Entry:
        return Entry(dict(self.files), list(self.gate), dict(self.passed), self.epoch)

    def of_life(self, epoch: str) -> Entry:
        """What of this entry holds in the life of the server that has this name: after a restart, only the gate."""
        return self.copy() if epoch == self.epoch else Entry(gate=list(self.gate), epoch=epoch)

    def to_json(self) -> dict[str, Any]:
        return {"files": {path: [known.hash, known.change] for path, known in sorted(self.files.items())},
                "gate": [[condition.metric, condition.op, condition.bound] for condition in self.gate],
                "passed": dict(sorted(self.passed.items())), "epoch": self.epoch}


def entry_of(value: Any) -> Entry:
    """An entry of the file; a ValueError says that it is none."""
    try:
        files = {path: Known(*known) for path, known in value["files"].items()}
        gate = [Condition(*condition) for condition in value["gate"]]
        passed = dict(value["passed"])
        epoch = value["epoch"]
    except (AttributeError, KeyError, TypeError) as error:
        raise ValueError from error
    if not (isinstance(epoch, str) and all(isinstance(known.hash, str) and isinstance(known.change, int) for known in files.values())
            and all(condition.metric in METRICS and condition.op in ("GT", "LT") and isinstance(condition.bound, int)
                    for condition in gate)
            and all(isinstance(version, int) and version >= 0 for version in passed.values())):
        raise ValueError
    return Entry(files, gate, passed, epoch)


class State:
    """The entry of one project on one server. `keep` merges what this call changed into what the file has by then."""

    def __init__(self, file: Path, server: str, project: str, notes: Notes) -> None:
        # by what its name leads to, since the file is replaced as a whole
        self.file = real(file)
        self.key = (server, project)
        with self.locked():
            read, unreadable = self.read()
        if unreadable:
            notes.say(f"{file} is no state file of this client: all files are uploaded again, and it is written again")
        self.before = read.get(server, {}).get(project, Entry())
        self.entry = self.before.copy()
        # the life of the server that the file has the project's entry of
        self.life = self.entry.epoch

    def begin(self, epoch: str) -> bool:
        """Leaves of the entry what holds in this life of the server, and reports whether uploads of an earlier one are lost."""
        is_lost = bool(self.entry.files) and epoch != self.entry.epoch
        self.before = self.before.of_life(epoch)
        self.entry = self.entry.of_life(epoch)
        return is_lost

    def keep(self) -> None:
        if self.entry == self.before:
            return
        server, project = self.key
        with self.locked():
            read, _ = self.read()
            projects = read.setdefault(server, {})
            projects[project] = merged(self.before, projects.get(project, Entry()), self.entry, self.life)
            self.write(read)
        self.before = self.entry.copy()
        self.life = self.entry.epoch

    def forget(self) -> None:
        """Takes the project's entry out of the file."""
        server, project = self.key
        with self.locked():
            read, _ = self.read()
            if read.get(server, {}).pop(project, None) is not None:
                self.write(read)
        self.before, self.entry = Entry(), Entry()

    @contextlib.contextmanager
    def locked(self) -> Iterator[None]:
        """A lock of its own file: the state's own is replaced as a whole, and a lock would go with it."""
        name = self.file.with_name(self.file.name + ".lock")
        if self.file.exists() and not self.file.is_file():
            raise Fault(f"the state file {self.file} can't be used: it is no regular file; --state names another")
        try:
            with open(name, "ab") as lock:
                fcntl.flock(lock, fcntl.LOCK_EX)
                yield
        except OSError as error:
            raise Fault(f"the state file {self.file} can't be used: {error.strerror}; --state names another") from error

    def read(self) -> tuple[dict[str, dict[str, Entry]], bool]:
        """The entries by server and project, and whether there is a file that is none of this form."""
        try:
            text = self.file.read_text(encoding="utf-8")
        except FileNotFoundError:
            return {}, False
        except UnicodeError:
            return {}, True
        try:
            whole = json.loads(text)
            if whole["form"] != FORM:
                return {}, True
            return {server: {project: entry_of(value) for project, value in projects.items()}
                    for server, projects in whole["servers"].items()}, False
        except (AttributeError, KeyError, RecursionError, TypeError, ValueError):
            return {}, True

    def write(self, entries: dict[str, dict[str, Entry]]) -> None:
        """Replaces the file. A call that is ended meanwhile leaves the one before."""
        servers = {server: {project: entry.to_json() for project, entry in sorted(projects.items())}
                   for server, projects in sorted(entries.items())}
        # nobody else writes it meanwhile, since the lock is held
        beside = self.file.with_name(self.file.name + ".new")
        with open(beside, "w", encoding="utf-8") as file:
            json.dump({"form": FORM, "servers": servers}, file, indent=0)
            file.write("\n")
        os.replace(beside, self.file)


def merged(before: Entry, standing: Entry, after: Entry, life: str) -> Entry:
    """What `after` changed of `before`, merged into what the file has now. If another call changed the same, the later change is
    kept. If the file had the life of `after` when this call read it, and another call has found the server in a later one since, only
    the gate is of use."""
    gate = after.gate if after.gate != before.gate else standing.gate
    if after.epoch == life != standing.epoch:
        return Entry(dict(standing.files), list(gate), dict(standing.passed), standing.epoch)
    standing = standing.of_life(after.epoch)
    files = dict(standing.files)
    for path in before.files.keys() | after.files.keys():
        old, now, ours = before.files.get(path), standing.files.get(path), after.files.get(path)
        if ours == old:
            continue
        if now == old or now is None or (ours and ours.change > now.change):
            if ours:
                files[path] = ours
            else:
                files.pop(path, None)
    passed = dict(standing.passed)
    for scope, version in after.passed.items():
        if version != before.passed.get(scope):
            passed[scope] = version
    return Entry(files, list(gate), passed, after.epoch)
