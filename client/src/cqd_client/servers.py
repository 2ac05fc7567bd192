"""Servers: which one a call speaks with, and what is asked of a server itself."""
from __future__ import annotations

import argparse
import contextlib
import os
import subprocess
from pathlib import Path
from typing import Optional

from . import __version__
from .faults import PASSED, Fault
from .findings import files_of, member
from .link import Tls, found_program, owner
from .notes import Notes
from .outputs import standard_output
from .protocol import Server, reached, started
from .state import State
from .wording import counted

MOST_WORKERS = 64


def tls_of(options: argparse.Namespace) -> Optional[Tls]:
    return Tls(options.tls_ca, options.tls_cert, options.tls_key) if options.tls else None


def running(options: argparse.Namespace, project: str, timeout: float) -> contextlib.AbstractContextManager[Server]:
    """The server that has this project."""
    return reached(owner(options.addr, project), tls_of(options), timeout, project)


def own(options: argparse.Namespace, timeout: float, text_limit: int) -> contextlib.AbstractContextManager[Server]:
    """A server that the call starts."""
    chunk = options.chunk or min(20, vars(options).get("min") or 20)
    workers = min(processors(), MOST_WORKERS) if options.workers is None else options.workers
    given = ["--chunk", str(chunk), "--text-limit", str(text_limit), "--workers", str(workers)]
    given += ["--ignore-ids"] * options.ignore_ids + ["--ignore-literals"] * options.ignore_literals
    return started(found_program(options.cqd), given, timeout)


def processors() -> int:
    if hasattr(os, "sched_getaffinity"):
        return len(os.sched_getaffinity(0))
    return os.cpu_count() or 1


def version_of(options: argparse.Namespace) -> str:
    """What made the report: this client, and the program as it names itself or where it runs."""
    client = f"cqd-client {__version__}"
    if options.addr:
        return f"{client}, server " + ", ".join(map(str, options.addr))
    try:
        ran = subprocess.run([found_program(options.cqd), "--version"], stdin=subprocess.DEVNULL, capture_output=True, timeout=5, check=True)
        return f"{client}, {ran.stdout.decode().split(chr(10))[0]}"
    except (OSError, UnicodeError, subprocess.SubprocessError):
        return client


def status(options: argparse.Namespace, timeout: float) -> int:
    """What each server has done, and what it has of the project."""
    for address in options.addr:
        with reached(address, tls_of(options), options.timeout or timeout, options.project or "") as server:
            state = server.answer({"op": "state"}).members
            accepted, done, published = (member(state, name, int) for name in ("accepted", "done", "published"))
            lines = [f"{address}: {counted(accepted, 'change')} accepted, {accepted - done:,} not analysed yet, "
                     f"last answer at version {published:,}\n"]
            if options.project and address == owner(options.addr, options.project):
                files = files_of(server.files(options.project).members)
                lines.append(
                    f"  project {options.project}: {counted(len(files), 'file')}, {counted(sum(file.lines for file in files), 'line')}, "
                    f"{counted(sum(file.tokens for file in files), 'token')}, "
                    f"{counted(sum(file.state != 'ok' for file in files), 'file')} without tokens\n")
        with standard_output() as out:
            out.writelines(lines)
    return PASSED


def remove(options: argparse.Namespace, timeout: float, state_file: Path) -> int:
    """Drops every file of a project, and its gate, and forgets what the state file has of it."""
    address = owner(options.addr, options.project)
    with reached(address, tls_of(options), options.timeout or timeout, options.project) as server:
        files = [file.path for file in files_of(server.files(options.project).members)]
        drops = ({"op": "drop", "project": options.project, "path": path} for path in files)
        for request, reply in server.ask_each(drops):
            if not reply.is_ok and reply.error != "absent":
                raise Fault(f"{request['path']} can't be dropped: {reply.refusal()}")
        server.answer({"op": "gate", "project": options.project, "conditions": []})
        left = files_of(server.files(options.project).members)
        if left:
            raise Fault(f"project {options.project} has {counted(len(left), 'file')} again: another client uploads to it")
    if state_file.exists():
        State(state_file, str(address), options.project, Notes()).forget()
    with standard_output() as out:
        out.write(f"project {options.project} is removed: {counted(len(files), 'file')} dropped\n")
    return PASSED
