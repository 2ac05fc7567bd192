"""The command `cqd-client`: from its arguments to its exit status."""
from __future__ import annotations

import argparse
import contextlib
import dataclasses
import datetime
import io
import os
import re
import signal
import sys
import time
import traceback
from collections.abc import Iterator, Sequence
from pathlib import Path
from typing import Any, NoReturn, Optional

from . import config, git, options as arguments, outputs, servers
from .answers import answered
from .call import Call
from .changed import Lines, changed_lines
from .check import JUDGED
from .faults import FAILED, MISUSED, PASSED, UNKNOWN, Fault, Misuse, Restarted
from .findings import About, Malformed, Report, files_of, member
from .gate import gate_of, with_faults
from .link import owner
from .notes import Notes
from .patterns import Patterns, expanded
from .protocol import Server
from .state import State
from .texts import known_encoding, too_large
from .tree import NAMES, Choice, Tree, read_listing, root_of, tree_of
from .upload import PASSES, tell, upload
from .wording import counted

# The most that any server takes; a call starts its own server with it.
TEXT_LIMIT = 67_108_864
CHANGE_LIMIT = 262_144
STATE = ".cqd-state.json"
TIMEOUT = 600.0
# The options that a report names: those on which its content depends.
SHOWN = ("any", "base", "chunk", "encoding", "exclude", "fail_on", "gate", "ignore_ids", "ignore_literals", "include", "map",
         "max_complexity", "min", "new", "no_ignore", "scope", "since", "skip_duplicate_files")


def choice_of(options: argparse.Namespace, own: Sequence[Path]) -> Choice:
    languages: dict[str, str] = {}
    for word in options.map or []:
        pattern, _, lang = word.rpartition("=")
        if not pattern or lang not in NAMES:
            raise Misuse(f"--map {word!r} is not PATTERN=LANG, with LANG one of {', '.join(NAMES)}")
        languages.setdefault(pattern, lang)
    return Choice(Patterns(options.include or []), Patterns(options.exclude or []), Patterns(languages), Patterns(options.any or []),
                  languages, not options.no_ignore, frozenset(os.path.realpath(file) for file in own))


def tree_asked(options: argparse.Namespace, root: Path, own: Sequence[Path], notes: Notes) -> Optional[Tree]:
    """The files to upload, or none if a server is only asked."""
    paths, listing = list(options.paths), options.files_from
    if not paths and not listing:
        if options.command == "check":
            paths = [root]
        elif not options.addr or options.command == "put":
            hint = "" if options.addr else ": the server that the call starts has nothing yet"
            raise Misuse(f"{options.command} needs a PATH or --files-from{hint}")
        else:
            return None
    tree = tree_of(root, paths, read_listing(listing) if listing else None, choice_of(options, own), notes)
    if not tree.sources:
        where = ", ".join(map(str, paths)) or ("the list on standard input" if listing == "-" else f"the list {listing}")
        first = "".join(f" ({skipped.path}: {skipped.why})" for skipped in tree.skipped[:1])
        raise Fault(f"there are no source files in {where}{first}: nothing was uploaded or dropped")
    if len(tree.sources) > CHANGE_LIMIT - 2:
        raise Fault(f"{len(tree.sources):,} source files, and a server holds at most {CHANGE_LIMIT - 2:,}: choose fewer with --include and "
                    "--exclude")
    large = too_large(tree, TEXT_LIMIT)
    if large:
        raise Fault(large)
    return tree


@contextlib.contextmanager
def server_of(options: argparse.Namespace, project: str) -> Iterator[Server]:
    timeout = options.timeout or TIMEOUT
    with servers.running(options, project, timeout) if options.addr else servers.own(options, timeout, TEXT_LIMIT) as server:
        yield server


def project_of(options: argparse.Namespace, root: Path) -> str:
    return options.project or re.sub(r"[^A-Za-z0-9._-]", "-", root.name)[:64] or "project"


def about(options: argparse.Namespace, root: Path) -> About:
    commit, branch = git.described(root)
    def shown(value: Any) -> str:
        return ", ".join(map(str, value)) if isinstance(value, list) else "" if value is True else str(value)
    pairs = tuple((f"--{name.replace('_', '-')}", shown(value)) for name, value in sorted(vars(options).items()) if value and name in SHOWN)
    try:
        seconds = int(os.environ.get("SOURCE_DATE_EPOCH") or time.time())
        when = datetime.datetime.fromtimestamp(seconds, datetime.timezone.utc)
    except (ValueError, OverflowError, OSError) as error:
        raise Misuse(f"SOURCE_DATE_EPOCH is no number of seconds: {error}") from error
    return About(commit, branch, when.strftime("%Y-%m-%dT%H:%M:%SZ"), servers.version_of(options), pairs)


def run(options: argparse.Namespace, notes: Notes) -> int:
    if options.command in ("status", "remove"):
        return servers.status(options, TIMEOUT) if options.command == "status" else \
            servers.remove(options, TIMEOUT, options.state or root_of(None, []) / STATE)
    judged = gate_of(vars(options).get("gate"), vars(options).get("fail_on"))
    if options.command == "check":
        check_options(options, [condition.metric for condition in judged])
    if vars(options).get("scope"):
        expanded(options.scope)
    if options.encoding:
        known_encoding(options.encoding)
    outputs.check_targets(options)
    root = root_of(options.root, options.paths)
    project = project_of(options, root)
    state_file = options.state or root / STATE
    tree = tree_asked(options, root, [state_file, *outputs.targets(options)], notes)
    lines: dict[str, Lines] = {}
    if options.command == "check" and tree:
        lines = changed_lines(root, options.base)
        tell_extent(options, tree, bool(lines), notes)
    state = None
    if options.addr and (tree or state_file.exists()):
        state = State(state_file, str(owner(options.addr, project)), project, notes)
    call = Call(options, project, judged, state, notes, lines)
    with server_of(options, project) as server:
        report = asked(server, call, tree)
    return concluded(call, report)


def asked(server: Server, call: Call, tree: Optional[Tree]) -> Optional[Report]:
    """Uploads, and asks. If the connection was lost after the upload, all is compared again, since the server may be another."""
    for _ in range(PASSES):
        try:
            generation = server.generation
            if tree:
                call.done = upload(server, call.project, tree, call.state, call.notes, encoding=call.options.encoding,
                                   once=call.options.skip_duplicate_files)
                call.files, generation = call.done.files, server.generation
            else:
                if call.state and call.state.begin(server.epoch_known()):
                    raise Fault(f"the server was started again, and has lost what was uploaded to project {call.project}: name the PATHs to "
                                "upload it again")
                call.files = files_of(server.files(call.project).members)
            if call.options.command == "put":
                return None
            prepare(server, call)
            report = answered(server, call)
            if server.generation == generation:
                return report
        except Restarted:
            pass
        call.notes.say("the connection was lost meanwhile; everything is asked again")
    raise Fault("the connection to the server is lost again and again")


def prepare(server: Server, call: Call) -> None:
    is_new = vars(call.options).get("new")
    if is_new and call.state:
        call.options.since = call.state.entry.passed.get(call.scope)
        if call.options.since is None:
            call.notes.say("no verdict before this one is known to have passed, so all files are judged")
    since = vars(call.options).get("since")
    # above all changes there is no file, and of no file every gate holds
    if since and since > (accepted := member(server.answer({"op": "state"}).members, "accepted", int)):
        if is_new:
            raise Restarted("the server has forgotten the version of the last verdict that passed")
        raise Fault(f"--since {since}: the server has had {counted(accepted, 'change')} since it was started")
    if call.about == About():
        call.about = about(call.options, call.done.tree.root if call.done else Path.cwd())


def concluded(call: Call, report: Optional[Report]) -> int:
    """Writes the answer of a server that has ended well, and keeps what the next call needs."""
    done, options = call.done, call.options
    if done:
        tell(done, call.notes)
    left_out = bool(done and done.skipped)
    if report is None:
        assert done is not None
        with outputs.standard_output() as out:
            out.write(done.summary() + "\n")
        return UNKNOWN if left_out else PASSED
    if "fault" in (vars(options).get("fail_on") or []):
        judged = [file for file in call.files if options.command != "check" or file.path in call.lines]
        report = with_faults(report, sum(file.state != "ok" for file in judged))
    status = FAILED if report.verdict == "ERROR" else PASSED
    if left_out:
        status = UNKNOWN
        report = dataclasses.replace(report, verdict=outputs.WORDS[UNKNOWN] if report.verdict else "")
    if call.state:
        if options.command == "verdict" and status == PASSED and (options.new or not options.since):
            call.state.entry.passed[call.scope] = call.judged_at
        call.state.keep()
    # last, so that nothing can fail after it has said OK
    outputs.write(report, options)
    if left_out:
        call.notes.say("files were left out, so this is not about the whole project")
    return status


def tell_extent(options: argparse.Namespace, tree: Tree, has_changes: bool, notes: Notes) -> None:
    """Says what whoever reads `OK` of a check has to know: that there was nothing to check, or few files to compare with."""
    if not has_changes:
        notes.say(f"nothing has changed since {options.base}")
    if options.files_from or not all(map(os.path.isdir, options.paths)):
        notes.say(f"copies are looked for only among {counted(len(tree.sources), 'file')}; without a PATH, in the whole work tree")


def check_options(options: argparse.Namespace, metrics: Sequence[str]) -> None:
    if not options.base:
        raise Misuse("check needs --base: what the change is compared with, as --base origin/main")
    for metric in metrics:
        if metric not in JUDGED:
            raise Misuse(f"check judges changed lines, and {metric} is not known of lines; its metrics are {', '.join(JUDGED)}")
    if not git.is_installed():
        raise Fault("git is needed to find what has changed: install it")


def options_of(words: Optional[Sequence[str]]) -> argparse.Namespace:
    parser = arguments.parser()
    options = arguments.parsed(parser, words)
    try:
        os.getcwd()
    except OSError as error:
        raise Fault(f"the current folder can't be used: {error.strerror}") from error
    try:
        config.complete(options, arguments.by_name(parser))
        conflict = arguments.conflict(options)
        if conflict:
            raise Misuse(conflict)
    except Misuse as misuse:
        parser.exit(MISUSED, f"cqd-client {options.command}: {misuse}\n")
    return options


def interrupted(_signal: int, _frame: Any) -> NoReturn:
    raise KeyboardInterrupt


def main(words: Optional[Sequence[str]] = None) -> int:
    """The exit status. A fault of this program itself must not look like a verdict, as Python's own status would."""
    # a stream that the caller closed is none
    sys.stdout, sys.stderr = (stream or open(os.devnull, "w", encoding="utf-8") for stream in (sys.stdout, sys.stderr))
    notes = Notes()
    try:
        signal.signal(signal.SIGTERM, interrupted)
        if isinstance(sys.stdout, io.TextIOWrapper):
            sys.stdout.reconfigure(encoding="utf-8", errors="backslashreplace")
        return run(options_of(words), notes)
    except Misuse as misuse:
        notes.say(str(misuse))
        return MISUSED
    except (Fault, Malformed) as fault:
        notes.say(str(fault))
    except KeyboardInterrupt:
        notes.say("interrupted")
    except OSError as error:
        notes.say(f"{os.fsdecode(error.filename)}: {error.strerror}" if isinstance(error.filename, (bytes, str)) else str(error))
    except Exception:  # pylint: disable=broad-exception-caught
        notes.clear()
        traceback.print_exc()
    return UNKNOWN
