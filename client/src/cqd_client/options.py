"""The command line: which options each command has, and which of them go together."""
from __future__ import annotations

import argparse
import contextlib
import re
import sys
from collections.abc import Sequence
from pathlib import Path
from typing import Any, Callable, NoReturn, Optional

from . import __version__, formats
from .faults import MISUSED, STATUSES
from .findings import DENSITY, SORTS
from .link import Address
from .outputs import standard_output
from .wording import shown

DESCRIPTION = """Uploads source files to cqd, and asks what is duplicated in them and whether the project passes its quality gate.
Without --addr each call starts its own server and stops it; with --addr it uses one that is already running.
Options can also be given in .cqd.toml."""

PATTERNS = """Patterns: * is any characters but /, ? is one, ** is any folders. Without a slash a pattern is looked for in every folder; a
slash at its front means the root, one at its end all files below."""

COMMANDS = {
    "check": "fail if code that changed since a commit has duplicates or is too complex: the check for pull requests",
    "groups": "list what is duplicated: each run of equal tokens with all its places",
    "measures": "report size, complexity and duplication",
    "verdict": "report whether the project passes its gate",
    "report": "write an HTML page with the verdict, the measures and every duplicate",
    "put": "upload the files to a server, and ask nothing",
    "status": "report what a server has done, and what it holds of a project",
    "remove": "remove a project from a server",
}
ASKING = ("check", "groups", "measures", "verdict", "report")
UPLOADING = (*ASKING, "put")


class Parser(argparse.ArgumentParser):
    """Refuses arguments with a status of their own."""

    def _print_message(self, message: str, file: Any = None) -> None:
        """Help that can't be written is a fault, and a refusal that can't be is one all the same: versions of argparse differ."""
        if file is sys.stdout:
            with standard_output() as out:
                out.write(message)
        else:
            with contextlib.suppress(OSError):
                sys.stderr.write(message)

    def error(self, message: str) -> NoReturn:
        self.exit(MISUSED, f"{self.prog}: {message.removeprefix('argument ')}; {self.prog} --help describes the arguments\n")


def number(least: int, greatest: int) -> Callable[[str], int]:
    def number_of(word: str) -> int:
        if not re.fullmatch(r"[0-9]{1,20}", word) or not least <= int(word) <= greatest:
            raise argparse.ArgumentTypeError(f"{word!r} is no number from {least:,} to {greatest:,}")
        return int(word)
    return number_of


def seconds(word: str) -> float:
    try:
        value = float(word)
    except ValueError:
        value = 0.0
    if not 0 < value <= 1_000_000:
        raise argparse.ArgumentTypeError(f"{word!r} is no number of seconds above 0")
    return value


def project_name(word: str) -> str:
    if not re.fullmatch(r"[A-Za-z0-9._-]{1,64}", word):
        raise argparse.ArgumentTypeError(f"{word!r} is no name of a project: 1 to 64 letters, digits, points, underscores and hyphens")
    return word


def address(word: str) -> Address:
    host, _, port = word.strip().rpartition(":")
    if not host or not host.isprintable() or not re.fullmatch(r"[0-9]{1,5}", port) or not 1 <= int(port) <= 65_535:
        raise argparse.ArgumentTypeError(f"{word!r} is not HOST:PORT")
    return Address(host[1:-1] if host.startswith("[") and host.endswith("]") else host, int(port))


def text(word: str) -> str:
    if not word:
        raise argparse.ArgumentTypeError("it is empty")
    return word


def path(word: str) -> Path:
    return Path(text(word))


def parser() -> Parser:
    whole = Parser(prog="cqd-client", description=DESCRIPTION, epilog=STATUSES, allow_abbrev=False,
                   formatter_class=argparse.RawDescriptionHelpFormatter)
    whole.add_argument("--version", action="version", version=f"cqd-client {__version__}")
    commands = whole.add_subparsers(dest="command", required=True, metavar="COMMAND", parser_class=Parser)
    for command, what in COMMANDS.items():
        one = commands.add_parser(command, help=what, description=what[0].upper() + what[1:] + ".", epilog=STATUSES,
                                  allow_abbrev=False)
        if command == "report":
            one.add_argument("page", metavar="OUT.html", type=path, help="the page")
        if command in UPLOADING:
            one.add_argument("paths", metavar="PATH", type=path, nargs="*", default=[], help="a folder or file to upload")
        one.add_argument("--project", metavar="NAME", type=project_name,
                         help="the project" + ("; without --addr, the root folder's name" if command in UPLOADING else ""))
        one.add_argument("--config", metavar="FILE", help="the configuration; default .cqd.toml here or in a folder above")
        if command in ASKING:
            add_questions(one, command)
            add_outputs(one, command)
        if command in UPLOADING:
            add_files(one)
            add_program(one)
        add_server(one, command)
    return whole


def parsed(whole: Parser, words: Optional[Sequence[str]]) -> argparse.Namespace:
    """The options. A PATH may also come after options, which argparse does not take for one."""
    options, left = whole.parse_known_args(words)
    if left and ("paths" not in options or any(word.startswith("-") or not word for word in left)):
        whole.exit(MISUSED, f"{whole.prog} {options.command}: unrecognized arguments: {' '.join(map(shown, left))}; "
                            f"{whole.prog} {options.command} --help describes the arguments\n")
    if left:
        options.paths = [*options.paths, *map(Path, left)]
    return options


def add_questions(one: argparse.ArgumentParser, command: str) -> None:
    if command == "check":
        one.add_argument("--base", metavar="REF", type=text, help="the branch or commit that the change is compared with, as origin/main")
        one.add_argument("--max-complexity", metavar="N", type=number(1, 1_000_000), help="also fail on a changed function above this")
    one.add_argument("--min", metavar="N", type=number(1, 100_000), help="the fewest tokens that a duplicate may have; default 100")
    if command in ("groups", "measures"):
        one.add_argument("--path", metavar="FILE", type=text, help="only of this file of the project")
    if command in ("check", "groups", "verdict", "report"):
        gate = f"what fails the gate, as '{DENSITY}>3' (in percent) or 'complexity>5000'; repeatable" if command != "check" else \
            f"what fails the check, over the changed lines, as '{DENSITY}>3' (in percent); default any duplicate; repeatable"
        one.add_argument("--gate", metavar="CONDITION", type=text, action="append", help=gate)
        one.add_argument("--fail-on", metavar="WHAT", choices=("any-duplicate", "fault"), action="append",
                         help="any-duplicate: also fail on any duplicate; fault: also fail on a file whose language can't be read")
    if command in ("measures", "verdict"):
        one.add_argument("--scope", metavar="PATTERN", type=text, help="only of the files whose path fits")
        one.add_argument("--since", metavar="N", type=number(1, (1 << 64) - 1), help="only of the files that a change above N uploaded")
    if command == "verdict":
        one.add_argument("--new", action="store_true", help="only of the files uploaded since the last verdict that passed")


def add_outputs(one: argparse.ArgumentParser, command: str) -> None:
    group = one.add_argument_group("output")
    group.add_argument("--format", choices=formats.NAMES, action="append", help="the format; default text; repeatable with --output")
    group.add_argument("--output", metavar="FILE", type=path, action="append",
                       help="where to write it instead of standard output; repeatable")
    group.add_argument("--json", action="store_true", help="the same as --format json: the server's reply as it came")
    if command != "report":
        group.add_argument("--page", metavar="FILE", type=path, help="also write an HTML page")
    group.add_argument("--sort", choices=SORTS, help="the order of duplicates; default the server's, by path")
    group.add_argument("--top", metavar="N", type=number(1, 1_000_000), help="only the first N duplicates")


def add_files(one: argparse.ArgumentParser) -> None:
    group = one.add_argument_group("files", PATTERNS)
    group.add_argument("--files-from", metavar="FILE", type=text,
                       help="upload the files that are named in FILE (- is standard input), by line or NUL")
    group.add_argument("--include", metavar="PATTERN", type=text, action="append", help="only files that fit; repeatable")
    group.add_argument("--exclude", metavar="PATTERN", type=text, action="append", help="no files that fit; repeatable")
    group.add_argument("--map", metavar="PATTERN=LANG", type=text, action="append",
                       help="read files that fit as any, go, c, java, js or ts, as '*.kt=java'; repeatable")
    group.add_argument("--any", metavar="PATTERN", type=text, action="append",
                       help="also upload files that fit, as plain text, if their ending has no language; repeatable")
    group.add_argument("--encoding", metavar="NAME", help="the encoding of files that are not UTF-8, as latin-1")
    group.add_argument("--skip-duplicate-files", action="store_true", help="upload only the first of identical files")
    group.add_argument("--no-ignore", action="store_true", help="read all files of the folders, also those that git ignores")
    group.add_argument("--root", metavar="DIR", type=path,
                       help="the folder that paths are relative to; default the git work tree, or the current folder")


def add_program(one: argparse.ArgumentParser) -> None:
    group = one.add_argument_group("the server that a call starts")
    group.add_argument("--cqd", metavar="PROGRAM", help="the program; default what CQD names, or cqd on PATH")
    group.add_argument("--chunk", metavar="N", type=number(1, 1000),
                       help="tokens of a window of its index; default 20, or --min if that is less")
    group.add_argument("--local", action="store_true", help="start one even if CQD_ADDR or .cqd.toml names a running server")
    group.add_argument("--workers", metavar="N", type=number(0, 64), help="its threads for the analysis; default one per processor")
    group.add_argument("--ignore-ids", action="store_true", help="all identifiers are equal")
    group.add_argument("--ignore-literals", action="store_true", help="all literals are equal")


def add_server(one: argparse.ArgumentParser, command: str) -> None:
    group = one.add_argument_group("a running server")
    group.add_argument("--addr", metavar="HOST:PORT", type=address, action="append",
                       help="the server; default what CQD_ADDR names; of several, each has its share of the projects")
    if command != "status":
        group.add_argument("--state", metavar="FILE", type=path,
                           help="where calls keep what they uploaded; default .cqd-state.json in the root")
    group.add_argument("--tls", action="store_true", help="speak TLS")
    group.add_argument("--tls-ca", metavar="FILE", type=path,
                       help="the authority that signed the server's certificate; default the system's")
    group.add_argument("--tls-cert", metavar="FILE", type=path, help="the client's certificate")
    group.add_argument("--tls-key", metavar="FILE", type=path, help="its key, if it is not in the same file")
    group.add_argument("--timeout", metavar="SECONDS", type=seconds,
                       help="give up if the server takes longer for one reply; default 600")


def by_name(whole: argparse.ArgumentParser) -> dict[str, argparse.Action]:
    """Every option of every command by its name without hyphens in front, and `paths`."""
    found: dict[str, argparse.Action] = {}
    for action in whole._actions:  # pylint: disable=protected-access
        if isinstance(action, argparse._SubParsersAction):  # pylint: disable=protected-access
            for one in action.choices.values():
                for option in one._actions:  # pylint: disable=protected-access
                    found.setdefault(option.option_strings[-1].lstrip("-") if option.option_strings else option.dest, option)
    return found


def conflict(options: argparse.Namespace) -> Optional[str]:
    """What doesn't go together."""
    def has(name: str) -> Any:
        return vars(options).get(name)
    own = [name for name in ("cqd", "chunk", "ignore_ids", "ignore_literals") if has(name)] + ["workers"] * (has("workers") is not None)
    if has("addr"):
        if own:
            return f"--{own[0].replace('_', '-')} is for a server that the call starts, and --addr names one that is already running"
        if not has("project") and options.command != "status":
            return "--project is needed with --addr: others use the server too"
    else:
        for name in ("state", "new", "since", "tls", "tls_ca", "tls_cert", "tls_key"):
            if has(name):
                return f"--{name.replace('_', '-')} needs --addr: it is about a running server"
        if options.command in ("status", "remove"):
            return f"{options.command} needs --addr"
    if has("tls_key") and not has("tls_cert"):
        return "--tls-key needs --tls-cert"
    if not has("tls") and (has("tls_ca") or has("tls_cert")):
        return "--tls-ca and --tls-cert need --tls"
    if has("scope") and has("path"):
        return "--scope and --path don't go together"
    if has("path") and (has("gate") or has("fail_on")):
        return "--path and a gate don't go together: a gate is about the whole project"
    if has("new") and has("since"):
        return "--new and --since don't go together"
    if has("chunk") and has("min") and options.min < options.chunk:
        return "--min is below --chunk"
    return output_conflict(options)


def output_conflict(options: argparse.Namespace) -> Optional[str]:
    outputs, names = vars(options).get("output") or [], vars(options).get("format") or []
    if vars(options).get("json"):
        if names and names != ["json"]:
            return "--json and --format don't go together"
        options.format = names = ["json"]
    if len(set(outputs)) < len(outputs):
        return "two --output name the same file"
    if vars(options).get("page") in outputs:
        return "the page and an --output name the same file"
    if len(outputs) > max(len(names), 1):
        return "there are more --output than --format"
    if len(names) > len(outputs) + 1:
        return "each --format but the last needs an --output"
    return None
