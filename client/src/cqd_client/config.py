"""The configuration file .cqd.toml and the variable CQD_ADDR: defaults of the command's options, by the options' names."""
from __future__ import annotations

import argparse
import os
import sys
from pathlib import Path
from typing import Any, Optional

from .faults import Fault, Misuse

NAME = ".cqd.toml"
# Options that name files, which a configuration has relative to its own folder.
FILES = ("root", "state", "tls-ca", "tls-cert", "tls-key", "files-from", "output", "page", "cqd")
# What only a command line says: the configuration itself, and what is asked for once.
NOT_IN_FILES = ("config", "help", "version", "json", "output", "page")


def found_file(named: Optional[str]) -> Optional[Path]:
    """The file that is named, else the nearest .cqd.toml in the current folder or above it, up to the top of a git work tree."""
    if named:
        if not Path(named).is_file():
            raise Misuse(f"--config {named} is no file")
        return Path(named)
    here = Path.cwd()
    for folder in (here, *here.parents):
        if (folder / NAME).is_file():
            return folder / NAME
        if (folder / ".git").exists():
            break
    return None


def read_file(file: Path) -> dict[str, Any]:
    try:
        data = file.read_bytes()
    except OSError as error:
        raise Fault(f"{file} can't be read: {error.strerror}") from error
    if sys.version_info >= (3, 11):
        import tomllib  # pylint: disable=import-outside-toplevel
    else:
        try:
            import tomli as tomllib  # pylint: disable=import-outside-toplevel
        except ImportError as error:
            raise Fault(f"python3-tomli is needed to read {file}: install it") from error
    try:
        return tomllib.loads(data.decode("utf-8"))
    except ValueError as error:
        raise Misuse(f"{file}: {error}") from error


def complete(options: argparse.Namespace, known: dict[str, argparse.Action]) -> None:
    """Fills in what the command line left out: first from CQD_ADDR, then from the configuration. `known` has every option of every
    command by its name; what the command at hand does not have is passed over."""
    if vars(options).get("local") and options.addr:
        raise Misuse("--local and --addr don't go together")
    # a branch that is checked is not the tree that others have on the server: only the command line sends it there
    is_local = vars(options).get("local") or (options.command == "check" and not options.addr)
    if vars(options).get("addr") is None and os.environ.get("CQD_ADDR") and hasattr(options, "addr"):
        options.addr = checked("CQD_ADDR", known["addr"], os.environ["CQD_ADDR"].split(","))
    file = found_file(options.config)
    filled = set()
    # each of these says which files there are, so what the command line says by one of them replaces both
    said = ("paths", "files_from") if vars(options).get("paths") or vars(options).get("files_from") else ()
    for name, value in (read_file(file) if file else {}).items():
        option = name.replace("_", "-")
        if option not in known or option in NOT_IN_FILES:
            near = ", ".join(sorted(other for other in known if other not in NOT_IN_FILES))
            raise Misuse(f"{file}: {name} is no option; the options are {near}")
        action = known[option]
        given = checked(f"{file}: {name}", action, listed(option, value, action))
        if option in FILES and file and given is not None and str(given) != "-":
            given = type(given)(file.parent / given)
        elif option == "paths" and file:
            given = [file.parent / path for path in given]
        if action.dest not in said and hasattr(options, action.dest) and vars(options)[action.dest] == action.default:
            setattr(options, action.dest, given)
            filled.add(action.dest)
    if is_local:
        options.addr = None
    # a file may have options both of a server that a call starts and of a running one: those that aren't needed here change no answer
    needless = ["cqd", "workers"] if vars(options).get("addr") else ["state", "tls", "tls_ca", "tls_cert", "tls_key"]
    if options.command == "check" or vars(options).get("path"):
        # the gate of a project is neither about changed lines nor about one file
        needless += ["gate", "fail_on"]
    for dest in filled.intersection(needless):
        setattr(options, dest, None)


def listed(option: str, value: Any, action: argparse.Action) -> Any:
    """A table of --map as the list that the command line would have; a single value of an option that is repeatable as a list."""
    if option == "map" and isinstance(value, dict):
        return [f"{pattern}={lang}" for pattern, lang in value.items()]
    is_list = isinstance(action, argparse._AppendAction) or action.nargs == "*"  # pylint: disable=protected-access
    return [value] if is_list and not isinstance(value, list) else value


def checked(where: str, action: argparse.Action, value: Any) -> Any:
    """The value as the command line would have made it."""
    if action.nargs == 0:
        if not isinstance(value, bool):
            raise Misuse(f"{where} is true or false")
        return value
    values = value if isinstance(value, list) else [value]
    made = []
    for one in values:
        if isinstance(one, bool) or not isinstance(one, (str, int, float)):
            raise Misuse(f"{where} has the value {one!r}, which the option does not take")
        if "\0" in str(one):
            raise Misuse(f"{where} has a NUL, which the command line can't have")
        try:
            made.append(action.type(str(one)) if callable(action.type) else str(one))
        except argparse.ArgumentTypeError as error:
            raise Misuse(f"{where}: {error}") from error
        if action.choices is not None and made[-1] not in action.choices:
            raise Misuse(f"{where}: {one!r} is none of {', '.join(map(str, action.choices))}")
    if isinstance(value, list) and not (isinstance(action, argparse._AppendAction) or action.nargs == "*"):  # pylint: disable=protected-access
        raise Misuse(f"{where} is one value and no list")
    return made if isinstance(value, list) else made[0]
