"""What a call writes: its answer in the formats that were asked for, and the page."""
from __future__ import annotations

import argparse
import contextlib
import dataclasses
import importlib.util
import io
import os
import re
import sys
import tempfile
from collections.abc import Iterator
from pathlib import Path
from typing import Optional, TextIO, cast

from . import formats
from .faults import FAILED, PASSED, UNKNOWN, Fault
from .findings import Measures, Report, arranged
from .tree import real
from .wording import shown, value_text

WORDS = {PASSED: "OK", FAILED: "ERROR", UNKNOWN: "UNKNOWN"}


def targets(options: argparse.Namespace) -> list[Path]:
    """The files that a call writes."""
    page_file = vars(options).get("page")
    return [*(vars(options).get("output") or []), *([page_file] if page_file else [])]


def check_targets(options: argparse.Namespace) -> None:
    """Refuses targets that can't be written before anything else is done."""
    if vars(options).get("page") and not importlib.util.find_spec("jinja2"):
        raise Fault("python3-jinja2 is needed to write a page: install it")
    for target in targets(options):
        if is_stream(target):
            continue
        folder = real(target).parent
        if target.is_dir() or not folder.is_dir() or not os.access(folder, os.W_OK):
            raise Fault(f"{target} can't be written: " + ("it is a folder" if target.is_dir() else "no such folder, or no permission"))


@contextlib.contextmanager
def standard_output() -> Iterator[TextIO]:
    """Standard output, which has all that was written when this ends. If its reader has left, the call ends without a message."""
    try:
        yield sys.stdout
        sys.stdout.flush()
    except OSError as error:
        # what is left to write can't be, and Python would try once more at its end
        os.dup2(os.open(os.devnull, os.O_WRONLY), sys.stdout.fileno())
        if isinstance(error, BrokenPipeError):
            sys.exit(UNKNOWN)
        raise Fault(f"standard output can't be written: {error.strerror}") from error


def write(report: Report, options: argparse.Namespace) -> None:
    """Writes the report. Files appear as a whole, and what stood there stays if that fails."""
    ordered = arranged(report, options.sort or "", options.top)
    if options.page:
        from . import page  # pylint: disable=import-outside-toplevel
        with replaced(options.page) as out:
            page.write(report, out)
    names = options.format or ["text"]
    files = options.output or []
    for name, file in zip(names, files):
        with replaced(file) as out:
            write_one(ordered, name, options.command, out)
    if len(files) < len(names):
        whole = io.StringIO()
        write_one(ordered, names[-1], options.command, whole)
        with standard_output() as out:
            out.write(whole.getvalue())
    elif report.verdict:
        with standard_output() as out:
            formats.write(dataclasses.replace(report, groups=(), total=0, functions=()), "text", out)


def descriptor_of(target: Path) -> Optional[int]:
    """The descriptor that a name such as /dev/stdout stands for. It may lead to a regular file, and is written to even then: to put another
    file in that place would replace /dev/stdout itself."""
    name = {"/dev/stdout": "/dev/fd/1", "/dev/stderr": "/dev/fd/2"}.get(str(target), str(target))
    found = re.fullmatch(r"/(?:dev|proc/self)/fd/([0-9]{1,9})", name)
    return int(found[1]) if found else None


def is_stream(target: Path) -> bool:
    """Whether the target is written to as it is: a descriptor of this process, a device or a pipe."""
    return descriptor_of(target) is not None or (target.exists() and not target.is_file() and not target.is_dir())


@contextlib.contextmanager
def replaced(target: Path) -> Iterator[TextIO]:
    """A file that takes the place of the target, or of what it links to, when it is whole; or the stream that the target is."""
    if is_stream(target):
        descriptor = descriptor_of(target)
        try:
            with open(target if descriptor is None else os.dup(descriptor), "w", encoding="utf-8", errors="backslashreplace") as out:
                yield out
        except OSError as error:
            raise Fault(f"{target} can't be written: {error.strerror}") from error
        return
    beside = ""
    target = real(target)
    try:
        with tempfile.NamedTemporaryFile("w", encoding="utf-8", errors="backslashreplace", newline="\n", dir=target.parent,
                                         prefix=target.name + ".", delete=False) as file:
            beside = file.name
            yield cast(TextIO, file)
        os.chmod(beside, target.stat().st_mode & 0o777 if target.exists() else 0o666 & ~umask())
        os.replace(beside, target)
        beside = ""
    except OSError as error:
        raise Fault(f"{target} can't be written: {error.strerror}") from error
    finally:
        if beside:
            with contextlib.suppress(OSError):
                os.unlink(beside)


def umask() -> int:
    mask = os.umask(0o022)
    os.umask(mask)
    return mask


def write_one(report: Report, name: str, command: str, out: TextIO) -> None:
    if name == "text" and command == "measures" and report.measures:
        out.writelines(measure_lines(report.measures))
    elif name == "text" and command == "report":
        # the duplicates are on the page
        out.writelines(function_lines(report))
        formats.write(dataclasses.replace(report, groups=(), total=0), name, out)
    else:
        formats.write(report, name, out)
        if name == "text" and not report.groups and not report.verdict:
            out.write("no duplicates\n")


def measure_lines(measures: Measures) -> Iterator[str]:
    names = sorted(vars(measures))
    width = max(map(len, names))
    for name in names:
        yield f"{name:<{width}}  {value_text(name, getattr(measures, name))}\n"


def function_lines(report: Report) -> Iterator[str]:
    if report.functions:
        yield "functions of greatest complexity\n"
    width = max((len(str(function.complexity)) for function in report.functions), default=0)
    for function in report.functions:
        yield f"  {function.complexity:>{width}}  {shown(function.name)}  {shown(function.path)}:{function.first}-{function.last}\n"
