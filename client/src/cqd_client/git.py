"""What is asked of git: where a work tree begins, which files it lists, and what is checked out."""
from __future__ import annotations

import os
import shutil
import subprocess
from pathlib import Path
from typing import Optional

from .faults import Fault


class GitFault(Fault):
    """What git answered instead of what it was asked."""


def is_installed() -> bool:
    return shutil.which("git") is not None


def environment() -> dict[str, str]:
    """Nothing that a user configured for the eye changes what git writes."""
    return {name: value for name, value in os.environ.items() if name not in ("GIT_EXTERNAL_DIFF", "GIT_DIFF_OPTS")} | \
        {"LC_ALL": "C", "GIT_OPTIONAL_LOCKS": "0"}


def git(folder: Path, *arguments: str, given: bytes = b"") -> bytes:
    """What git writes, run in this folder, after it has read what it is given."""
    try:
        ran = subprocess.run(["git", "-C", str(folder), *arguments], input=given, capture_output=True, check=False, env=environment())
    except OSError as error:
        raise GitFault(f"git can't be started: {error.strerror}") from error
    if ran.returncode != 0:
        said = ran.stderr.decode("utf-8", "replace").strip().splitlines()
        raise GitFault(f"git {arguments[0]}: {said[0] if said else f'status {ran.returncode}'}")
    return ran.stdout


def top_of(folder: Path) -> Optional[Path]:
    """The top folder of the work tree that this folder is in."""
    try:
        said = git(folder, "rev-parse", "--show-toplevel")
    except GitFault as fault:
        # a container often runs as another user than the owner of the checkout: that has to be seen
        if "dubious ownership" in str(fault):
            raise
        return None
    return Path(os.fsdecode(said.rstrip(b"\n"))) if said.strip() else None


def listed(folder: Path) -> list[str]:
    """The files below this folder of a work tree, tracked and untracked, but none that .gitignore leaves out."""
    said = git(folder, "ls-files", "-z", "--cached", "--others", "--exclude-standard", "--", ".")
    return sorted({os.fsdecode(name) for name in said.split(b"\0") if name})


def described(folder: Path) -> tuple[str, str]:
    """The commit and the branch that are checked out. Each is empty if there is none."""
    def said(*arguments: str) -> str:
        try:
            return git(folder, *arguments).decode("utf-8", "replace").strip()
        except GitFault:
            return ""
    return said("rev-parse", "--verify", "HEAD"), said("symbolic-ref", "--quiet", "--short", "HEAD")
