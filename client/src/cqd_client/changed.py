"""Which lines of a work tree differ from where its branch began."""
from __future__ import annotations

import re
import subprocess
from collections.abc import Iterable
from dataclasses import dataclass, field
from pathlib import Path

from . import git
from .faults import Fault
from .tree import name_of as bytes_of, path_of

# Every setting that a user may have, and that would change what is read, is overridden. So is the attribute `-diff`: a branch could
# otherwise hide its changes by one line in .gitattributes.
DIFF = ("-c", "core.quotePath=false", "-c", "diff.noprefix=false", "-c", "diff.mnemonicPrefix=false", "diff", "--no-color", "--no-ext-diff",
        "--no-textconv", "--text", "--find-renames", "--unified=0", "--inter-hunk-context=0", "--src-prefix=a/", "--dst-prefix=b/",
        "--ignore-submodules", "--diff-algorithm=histogram", "--relative")
HUNK = re.compile(rb"@@ -\d+(?:,(\d+))? \+(\d+)(?:,(\d+))? @@")
ESCAPES = {"a": 7, "b": 8, "t": 9, "n": 10, "v": 11, "f": 12, "r": 13, '"': 34, "\\": 92}


@dataclass
class Lines:
    """What changed in one file: runs of lines that are new or other, and places after which lines were taken out."""
    runs: list[tuple[int, int]] = field(default_factory=list)
    cuts: list[int] = field(default_factory=list)

    def meet(self, first: int, last: int) -> bool:
        """Whether a change lies within these lines. A cut does if lines on both of its sides are among them."""
        return any(start <= last and first <= end for start, end in self.runs) or any(first <= cut < last for cut in self.cuts)

    def within(self, spans: Iterable[tuple[int, int]]) -> int:
        """How many changed lines are covered by these spans."""
        covered: set[int] = set()
        for first, last in spans:
            for start, end in self.runs:
                covered.update(range(max(first, start), min(last, end) + 1))
        return len(covered)

    @property
    def count(self) -> int:
        return sum(end - start + 1 for start, end in self.runs)


WHOLE = Lines([(1, 1 << 40)])


def base_commit(root: Path, base: str) -> str:
    """The commit at which this branch and the base parted."""
    try:
        git.git(root, "rev-parse", "--verify", "--quiet", "--end-of-options", f"{base}^{{commit}}")
    except git.GitFault as fault:
        if not git.top_of(root):
            raise Fault(f"{root} is in no git work tree, and check compares with a commit") from fault
        raise Fault(f"--base {base}: git knows no such commit; fetch it first, for instance with git fetch origin") from fault
    try:
        return git.git(root, "merge-base", base, "HEAD").decode().split()[0]
    except (git.GitFault, IndexError) as fault:
        shallow = git.git(root, "rev-parse", "--is-shallow-repository").strip() == b"true"
        hint = "; this clone is shallow: fetch the whole history (git fetch --unshallow, or fetch-depth: 0)" if shallow else ""
        raise Fault(f"--base {base} and HEAD have no commit in common{hint}") from fault


def changed_lines(root: Path, base: str) -> dict[str, Lines]:
    """The changes of the work tree below the root since its branch left the base, by path. A file that git does not track, or
    whose lines it does not see, has changed as a whole; one that was only moved has not changed."""
    commit = base_commit(root, base)
    with subprocess.Popen(["git", "-C", str(root), *DIFF, commit, "--"], stdin=subprocess.DEVNULL, stdout=subprocess.PIPE,
                          env=git.environment()) as process:
        assert process.stdout is not None
        found = read_diff(process.stdout)
    if process.returncode != 0:
        raise Fault(f"git diff ended with status {process.returncode}")
    for name in git.git(root, "ls-files", "-z", "--others", "--exclude-standard", "--", ".").split(b"\0"):
        if name:
            found[path_of(name)] = WHOLE
    for path in filtered(root, found):
        found[path] = WHOLE
    return found


def filtered(root: Path, paths: Iterable[str]) -> list[str]:
    """The files that have a filter, as those of git-lfs and git-crypt: git compares what the filter makes of them."""
    said = git.git(root, "check-attr", "-z", "--stdin", "filter", given=b"".join(bytes_of(path) + b"\0" for path in paths)).split(b"\0")
    return [path_of(name) for name, value in zip(said[::3], said[2::3]) if value not in (b"unspecified", b"unset")]


def read_diff(diff: Iterable[bytes]) -> dict[str, Lines]:
    """The changes that a diff without context has. The lines of a hunk are passed over by their number, so that none of them is
    taken for a header. (python3-unidiff refuses the diff of a new file whose name has a space in it.)"""
    found: dict[str, Lines] = {}
    lines = Lines()
    left = 0
    for line in diff:
        hunk = None if left else HUNK.match(line)
        if left:
            left -= not line.startswith(b"\\")
        elif line.startswith(b"+++ "):
            lines = Lines()
            name = line[4:].rstrip(b"\n").rstrip(b"\t")
            if name != b"/dev/null":
                found[path_of(name_of(name))] = lines
        elif hunk:
            start, length = int(hunk[2]), int(hunk[3] or 1)
            left = int(hunk[1] or 1) + length
            if length:
                lines.runs.append((start, start + length - 1))
            else:
                lines.cuts.append(start)
    if left:
        raise Fault("git diff ended in the middle of a change")
    return found


def name_of(target: bytes) -> bytes:
    """The name of a file as a diff has it: after `b/`, and in quotes if it has special characters."""
    if target.startswith(b'"'):
        target = re.sub(rb"\\([0-7]{3}|.)", unescaped, target[1:-1])
    return target[2:]


def unescaped(escape: re.Match[bytes]) -> bytes:
    code = escape[1].decode("latin-1")
    return bytes([int(code, 8)]) if len(code) == 3 else bytes([ESCAPES.get(code, ord(code))])
