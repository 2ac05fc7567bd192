"""Which files a call uploads, each with its path in the project and its language."""
from __future__ import annotations

import contextlib
import functools
import os
import stat
import sys
from collections.abc import Iterator
from dataclasses import dataclass, field
from pathlib import Path
from typing import Any, Optional

from . import git
from .faults import Fault, Misuse
from .findings import Skipped
from .notes import Notes
from .patterns import Patterns
from .wording import counted

LANGUAGE_OF = {".java": "java", ".go": "go", ".c": "c", ".h": "c", ".js": "js", ".mjs": "js", ".cjs": "js", ".jsx": "js",
               ".ts": "ts", ".mts": "ts", ".cts": "ts"}
NAMES = ("any", "go", "c", "java", "js", "ts")
# Endings of code that is read only if an option says how.
OTHER_CODE = frozenset(""".c++ .cc .cpp .cs .cxx .dart .groovy .h++ .hh .hpp .hxx .inc .kt .kts .lua .m .mm .php .pl .pm .py .rb
    .rs .scala .swift .tsx .vb""".split())


@dataclass(frozen=True)
class Source:
    """A file of the project: `path` is below the root, with slashes; a name that isn't UTF-8 has surrogates in it."""
    path: str
    lang: str
    size: int


@dataclass
class Choice:
    """Which of the files that are found are uploaded. `own` are files that this call itself writes."""
    include: Patterns = field(default_factory=lambda: Patterns([]))
    exclude: Patterns = field(default_factory=lambda: Patterns([]))
    maps: Patterns = field(default_factory=lambda: Patterns([]))
    plain: Patterns = field(default_factory=lambda: Patterns([]))
    languages: dict[str, str] = field(default_factory=dict)
    reads_ignores: bool = True
    own: frozenset[str] = frozenset()

    def language(self, path: str) -> Optional[str]:
        """The language of the first pattern of --map that fits, or the one of the name's ending, or `any` for --any."""
        pattern = self.maps.first(path)
        if pattern is not None:
            return self.languages[pattern]
        return LANGUAGE_OF.get(ending_of(path)) or ("any" if self.plain.fit(path) else None)


@dataclass
class Tree:
    """The files of a call in the order of their paths' bytes. `within` are the folders and files that were looked at: what was
    uploaded from there earlier and is there no more is dropped. An empty path is the root."""
    root: Path
    within: list[str]
    sources: list[Source]
    skipped: list[Skipped] = field(default_factory=list)

    def looked_at(self, path: str) -> bool:
        return any(not above or path == above or path.startswith(above + "/") for above in self.within)

    def file(self, path: str) -> bytes:
        """The name of this file for the system."""
        return self.prefix + name_of(path)

    @functools.cached_property
    def prefix(self) -> bytes:
        return os.path.join(os.fsencode(self.root), b"")

    @functools.cached_property
    def size(self) -> int:
        return sum(source.size for source in self.sources)

    @functools.cached_property
    def by_path(self) -> dict[str, Source]:
        return {source.path: source for source in self.sources}


def name_of(path: str) -> bytes:
    """The bytes of a path, which are UTF-8 whatever the locale is, or escaped."""
    return path.encode("utf-8", "surrogateescape")


def ending_of(path: str) -> str:
    """The ending of a file's name, from its last point, empty if it has none but at its front."""
    point = path.rfind(".")
    return path[point:] if point > path.rfind("/") + 1 else ""


def path_of(name: bytes) -> str:
    return name.decode("utf-8", "surrogateescape")


def root_of(named: Optional[Path], paths: list[Path]) -> Path:
    """The folder that paths are relative to: the one that is named, else the top of the git work tree that the first path is in,
    else the current folder if all paths are below it, else the deepest folder that has all of them."""
    if named:
        if not os.path.isdir(named):
            raise Fault(f"--root {named} is no folder")
        return real(named)
    here = Path.cwd()
    whole = [real(path) for path in paths] or [here]
    first = whole[0] if os.path.isdir(whole[0]) else whole[0].parent
    try:
        top = git.top_of(first) if os.path.isdir(first) else None
    except git.GitFault:
        top = None
    for root in (top, here):
        if root and all(path == root or root in path.parents for path in whole):
            return root
    return Path(os.path.commonpath([path if os.path.isdir(path) else path.parent for path in whole]))


def real(path: Path) -> Path:
    """The path with all links followed. Path.resolve has no answer for a link that leads to itself."""
    return Path(os.path.realpath(path))


def tree_of(root: Path, paths: list[Path], listing: Optional[bytes], choice: Choice, notes: Notes) -> Tree:
    """The files of these folders, files and names of a list. A path that does not exist is a fault."""
    tree = Tree(root, [], [])
    found: dict[str, Source] = {}
    others: dict[str, int] = {}
    missing: list[str] = []

    def add(path: str, is_listed: bool = False) -> None:
        if path in found or choice.exclude.fit(path) or (choice.include and not choice.include.fit(path)):
            return
        lang = choice.language(path)
        if lang is None:
            ending = ending_of(path) or "none"
            others[ending] = others.get(ending, 0) + 1
            return
        try:
            entry = os.lstat(tree.file(path))
        except FileNotFoundError as error:
            # a file that was deleted and not committed is still listed by git
            if is_listed:
                missing.append(path)
            else:
                tree.skipped.append(Skipped(path, str(error.strerror)))
            return
        except OSError as error:
            tree.skipped.append(Skipped(path, str(error.strerror)))
            return
        if stat.S_ISREG(entry.st_mode) and not (choice.own and path_of(tree.file(path)) in choice.own):
            found[path] = Source(path, lang, entry.st_size)
    for path in paths:
        below = relative(root, path)
        tree.within.append(below)
        if os.path.isdir(path):
            for name, is_listed in within_folder(tree, below, choice, notes):
                add(name, is_listed)
                if notes.is_terminal:
                    notes.progress(f"{counted(len(found), 'file')} found")
        else:
            add(below)
    if listing is not None:
        tree.within.append("")
        listed = names_of(listing)
        folders = {name for name in listed if os.path.isdir(name)}
        if folders:
            notes.say(f"{counted(len(folders), 'folder')} of the list not read, the first is {path_of(min(folders))}; only files are")
        for given in listed:
            if given not in folders and not os.path.islink(given):
                add(below_root(root, given))
    notes.clear()
    if missing:
        notes.say(f"{counted(len(missing), 'file')} that git lists {'is' if len(missing) == 1 else 'are'} not in the work tree, "
                  f"the first is {missing[0]}")
    tree.sources = sorted(found.values(), key=lambda source: name_of(source.path))
    tell_unused(choice, notes)
    tell_unread(others, bool(tree.sources), notes)
    return tree


def relative(root: Path, path: Path) -> str:
    """The path below the root, with slashes; empty if it is the root. Links in the folders above it are followed."""
    whole = real(path.parent) / path.name if path.name not in ("", "..") else real(path)
    if not os.path.lexists(whole):
        raise Fault(f"{path} does not exist")
    if os.path.isdir(whole):
        whole = real(whole)
    elif os.path.islink(whole):
        raise Fault(f"{path} is a symbolic link, and none is followed")
    return "" if whole == root else below_root(root, os.fsencode(whole))


def below_root(root: Path, name: bytes) -> str:
    """The path of a file of this name, whether or not there is one."""
    folder, last = os.path.split(name)
    whole, top = os.path.join(real_folder(os.path.join(os.getcwdb(), folder)), last), os.path.join(os.fsencode(root), b"")
    if not whole.startswith(top):
        raise Misuse(f"{path_of(name)} is not below the root {root}; --root names another")
    return path_of(whole[len(top):])


@functools.lru_cache(maxsize=1024)
def real_folder(folder: bytes) -> bytes:
    return os.path.realpath(folder)


def names_of(listing: bytes) -> list[bytes]:
    """The names of a list: ended by NUL if there is one in it, else by line."""
    names = listing.split(b"\0") if b"\0" in listing else [line.rstrip(b"\r") for line in listing.split(b"\n")]
    return [name for name in names if name]


def read_listing(name: str) -> bytes:
    if name == "-" and sys.stdin is None:
        raise Fault("--files-from -: standard input is closed")
    try:
        return sys.stdin.buffer.read() if name == "-" else Path(name).read_bytes()
    except OSError as error:
        raise Fault(f"--files-from {name} can't be read: {error.strerror}") from error


def within_folder(tree: Tree, below: str, choice: Choice, notes: Notes) -> Iterator[tuple[str, bool]]:
    """The files of a folder: those that git lists if it is in a work tree, which may be missing, else all that no .gitignore leaves out.
    Each with whether git listed it."""
    folder = Path(os.fsdecode(tree.file(below)))
    prefix = below + "/" if below else ""
    if choice.reads_ignores:
        names = git_names(folder, notes)
        if names is not None:
            for name in names:
                path = prefix + path_of(os.fsencode(name))
                if os.path.isdir(tree.file(path)) and not os.path.islink(tree.file(path)):
                    notes.say(f"{path} is a work tree of its own (a submodule?) and is not read; name it as a folder to read it too")
                else:
                    yield path, True
            return
    for path in walked(tree, below, choice):
        yield path, False


def git_names(folder: Path, notes: Notes) -> Optional[list[str]]:
    try:
        if not git.top_of(folder):
            return None
        return git.listed(folder)
    except git.GitFault as fault:
        notes.say(f"{fault}; {folder} is read without git")
        return None


def walked(tree: Tree, below: str, choice: Choice) -> Iterator[str]:
    """The files of a folder and the folders in it. Symbolic links are not followed, and nothing below .git is read."""
    folders: list[tuple[str, tuple[tuple[str, Any], ...]]] = [(below, ())]
    while folders:
        above, ignores = folders.pop()
        try:
            with os.scandir(tree.file(above)) as scanned:
                entries = list(scanned)
        except OSError as error:
            if above == below:
                raise Fault(f"{above or tree.root} can't be read: {error.strerror}") from error
            tree.skipped.append(Skipped(above, str(error.strerror)))
            continue
        if choice.reads_ignores and any(entry.name == b".gitignore" and entry.is_file(follow_symlinks=False) for entry in entries):
            ignores = (*ignores, (above + "/" if above else "", ignore_of(tree.file(above))))
        for entry in entries:
            path = f"{above}/{path_of(entry.name)}" if above else path_of(entry.name)
            if entry.is_dir(follow_symlinks=False):
                if entry.name != b".git" and not choice.exclude.fit_folder(path) and not is_ignored(path + "/", ignores):
                    folders.append((path, ignores))
            elif entry.is_file(follow_symlinks=False) and not is_ignored(path, ignores):
                yield path


def ignore_of(folder: bytes) -> Any:
    """What the .gitignore of this folder says. A line that is no pattern fits nothing, as for git."""
    try:
        import pathspec  # pylint: disable=import-outside-toplevel
    except ImportError as error:
        raise Fault("python3-pathspec is needed to read .gitignore: install it, or read all files with --no-ignore") from error
    name = os.path.join(folder, b".gitignore")
    try:
        with open(name, encoding="utf-8", errors="surrogateescape") as file:
            lines = list(file)
    except OSError as error:
        raise Fault(f"{path_of(name)} can't be read: {error.strerror}") from error
    patterns: list[Any] = []
    for line in lines:
        with contextlib.suppress(ValueError):
            patterns += pathspec.GitIgnoreSpec.from_lines([line]).patterns
    return patterns


def is_ignored(path: str, ignores: tuple[tuple[str, Any], ...]) -> bool:
    """Whether the deepest .gitignore that has a pattern for the path leaves it out; of its patterns the last one counts."""
    for above, patterns in reversed(ignores):
        for pattern in reversed(patterns):
            if pattern.include is not None and pattern.match_file(path[len(above):]) is not None:
                return bool(pattern.include)
    return False


def tell_unread(others: dict[str, int], has_sources: bool, notes: Notes) -> None:
    """Says which files were found and have no language: all endings if there are no others, else only those of code."""
    unread = {ending: count for ending, count in others.items() if not has_sources or ending.lower() in OTHER_CODE}
    if unread:
        endings = sorted(unread, key=lambda ending: -unread[ending])[:5]
        pattern = next((f"*{ending}" for ending in endings if ending.startswith(".")), "PATTERN")
        total = sum(unread.values())
        notes.say(f"{counted(total, 'file')} of other endings ({', '.join(endings)}) {'is' if total == 1 else 'are'} not read; "
                  f"--map '{pattern}=LANGUAGE' gives them a language, and --any '{pattern}' reads them as plain text")


def tell_unused(choice: Choice, notes: Notes) -> None:
    """Says which patterns fit no file: most often they are not what was meant."""
    for option, patterns in (("--include", choice.include), ("--exclude", choice.exclude), ("--map", choice.maps),
                             ("--any", choice.plain)):
        for pattern in patterns.unused():
            is_folder = not set("*?.") & set(pattern.rpartition("/")[2]) and not pattern.endswith("/")
            notes.say(f"{option} {pattern!r} fits no file" + (f"; all files below a folder are '{pattern}/'" if is_folder else ""))
