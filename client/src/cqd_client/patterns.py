"""The one dialect of patterns: that of the server's `scope`, with three abbreviations that are expanded before anything is compared.

`*` is any characters of one part of a path, `?` is one character, and `**` as a whole part is any number of parts. A pattern
fits a path if it fits all of it. Abbreviations: a pattern without a slash is looked for in every folder (`*.go` is `**/*.go`),
one that begins with a slash only at the root (`/*.go`), and one that ends in a slash is all files below (`vendor/` is
`**/vendor/**`, `src/gen/` is `src/gen/**`).
"""
from __future__ import annotations

import re
from collections.abc import Iterable

from .faults import Misuse

LONGEST = 512


def expanded(pattern: str) -> str:
    """The pattern as the server has it, without abbreviations."""
    is_anchored = "/" in pattern.rstrip("/")
    full = pattern.lstrip("/")
    if full.endswith("/"):
        full = full.rstrip("/") + "/**"
    if not is_anchored and full != "**":
        full = "**/" + full
    if not is_path(full):
        raise Misuse(f"{pattern!r} is no pattern of paths: it has parts joined by a slash, none of them empty, '.' or '..', "
                     f"and at most {LONGEST} bytes")
    return full


def is_path(text: str) -> bool:
    """Whether the server takes this text as a path or a scope."""
    name = text.encode("utf-8", "surrogateescape")
    return (0 < len(name) <= LONGEST and not any(byte < 32 or byte == 127 for byte in name)
            and not any(part in ("", ".", "..") for part in text.split("/")))


def compiled(pattern: str) -> re.Pattern[str]:
    """An expanded pattern, to be compared by `fullmatch` with a path and a slash."""
    def part_form(part: str) -> str:
        if part == "**":
            return "(?:[^/]+/)*"
        symbols = {"*": "[^/]*", "?": "[^/]"}
        return "".join(symbols.get(character) or re.escape(character) for character in re.sub(r"\*+", "*", part)) + "/"
    parts = pattern.split("/")
    # any number of parts, and again any number, is any number once
    once = [part for part, before in zip(parts, ["", *parts]) if not part == before == "**"]
    return re.compile("".join(map(part_form, once)), re.DOTALL)


class Patterns:
    """Some patterns as they were written, and which of them fitted something so far."""

    def __init__(self, patterns: Iterable[str]) -> None:
        self.forms = [(pattern, compiled(expanded(pattern))) for pattern in patterns]
        self.fitted: set[str] = set()
        # A folder that one of these fits has nothing that is left: it need not be read.
        self.folders = [compiled(expanded(pattern)[:-3]) for pattern, _ in self.forms if expanded(pattern).endswith("/**")]

    def __bool__(self) -> bool:
        return bool(self.forms)

    def first(self, path: str) -> str | None:
        """The first pattern that fits the path."""
        for pattern, form in self.forms:
            if form.fullmatch(path + "/"):
                self.fitted.add(pattern)
                return pattern
        return None

    def fit(self, path: str) -> bool:
        return self.first(path) is not None

    def fit_folder(self, path: str) -> bool:
        """Whether all that is below this folder fits."""
        return any(form.fullmatch(path + "/") for form in self.folders) and self.fit(path + "/x")

    def unused(self) -> list[str]:
        return [pattern for pattern, _ in self.forms if pattern not in self.fitted]
