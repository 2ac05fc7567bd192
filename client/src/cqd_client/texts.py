"""The text of a source file, as a request can hold it."""
from __future__ import annotations

import codecs
import functools
import hashlib
import os
import re
from typing import Optional

from .faults import Misuse
from .patterns import LONGEST
from .tree import Source, Tree, name_of
from .wording import counted

# A line of such a text has at most six times its bytes and a path, which is below the most that a request's line may have.
LONGEST_TEXT = 1_048_576
# As far as this a file is searched for a NUL, as git does, to tell that it is no text.
SEARCHED = 8_000
CONTROL = re.compile(rb"[\0-\x1f\x7f]")
UTF_16 = (codecs.BOM_UTF16_LE, codecs.BOM_UTF16_BE)


class Unfit(Exception):
    """Why a file is not uploaded, in words."""


class Binary(Exception):
    """A file is no text."""


def known_encoding(name: str) -> str:
    try:
        # of no bytes, every name would do
        b"a".decode(name)
    except UnicodeDecodeError:
        pass
    except (LookupError, ValueError) as error:
        raise Misuse(f"--encoding {name}: Python knows no such encoding of text") from error
    return name


def text_of(tree: Tree, source: Source, encoding: Optional[str]) -> str:
    """The text, read as UTF-8, as UTF-16 if it begins with its mark, or else in the encoding that is named."""
    name = name_of(source.path)
    try:
        name.decode("utf-8")
    except UnicodeDecodeError:
        raise Unfit("its name is not UTF-8") from None
    if len(name) > LONGEST:
        raise Unfit(f"its path has {len(name):,} bytes, and at most {LONGEST} are taken")
    if CONTROL.search(name):
        raise Unfit("its name has control characters")
    if source.size > 2 * LONGEST_TEXT + 2:
        # even as UTF-16 it has more than a request holds
        raise Unfit(f"it has more than {LONGEST_TEXT:,} bytes; exclude it, or split it")
    try:
        data = contents(tree.file(source.path), source.size)
    except OSError as error:
        raise Unfit(str(error.strerror)) from None
    text = decoded(data, encoding)
    if len(data) > LONGEST_TEXT and len(text.encode("utf-8")) > LONGEST_TEXT or len(text) > LONGEST_TEXT:
        raise Unfit(f"it has more than {LONGEST_TEXT:,} bytes; exclude it, or split it")
    return text


def contents(name: bytes, size: int) -> bytes:
    """The bytes of a file that had this size. A file of Python's library takes twice as many calls of the system."""
    file = os.open(name, os.O_RDONLY | os.O_CLOEXEC)
    try:
        data = os.read(file, size + 1)
        while len(data) != size and (more := os.read(file, LONGEST_TEXT)):
            data += more
        return data
    finally:
        os.close(file)


def decoded(data: bytes, encoding: Optional[str]) -> str:
    try:
        if data.startswith(UTF_16):
            return data.decode("utf-16")
        if b"\0" not in data[:SEARCHED]:
            return data.decode("utf-8")
        if not encoding or not has_zeros(encoding):
            raise Binary
    except UnicodeDecodeError as error:
        if len(data) > LONGEST_TEXT:
            raise Unfit(f"it has more than {LONGEST_TEXT:,} bytes; exclude it, or split it") from None
        if not encoding:
            raise Unfit(f"it is not UTF-8 at byte {error.start:,}; --encoding names the encoding of such files") from None
    try:
        text = data.decode(encoding)
        # some encodings have halves of surrogate pairs, which no request holds
        text.encode("utf-8")
        return text
    except (UnicodeError, LookupError):
        raise Unfit(f"it is neither UTF-8 nor {encoding}") from None


@functools.lru_cache(maxsize=None)
def has_zeros(encoding: str) -> bool:
    """Whether text in this encoding has bytes that are zero, as UTF-16 has."""
    try:
        return b"\0" in "a".encode(encoding)
    except UnicodeError:
        return False


def hash_of(lang: str, text: str) -> str:
    return hashlib.sha256(f"{lang} {text}".encode("utf-8")).hexdigest()


def too_large(tree: Tree, most: int) -> str:
    """Which folder to leave out, if the files have more bytes than a server holds; empty if they don't."""
    if tree.size <= most:
        return ""
    sizes: dict[str, int] = {}
    for source in tree.sources:
        parts = source.path.split("/")[:-1]
        for depth in range(1, len(parts) + 1):
            folder = "/".join(parts[:depth])
            sizes[folder] = sizes.get(folder, 0) + source.size
    whole = f"{counted(len(tree.sources), 'source file')} of {tree.size:,} bytes, and a server holds at most {most:,}"
    # the smallest folder without which the rest fits, else the largest that isn't all
    fitting = [folder for folder, size in sizes.items() if tree.size - size <= most and size < tree.size]
    if fitting:
        least = min(fitting, key=lambda folder: (sizes[folder], folder))
        return (f"{whole}: leave out {least} with --exclude '/{least}/' ({sizes[least]:,} bytes), or split the sources into several projects "
                "on further servers")
    large = [folder for folder, size in sizes.items() if size < tree.size]
    largest = max(large, key=lambda folder: (sizes[folder], folder), default="")
    named = f" (the largest folder, {largest}, has {sizes[largest]:,})" if largest else ""
    return f"{whole}{named}: split the sources into several projects on further servers, or choose fewer with --include and --exclude"
