#!/usr/bin/env python3
"""Reads a token file and prints its tokens, one per line: path, first line, first byte, class, text.

usage: token_file.py FILE

docs/PROTOCOL.md has the format. Exits with 0 if the bytes are a token file, and with 1 and a line on standard error if they are not. It
checks format, order and bounds. Whether the chunk and the flags are those of given settings is for the caller to check.
"""
import re
import sys

CLASSES = ("ident", "word", "literal", "punct")
LANGUAGES = ("any", "go", "c", "java", "js", "ts")
METRICS = ("lines", "ncloc", "files", "complexity", "duplicated_lines", "duplicated_blocks", "duplicated_files",
           "duplicated_lines_density")


class Refused(Exception):
    """The bytes are not a token file."""


def expect(condition, what):
    if not condition:
        raise Refused(what)


class Reader:
    """Reads numbers and strings from the front. A length is trusted only as far as there are bytes."""

    def __init__(self, data):
        self.data, self.at = data, 0

    def take(self, size):
        expect(self.at + size <= len(self.data), "bytes are missing")
        self.at += size
        return self.data[self.at - size:self.at]

    def number(self, size):
        return int.from_bytes(self.take(size), "big")

    def below(self, limit):
        number = self.number(1)
        expect(number < limit, f"{number} instead of a number below {limit}")
        return number

    def text(self):
        try:
            return self.take(self.number(4)).decode("utf-8")
        except UnicodeDecodeError as error:
            raise Refused("a text is not UTF-8") from error

    def items(self, most, one):
        """A list: how many, and each. Nothing is allocated before its bytes are seen."""
        count = self.number(4)
        expect(count <= most, f"{count} elements, of at most {most}")
        return [one() for _ in range(count)]


def is_path(path):
    data = path.encode()
    return (1 <= len(data) <= 512 and all(b >= 32 and b != 127 for b in data)
            and all(part not in ("", ".", "..") for part in path.split("/")))


def read_file(body, head):
    path, change, lang, state = body.text(), body.number(8), LANGUAGES[body.below(len(LANGUAGES))], body.below(3)
    expect(is_path(path) and 1 <= change <= head["version"], f"{path!r} or its change {change}")
    fault = body.number(4) if state == 1 else None
    lines, ncloc, complexity = body.number(8), body.number(8), body.number(8)
    expect(ncloc <= lines <= 1048576 and complexity <= 262145, f"{path}: counts")

    def token():
        kind, start, size, first, last = body.below(4), *(body.number(4) for _ in range(4))
        text = body.text()
        expect(start + size <= 1048576 and 1 <= first <= last <= lines, f"{path}: a token at byte {start}")
        expect(not text or not head["ignored"].get(kind), f"{path}: the text of an ignored token")
        return {"class": CLASSES[kind], "start": start, "len": size, "first": first, "last": last, "text": text}

    def function():
        name, first, last, decisions = body.text(), body.number(4), body.number(4), body.number(4)
        expect(1 <= first <= last <= lines, f"{path}: the function {name!r}")
        return {"name": name, "first": first, "last": last, "complexity": decisions}

    tokens, functions = body.items(262144, token), body.items(2**32 - 1, function)
    expect(state == 0 or not tokens and not functions, f"{path}: tokens of a file that has none")
    return {"path": path, "change": change, "lang": lang, "state": state, "fault": fault, "lines": lines,
            "ncloc": ncloc, "complexity": complexity, "tokens": tokens, "functions": functions}


def read_token_file(data):
    frame = Reader(data)
    expect(frame.take(8) == b"CQTOK001", "the mark is missing")
    size = frame.number(8)
    expect(size <= 268435456, "the body is too large")
    body = Reader(frame.take(size))
    expect(frame.at == len(data), "bytes after the file")
    head = {"version": body.number(8), "chunk": body.number(4)}
    head["ignored"] = {0: body.below(2), 2: body.below(2)}
    head["project"] = body.text()
    expect(head["version"] <= 2**60 and re.fullmatch(r"[A-Za-z0-9._-]{1,64}", head["project"]), "version or project")
    head["conditions"] = body.items(32, lambda: (METRICS[body.below(8)], ("GT", "LT")[body.below(2)], body.number(8)))
    head["files"] = files = body.items(262144, lambda: read_file(body, head))
    expect(body.at == len(body.data), "bytes after the last file")
    paths = [file["path"].encode() for file in files]
    expect(all(one < other for one, other in zip(paths, paths[1:])), "the order of paths")
    expect(len({file["change"] for file in files}) == len(files), "a change twice")
    return head


def main(words):
    if len(words) != 2:
        sys.exit(__doc__)
    with open(words[1], "rb") as source:
        data = source.read()
    try:
        files = read_token_file(data)["files"]
    except Refused as refused:
        sys.exit(f"token_file.py: not a token file: {refused}")
    for file in files:
        for token in file["tokens"]:
            print(file["path"], token["first"], token["start"], token["class"], token["text"], sep="\t")


if __name__ == "__main__":
    main(sys.argv)
