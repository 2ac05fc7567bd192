#!/usr/bin/env python3
"""Hands hostile token files to `ask`: valid ones, and ones with bytes changed, cut, doubled or omitted, or with lengths made huge.

usage: bench/token_files.py [--files N] [--seed N] [--cqd PROGRAM]

Each file is read by examples/token_file.py, which shares no code with cqd. What it takes is written again by the writer below, and must give
the same bytes. With --cqd each file is also handed to `PROGRAM ask`, with the settings that it was made for and one query after it. The program
must exit with 0 and reply if the reader takes the file, exit with 8 and write nothing if it does not, and take less than ten seconds. A byte
after the file is not part of it for `ask`, which goes on to read lines, so files with bytes after them are not handed to it. Without --cqd
only the reader and the writer are tried.

Exits with 0 if all agreed, and prints how many files of each kind there were and how many were taken.
"""
import argparse
import collections
import os
import random
import subprocess
import sys

sys.path.insert(0, os.path.join(os.path.dirname(os.path.abspath(__file__)), "..", "examples"))
from token_file import CLASSES, LANGUAGES, METRICS, Refused, read_token_file  # noqa: E402

LETTERS = "ab.é漢\U0001f600 \x7f"


def number(value, size):
    return value.to_bytes(size, "big")


def text(value):
    data = value.encode("utf-8")
    return number(len(data), 4) + data


def listed(items, one):
    return number(len(items), 4) + b"".join(map(one, items))


def token_bytes(token):
    place = b"".join(number(token[field], 4) for field in ("start", "len", "first", "last"))
    return number(CLASSES.index(token["class"]), 1) + place + text(token["text"])


def function_bytes(function):
    return text(function["name"]) + b"".join(number(function[field], 4) for field in ("first", "last", "complexity"))


def file_bytes(file):
    fault = number(file["fault"], 4) if file["state"] == 1 else b""
    counts = b"".join(number(file[field], 8) for field in ("lines", "ncloc", "complexity"))
    return (text(file["path"]) + number(file["change"], 8) + number(LANGUAGES.index(file["lang"]), 1)
            + number(file["state"], 1) + fault + counts
            + listed(file["tokens"], token_bytes) + listed(file["functions"], function_bytes))


def token_file(head):
    conditions = listed(head["conditions"], lambda c: number(METRICS.index(c[0]), 1)
                        + number(("GT", "LT").index(c[1]), 1) + number(c[2], 8))
    body = (number(head["version"], 8) + number(head["chunk"], 4) + number(head["ignored"][0], 1)
            + number(head["ignored"][2], 1) + text(head["project"]) + conditions + listed(head["files"], file_bytes))
    return b"CQTOK001" + number(len(body), 8) + body


def drawn_text(draw, most):
    return "".join(draw.choice(LETTERS) for _ in range(draw.randint(0, most)))


def drawn_file(draw, head, path, change):
    lines = draw.randint(1, 9)
    state = draw.choice((0, 0, 0, 0, 1, 2))
    tokens, functions = [], []
    for at in range(draw.randint(0, 6) if state == 0 else 0):
        kind, first = draw.randrange(4), draw.randint(1, lines)
        spelling = "" if head["ignored"].get(kind) else draw.choice(("a", "b", "a", drawn_text(draw, 3)))
        tokens.append({"class": CLASSES[kind], "start": at, "len": 1, "first": first,
                       "last": draw.randint(first, lines), "text": spelling})
    for _ in range(draw.randint(0, 2) if state == 0 else 0):
        first = draw.randint(1, lines)
        functions.append({"name": drawn_text(draw, 3), "first": first, "last": draw.randint(first, lines),
                          "complexity": draw.randint(1, 9)})
    return {"path": path, "change": change, "lang": draw.choice(LANGUAGES), "state": state,
            "fault": draw.randint(0, 9) if state == 1 else None, "lines": lines, "ncloc": draw.randint(0, lines),
            "complexity": draw.randint(0, 9), "tokens": tokens, "functions": functions}


def drawn_head(draw):
    head = {"version": draw.choice((0, 1, 5, 2**60)), "chunk": draw.randint(1, 3),
            "ignored": {0: draw.randrange(2), 2: draw.randrange(2)}, "project": draw.choice(("p", "q.r-s_1"))}
    head["conditions"] = [(draw.choice(METRICS), draw.choice(("GT", "LT")), draw.choice((0, 2**64 - 1)))
                          for _ in range(draw.choice((0, 0, 1, 32)))]
    paths = sorted({draw.choice("abcé") + draw.choice(("", "/x", ".c")) for _ in range(draw.randint(0, 4))},
                   key=lambda path: path.encode())[:min(head["version"], 4)]
    changes = draw.sample(range(1, min(head["version"], 9) + 1), len(paths)) if paths else []
    head["files"] = [drawn_file(draw, head, path, change) for path, change in zip(paths, changes)]
    return head


def equal_paths(draw, data):
    head = read_token_file(data)
    if len(head["files"]) > 1:
        head["files"][1]["path"] = head["files"][0]["path"]
    return token_file(head)


def equal_changes(draw, data):
    head = read_token_file(data)
    if len(head["files"]) > 1:
        head["files"][1]["change"] = head["files"][0]["change"]
    return token_file(head)


def with_number(draw, data, size, values):
    at = draw.randrange(len(data) - size + 1)
    return data[:at] + number(draw.choice(values), size) + data[at + size:]


def flipped(draw, data):
    data = bytearray(data)
    for _ in range(draw.randint(1, 3)):
        data[draw.randrange(len(data))] ^= 1 << draw.randrange(8)
    return bytes(data)


def doubled(draw, data):
    start = draw.randrange(len(data))
    end = draw.randint(start + 1, len(data))
    return data[:end] + data[start:end] + data[end:]


KINDS = {
    "valid": lambda draw, data: data,
    "flipped": flipped,
    "cut": lambda draw, data: data[:draw.randrange(len(data))],
    "doubled": doubled,
    "omitted": lambda draw, data: data[:(at := draw.randrange(len(data)))] + data[at + draw.randint(1, 9):],
    "long 4": lambda draw, data: with_number(draw, data, 4, (2**32 - 1, 2**31, 2**28, 262145, 33)),
    "long 8": lambda draw, data: with_number(draw, data, 8, (2**64 - 1, 2**60 + 1, 268435457, 268435456)),
    "appended": lambda draw, data: data + bytes([draw.randrange(256)]),
    "equal paths": equal_paths,
    "equal changes": equal_changes,
}


def taken(data):
    """What the reader returns, or None. What it takes must be written as the same bytes."""
    try:
        head = read_token_file(data)
    except Refused:
        return None
    if token_file(head) != data:
        raise SystemExit(f"token_files.py: the same contents were written as other bytes: {data.hex()}")
    return head


def asked(program, head, data):
    """The exit status of the program for a file and one query, and what it writes."""
    words = [program, "ask", "--chunk", str(head["chunk"])]
    words += ["--ignore-ids"] * head["ignored"][0] + ["--ignore-literals"] * head["ignored"][2]
    query = b'{"op":"files","project":"%s"}\n' % head["project"].encode()
    run = subprocess.run(words, input=data + query, capture_output=True, timeout=10, check=False)
    return run.returncode, run.stdout


def is_of(head, found):
    return all(found[field] == head[field] for field in ("chunk", "ignored"))


def main():
    words = argparse.ArgumentParser(description=__doc__, formatter_class=argparse.RawDescriptionHelpFormatter)
    words.add_argument("--files", type=int, default=100000)
    words.add_argument("--seed", type=int, default=1)
    words.add_argument("--cqd")
    words = words.parse_args()
    draw = random.Random(words.seed)
    counts = collections.Counter()
    for index in range(words.files):
        kind = list(KINDS)[index % len(KINDS)]
        head = drawn_head(draw)
        data = KINDS[kind](draw, token_file(head))
        found = taken(data)
        counts[kind, found is not None] += 1
        if kind == "valid" and found is None:
            raise SystemExit(f"token_files.py: a valid file is refused: {data.hex()}")
        if words.cqd and kind != "appended":
            status, out = asked(words.cqd, head, data)
            # the query's bytes may complete a cut file, and the front of a doubled one may be a file: the length decides
            front = data + b'{"op"'
            size = 16 + int.from_bytes(front[8:16], "big")
            whole = (data + b'{"op":"files","project":"%s"}\n' % head["project"].encode())[:size]
            first = taken(whole)
            expected = 0 if first is not None and is_of(head, first) else 8
            if status != expected or (status == 8 and out):
                raise SystemExit(f"token_files.py: status {status} instead of {expected} for: {data.hex()}")
    for kind in KINDS:
        print(f"{kind:14} {counts[kind, True] + counts[kind, False]:7} files, {counts[kind, True]:7} taken")


if __name__ == "__main__":
    main()
