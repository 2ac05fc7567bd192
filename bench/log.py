#!/usr/bin/env python3
"""A model of a server's log, with crashes after any byte: what docs/SERVE.md says of logs, tried.

usage: bench/log.py [SEED [ROUNDS]]

Servers take the log, mend it and append lines, each until a byte at random. After every byte written, a reader of the whole log
must find the changes that were told, under their numbers, and a follower that read the log byte by byte must agree with it.
With --cancel the rule is another one (a last line without its line feed is no change, and an empty line cancels the line before it):
the first log is printed in which a change gets another number. With --spoil it is the one that could be kept instead (a last line
without its line feed is no change; the server first writes a byte that no JSON object ends with, and then a line feed).
"""
import json, random, sys


def change(line):
    """The change that a line says; None if it is no JSON object. (Every object of this model is a change.)"""
    try:
        value = json.loads(line)
    except ValueError:
        return None
    return line.strip() if isinstance(value, dict) else None


def pieces(log):
    closed, rest = log.split(b"\n")[:-1], log.split(b"\n")[-1]
    return closed, rest


def held(log):
    """The changes, and whether the last line was torn; None for a log that is refused."""
    closed, rest = pieces(log)
    changes, torn = [], False
    for line in closed + ([rest] if rest else []):
        if torn:
            if line:
                return None
            torn = False
        elif (said := change(line)) is not None:
            changes.append(said)
        else:
            torn = True
    return changes, torn


def mending(log):
    return (b"\n" if pieces(log)[1] else b"") + (b"\n" if held(log)[1] else b"")


def held_cancelling(log):
    closed, _rest = pieces(log)
    changes = []
    for i, line in enumerate(closed):
        if line and not (i + 1 < len(closed) and closed[i + 1] == b""):
            if change(line) is None:
                return None
            changes.append(change(line))
    return changes, False


def mending_cancelling(log):
    return b"\n\n" if pieces(log)[1] else b""


def held_spoiling(log):
    changes = []
    for line in pieces(log)[0]:
        if not line.endswith(b"!"):
            if change(line) is None:
                return None
            changes.append(change(line))
    return changes, False


def mending_spoiling(log):
    return b"!\n" if pieces(log)[1] else b""


def served(rng, log, held, mending, told, seen, checked):
    """One server, which dies after a byte at random; the log as it leaves it."""
    changes, _torn = held(log)
    out = [mending(log)]
    lines = []
    for _ in range(rng.randrange(4)):
        line = json.dumps({"op": "drop", "n": rng.randrange(100), "t": "x" * rng.randrange(4)}).encode() + b" " * rng.choice([0, 0, 2])
        lines.append(line)
        out.append(line + b"\n")
    left = rng.randrange(sum(map(len, out)) + 1) if rng.random() < 0.8 else sum(map(len, out))
    number = len(changes)
    for i, piece in enumerate(out):
        for k in range(len(piece)):
            if left == 0:
                return log
            left -= 1
            log += piece[k : k + 1]
            checked(log, told, seen)
        if i > 0:
            number += 1
            told[number] = lines[i - 1].strip()
    return log


def main(words):
    numbers = [int(w) for w in words if not w.startswith("--")]
    rng = random.Random(numbers[0] if numbers else 1)
    rounds = numbers[1] if len(numbers) > 1 else 2000
    holds, mends = held, mending
    if "--cancel" in words:
        holds, mends = held_cancelling, mending_cancelling
    if "--spoil" in words:
        holds, mends = held_spoiling, mending_spoiling

    def checked(log, told, seen):
        found = holds(log)
        if found is None:
            raise SystemExit(f"refused: {log!r}")
        for number, said in told.items():
            if len(found[0]) < number or found[0][number - 1] != said:
                raise SystemExit(f"change {number} was told as {said!r}, and the log holds {found[0]!r}: {log!r}")
        for number, said in enumerate(seen, 1):
            if len(found[0]) < number or found[0][number - 1] != said:
                raise SystemExit(f"a reader had found {said!r} as change {number}, and the log holds {found[0]!r}: {log!r}")
        seen[:] = found[0]

    for _ in range(rounds):
        log, told, seen = b"", {}, []
        for _ in range(rng.randrange(1, 6)):
            log = served(rng, log, holds, mends, told, seen, checked)
    print(f"{rounds} logs: each change that was told, or found by a reader, kept its number")


main(sys.argv[1:])
