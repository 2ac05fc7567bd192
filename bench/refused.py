#!/usr/bin/env python3
"""Runs each command once for each of its allocations, with that one refused, and checks how it exits and what it wrote.

usage: bench/refused.py [--only NAME] [--every N] [--short] [--and-after]

In each run one allocation is refused, by its number from 1 on, until the number is past the last; with --and-after, all from that one on
are. --short refuses every 25th, which takes a few minutes.

A run exits with 4 and has written nothing, or with 0. `export` and `shorten` have then written the same bytes as with enough memory. The
other commands have gone on: each of their lines is answered as with enough memory, or refused as out of memory, and a run with enough memory and without
the refused lines gives all the other replies. So a refused line changed nothing. A refused query may have finished analyses and published a
version, which `state` shows: of `state` only `accepted` is compared, and that neither of the other numbers is lower. `listen` may exit
with 5, without letting anyone in, if the memory of its sockets was refused.

Allocations are refused by a few lines of C, which cc builds and the loader puts before the C library's malloc and realloc. For each command
it prints how many allocations there are, how many of them were refused, and how these runs ended. It exits with 1 if a run broke these
rules.

The program is ./cqd, or what the variable CQD names.
"""
from __future__ import annotations

import argparse
import collections
import concurrent.futures
import itertools
import json
import os
import socket
import subprocess
import sys
import tempfile
import time
from pathlib import Path
from typing import NamedTuple

ROOT = Path(__file__).resolve().parent.parent
PROGRAM = str(Path(os.environ.get("CQD", ROOT / "cqd")).resolve())
SECONDS = 60
MEMORY = {"code": 14, "error": "memory", "ok": False}

REFUSING = r"""
#define _GNU_SOURCE
#include <dlfcn.h>
#include <errno.h>
#include <stdio.h>
#include <stdlib.h>
#include <sys/syscall.h>
#include <unistd.h>
static unsigned long first, last, seen;
static void *(*of_malloc)(size_t), *(*of_realloc)(void *, size_t);
static unsigned long number(const char *name) { const char *text = getenv(name); return text ? strtoul(text, 0, 10) : 0; }
__attribute__((constructor)) static void begin(void) {
    of_malloc = dlsym(RTLD_NEXT, "malloc"), of_realloc = dlsym(RTLD_NEXT, "realloc");
    first = number("REFUSE_FIRST"), last = number("REFUSE_LAST"), seen = 0;
}
static int is_refused(void) {
    unsigned long now = __atomic_add_fetch(&seen, 1, __ATOMIC_SEQ_CST);
    if (now < first || now > last) return 0;
    errno = ENOMEM;
    return 1;
}
void *malloc(size_t size) {
    if (!of_malloc) of_malloc = dlsym(RTLD_NEXT, "malloc");
    return is_refused() ? 0 : of_malloc(size);
}
void *realloc(void *old, size_t size) {
    if (!of_realloc) of_realloc = dlsym(RTLD_NEXT, "realloc");
    return is_refused() ? 0 : of_realloc(old, size);
}
__attribute__((destructor)) static void end(void) {
    const char *name = getenv("REFUSE_COUNT");
    unsigned long told = seen;
    first = ~0UL;
    FILE *file = name ? fopen(name, "w") : 0;
    if (file) { fprintf(file, "%lu", told); fclose(file); }
}
void _exit(int status) {
    end();
    for (;;) syscall(SYS_exit_group, status);
}
"""


class Ended(NamedTuple):
    status: int
    lines: list[dict]
    allocations: int
    file: bytes = b""  # what `export` or `shorten` wrote, which is no replies


class Broken(Exception):
    """A run broke the rules."""


def line(**members):
    return json.dumps(members).encode() + b"\n"


def put(path, text, lang="any", project="p"):
    return line(op="put", project=project, path=path, lang=lang, text=text)


JAVA = "class A { int f(int a) { if (a > 1 && a < 9) { return a; } return f(a - 1); } }\n"
SCRIPT = "const f = (a) => { return a ? `b${a}c` : /d/ };\n"
TYPED = "let f = (a: B<C<D>>): void => { if (a!) {} };\n"
LINES = [
    put("t", "a b c x a b c y"), line(op="groups", project="p", min=3), line(op="state"),
    put("A.java", JAVA, "java"), put("B.java", JAVA * 2, "java"), put("u", "a b c x a b c z"), line(op="files", project="p"),
    line(op="gate", project="p", conditions=[{"metric": "duplicated_lines_density", "op": "GT", "error": 300}]),
    b'{"op":\n', line(op="groups", project="p", min=3, path="u"), line(op="measures", project="p", min=3),
    line(op="verdict", project="p", min=3), line(op="drop", project="p", path="u"), line(op="drop", project="p", path="none"),
    line(op="state"), line(op="groups", project="p", min=3, finish=False), line(op="groups", project="p", min=3),
    put("c", "int main(void) { return 0; }", "c"), put("g", "package main\nfunc f() { for {} }\n", "go"),
    put("j", SCRIPT, "js"), put("k", TYPED, "ts"), put("t", "q r s q r s"),
    line(op="measures", project="p", min=2, path="t"), line(op="groups", project="p", min=2), line(op="state"),
]
# What `export` and `shorten` read: each line is a change that is accepted.
CHANGES = [
    put("t", "a b c x a b c y"), put("A.java", JAVA, "java"), put("c", "int main(void) { return 0; }", "c"),
    put("g", "package main\nfunc f() { for {} }\n", "go"), put("other", "a b", project="q"), put("u", "a b c x"),
    line(op="gate", project="p", conditions=[{"metric": "duplicated_lines_density", "op": "GT", "error": 300}]),
    line(op="drop", project="p", path="u"), put("j", SCRIPT, "js"), put("k", TYPED, "ts"), put("t", "q r s q r s"),
]
# Version 2 of `p` with a gate: `t` with the one token `a`, and `u` with none.
FILE = bytes.fromhex(
    "4351544f4b303031000000000000009900000000000000020000000200000000000170000000010700000000000000012c0000000200"
    "000001740000000000000002000000000000000000010000000000000001000000000000000100000001000000000000000001000000"
    "010000000100000001610000000000000001750000000000000001000000000000000000010000000000000001000000000000000100"
    "00000000000000"
)
ASKED = [
    line(op="files", project="p"), line(op="groups", project="p", min=2), line(op="measures", project="p", min=2),
    line(op="verdict", project="p", min=2), line(op="groups", project="p", min=2, path="t"), line(op="files", project="q"),
    line(op="files", project="p", at=3), line(op="state"), b'{"op":\n',
]
# These commands write only once they need no more memory.
WRITES_WHOLE = ("export", "shorten")
STEPS = (ROOT / "examples" / "versions.jsonl").read_bytes().splitlines(keepends=True)


def accept(text):
    request = {"op": "put", "project": "p", "path": "t", "lang": "any", "text": text}
    return line(step="accept", by=0, request=request)


# The first version is read while the second one is done, and applied to one of two shards.
VERSIONS = [
    accept("a b c"), line(step="done", by=0, change=1), line(step="apply", shard=0), line(step="apply", shard=1),
    line(step="publish", version=1), accept("d e"), line(step="done", by=0, change=2), line(step="apply", shard=0),
    line(step="open", by=1), line(step="read", by=1, shard=0, key=0), line(step="read", by=1, shard=1, key=0),
    line(step="publish", version=2),
]


class Refusing:
    """Runs of the program in which some allocations are refused."""

    def __init__(self, folder):
        self.folder, self.numbers = folder, itertools.count()
        source = folder / "refusing.c"
        source.write_text(REFUSING)
        self.library = str(folder / "refusing.so")
        subprocess.run(["cc", "-O2", "-shared", "-fPIC", "-o", self.library, str(source), "-ldl"], check=True)

    def start(self, words, first, last):
        count = self.folder / f"count{next(self.numbers)}"
        told = {"LD_PRELOAD": self.library, "REFUSE_FIRST": str(first), "REFUSE_LAST": str(last), "REFUSE_COUNT": str(count)}
        pipe = subprocess.PIPE
        return subprocess.Popen([PROGRAM, *words], stdin=pipe, stdout=pipe, stderr=pipe, env={**os.environ, **told}), count

    def run(self, words, given, first=0, last=0):
        process, count = self.start(words, first, last)
        out, _ = process.communicate(b"".join(given), timeout=SECONDS)
        if words[0] in WRITES_WHOLE:
            return ended(process, b"", count)._replace(file=out)
        return ended(process, out, count)

    def listen(self, words, given, first=0, last=0):
        """One client's session over a socket. If its port was taken before anything was refused, another one is tried."""
        while True:
            told = self.listen_once(words, given, first, last)
            if told.status != 5 or told.allocations >= first > 0:
                return told

    def listen_once(self, words, given, first, last):
        """The same at a loopback address of its own; if nobody is let in, its output is empty."""
        number = next(self.numbers)
        with socket.socket() as one:
            one.bind((f"127.1.{number // 250 % 250}.{number % 250 + 1}", 0))
            address = one.getsockname()
        process, count = self.start([words[0], f"{address[0]}:{address[1]}", *words[1:]], first, last)
        out = talk(address, process, b"".join(given))
        process.communicate(timeout=SECONDS)
        return ended(process, out, count)


def ended(process, out, count):
    if out and not out.endswith(b"\n"):
        raise Broken(f"the last reply is cut: {out[-80:]!r}")
    seen = int(count.read_text()) if count.exists() else 0
    count.unlink(missing_ok=True)
    return Ended(process.returncode, [json.loads(it) for it in out.splitlines()], seen)


def talk(address, process, given):
    connection = None
    while connection is None and process.poll() is None:
        try:
            connection = socket.create_connection(address)
        except ConnectionError:  # nobody listens yet, or no longer
            time.sleep(0.002)
    if connection is None:
        return b""
    with connection:
        try:
            connection.sendall(given)
            connection.shutdown(socket.SHUT_WR)
            return connection.makefile("rb").read()
        except OSError:
            return b""


class Case(NamedTuple):
    words: list[str]
    given: list[bytes]
    over_sockets: bool = False
    has_workers: bool = False
    front: bytes = b""  # what the input has before the lines


FIRST, SETTINGS = ["--chunk", "2", "--shards", "1"], ["--chunk", "2", "--shards", "3"]
CASES = {
    "upload and list": Case(["run", *FIRST], LINES[:2]),
    "upload and list with workers": Case(["run", *FIRST, "--workers", "2"], LINES[:2], has_workers=True),
    "two versions": Case(["drive", "--chunk", "2", "--shards", "2", "--key-bits", "0"], VERSIONS),
    "run": Case(["run", *SETTINGS], LINES),
    "run with workers": Case(["run", *SETTINGS, "--workers", "2"], LINES, has_workers=True),
    "drive": Case(["drive", "--chunk", "2", "--shards", "1", "--key-bits", "0"], STEPS),
    "make": Case(["make", "7", "3"], []),
    "ask": Case(["ask", "--chunk", "2"], ASKED, front=FILE),
    "export": Case(["export", "p", "--chunk", "2"], CHANGES),
    "shorten": Case(["shorten", "--chunk", "2"], CHANGES),
    "listen": Case(["listen", *SETTINGS, "--workers", "0", "--sessions", "1", "--connections", "1"], LINES, over_sockets=True),
    "listen with workers": Case(["listen", *SETTINGS, "--workers", "2", "--sessions", "2", "--connections", "1"], LINES,
                                over_sockets=True, has_workers=True),
}


def is_same(request, wanted, told, case):
    """Whether the reply is the one that is wanted, apart from what analyses that finish meanwhile change."""
    if b'"state"' in request and "accepted" in wanted and "accepted" in told:
        return told["accepted"] == wanted["accepted"] and told["published"] <= told["done"] <= told["accepted"]
    if b'"finish": false' in request:
        return told == wanted or told.get("code") == 12 or told.get("ok") is True
    return told == wanted


def check(run, case, wanted, told):
    """Compares a run with a refused allocation with the one with enough memory."""
    if told.status in (4, 5) and not told.lines and not told.file:
        if told.status == 5 and not case.over_sockets:
            raise Broken("it exited with 5")
        return f"exited with {told.status}"
    if told.status != 0:
        raise Broken(f"it exited with {told.status} after {len(told.lines)} lines and {len(told.file)} bytes of a file")
    if told.file != wanted.file:
        raise Broken(f"it wrote a file of {len(told.file)} bytes, and not that of {len(wanted.file)}")
    if case.words[0] in WRITES_WHOLE:
        return "the whole file"
    if len(told.lines) != len(wanted.lines):
        raise Broken(f"it wrote {len(told.lines)} lines, and not {len(wanted.lines)}")
    refused = [at for at, it in enumerate(told.lines) if it == MEMORY]
    kept = [at for at in range(len(told.lines)) if at not in refused]
    given = [case.given[at] for at in kept] if case.given else []
    again = run(case.words, given) if refused else wanted
    for request, other, at in zip(given, again.lines, kept):
        if not is_same(request, other, told.lines[at], case):
            raise Broken(f"line {at + 1} was answered {told.lines[at]}, and without the refused lines {other}")
    if not case.given and told.lines != wanted.lines:
        raise Broken(f"it wrote {told.lines}")
    return f"{len(refused)} lines refused" if len(refused) != 1 else "1 line refused"


def try_each(refusing, case, every, is_open):
    over = refusing.listen if case.over_sockets else refusing.run

    def run(words, lines, first=0, last=0):
        return over(words, [case.front, *lines], first, last)

    wanted = run(case.words, case.given)
    count = 0 if wanted.file else max(len(case.given), 1)
    if wanted.status != 0 or MEMORY in wanted.lines or len(wanted.lines) != count:
        raise Broken(f"with enough memory it exited with {wanted.status} and {len(wanted.lines)} lines")

    def one(number):
        try:
            told = run(case.words, case.given, number, 2**63 if is_open else number)
            return number, told.allocations >= number, check(run, case, wanted, told), ""
        except (Broken, ValueError, subprocess.TimeoutExpired) as fault:
            return number, True, "broken", str(fault)

    counted, faults = collections.Counter(), []
    with concurrent.futures.ThreadPoolExecutor(os.cpu_count()) as pool:
        for start in itertools.count(1, every * 256):
            told = list(pool.map(one, range(start, start + every * 256, every)))
            for number, is_refused, how, fault in told:
                if is_refused:
                    counted[how] += 1
                if fault:
                    faults.append(f"allocation {number}: {fault}")
            if not all(it[1] for it in told):
                return wanted.allocations, counted, faults


def main():
    parser = argparse.ArgumentParser(description=__doc__, formatter_class=argparse.RawDescriptionHelpFormatter)
    parser.add_argument("--only", choices=list(CASES))
    parser.add_argument("--every", type=int, default=1, help="refuse only every so many allocations")
    parser.add_argument("--short", action="store_const", dest="every", const=25, help="as --every 25")
    parser.add_argument("--and-after", action="store_true", help="refuse all allocations from that one on")
    given = parser.parse_args()
    is_broken, total = False, 0
    with tempfile.TemporaryDirectory() as folder:
        refusing = Refusing(Path(folder))
        for name in [given.only] if given.only else CASES:
            allocations, counted, faults = try_each(refusing, CASES[name], given.every, given.and_after)
            told = ", ".join(f"{how}: {count}" for how, count in sorted(counted.items()))
            print(f"{name}: {allocations} allocations; {sum(counted.values())} runs with one refused: {told}", flush=True)
            for fault in faults[:5]:
                print(f"  {fault}")
            is_broken, total = is_broken or bool(faults), total + sum(counted.values())
    print(f"{total} runs with one refused in all")
    return 1 if is_broken else 0


if __name__ == "__main__":
    sys.exit(main())
