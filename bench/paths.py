#!/usr/bin/env python3
"""Uploads a file again and lists its groups by path, in a project of 500 files, in one of 3,000 and in one of 20,000, and in one of 500
beside 1,000 other projects of three files each. It prints the CPU time of such a pair: the mean of 200 pairs in a row, once all files
are listed, and the least of five such means; and how the times compare with the first.

usage: bench/paths.py [--instructions]

With --instructions it prints how many instructions a pair takes instead, counted by callgrind of valgrind, so that neither the machine's speed
nor its load matters; and only for 500 and 3,000 files. The program is ./cqd, or what the variable CQD names.
"""
import argparse
import json
import os
import re
import subprocess
from pathlib import Path

parser = argparse.ArgumentParser(description=__doc__, formatter_class=argparse.RawDescriptionHelpFormatter, usage=argparse.SUPPRESS)
parser.add_argument("--instructions", action="store_true", help=argparse.SUPPRESS)
options = parser.parse_args()

ROOT = Path(__file__).resolve().parent.parent
PROGRAM = os.environ.get("CQD", ROOT / "cqd")
PAIRS = 200
ROUNDS = 5
OPTIONS = ["--text-limit", "67108864"]


def upload(number, edition, files, project="p"):
    # each shared run is in ten files, however many there are
    shared = number % (files // 10)
    words = [f"{project}{number}x{edition}x{token}" for token in range(150)] + [f"{project}shared{shared}x{token}" for token in range(60)]
    return {"op": "put", "project": project, "path": f"f{number:05}", "lang": "any", "text": " ".join(words)}


def pair(index, files):
    number = index * 7 % files
    return [upload(number, 1 + index, files), {"op": "groups", "project": "p", "path": f"f{number:05}", "min": 40}]


def ask(server, requests):
    for request in requests:
        server.stdin.write(json.dumps(request).encode() + b"\n")
        server.stdin.flush()
        reply = server.stdout.readline()
        assert b'"ok":true' in reply, reply


def processor(server):
    return int(Path(f"/proc/{server.pid}/schedstat").read_text().split()[0]) / 1e9


def uploads(files, others=0):
    """What comes before the pairs."""
    yield from (upload(number, 0, files) for number in range(files))
    yield from (upload(number, 0, 30, f"other{project}") for project in range(others) for number in range(3))
    yield {"op": "groups", "project": "p", "path": "f00000", "min": 40}


def counted(requests):
    data = "".join(json.dumps(request) + "\n" for request in requests).encode()
    program = PROGRAM if "CQD" in os.environ else ROOT / "out" / "cqd"  # ./cqd is a script that runs it
    words = ["valgrind", "--tool=callgrind", "--callgrind-out-file=/dev/null", program, "run", *OPTIONS]
    ran = subprocess.run(words, input=data, capture_output=True, check=True)
    return int(re.search(rb"Collected : (\d+)", ran.stderr)[1])


def pair_instructions(files):
    before = list(uploads(files))
    pairs = [request for index in range(PAIRS) for request in pair(index, files)]
    return (counted(before + pairs) - counted(before)) / PAIRS


def pair_cost(files, others):
    """The least mean of some pairs in a row, in seconds."""
    means = []
    with subprocess.Popen([PROGRAM, "run", *OPTIONS], stdin=subprocess.PIPE, stdout=subprocess.PIPE) as server:
        ask(server, uploads(files, others))
        for start in range(0, ROUNDS * PAIRS, PAIRS):
            before = processor(server)
            for index in range(start, start + PAIRS):
                ask(server, pair(index, files))
            means.append((processor(server) - before) / PAIRS)
        server.stdin.close()
    return min(means)


if options.instructions:
    few, many = (pair_instructions(files) / 1e6 for files in (500, 3_000))
    print(f"an upload and its groups by path: {few:.2f} million instructions of 500 files, {many:.2f} of 3,000, {many / few:.2f} times")
else:
    first = None
    for files, others in ((500, 0), (3_000, 0), (20_000, 0), (500, 1_000)):
        cost = pair_cost(files, others) * 1000
        first = first or cost
        beside = f" beside {others:,} other projects" if others else ""
        print(f"an upload and its groups by path, of {files:,} files{beside}: {cost:.2f} ms, {cost / first:.2f} times", flush=True)
