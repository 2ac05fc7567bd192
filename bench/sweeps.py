#!/usr/bin/env python3
"""Uploads files again and again to ./cqd, each time followed by a query, and prints what that costs.

usage: bench/sweeps.py [--rounds N]

- One file of a project is uploaded 1,000 times, each time followed by a query for its groups by path, in a project of 500 files and in
  one of 3,000. The same is done with the file that was uploaded longest ago. Printed are the CPU time of such a pair around the 10th
  and around the 1,000th (the mean of eleven) and of each half (the mean of 500), the least of N rounds (3), and by how much the peak
  of memory grew after the 10th.
- 20,000 uploads go round over 200 paths, with a query after each tenth. Printed is the peak of memory after 2,000, 8,000, 14,000 and
  20,000 of them.

All of it is run once more with windows that are longer than the files, so that nothing is ever in the index and no analysis has keys.
The difference for each upload is what the index and the keys keep. The program is ./cqd, or what the variable CQD names.
"""
import argparse
import json
import os
import subprocess
from pathlib import Path

ROOT = Path(__file__).resolve().parent.parent
PROGRAM = os.environ.get("CQD", ROOT / "cqd")
TOKENS = 200
INDEXED, UNINDEXED = 20, 1_000
PAIRS = 1_000
PATHS = 200


class Server:
    def __init__(self, chunk):
        words = [PROGRAM, "run", "--text-limit", "67108864", "--chunk", str(chunk)]
        self.process = subprocess.Popen(words, stdin=subprocess.PIPE, stdout=subprocess.PIPE)

    def ask(self, request):
        self.process.stdin.write(json.dumps(request).encode() + b"\n")
        self.process.stdin.flush()
        reply = self.process.stdout.readline()
        assert b'"ok":true' in reply, reply

    def processor(self):
        return int(Path(f"/proc/{self.process.pid}/schedstat").read_text().split()[0]) / 1e9

    def peak(self):
        """The peak of memory so far."""
        for line in Path(f"/proc/{self.process.pid}/status").read_text().splitlines():
            if line.startswith("VmHWM:"):
                return int(line.split()[1]) / 1024
        raise SystemExit("sweeps.py: /proc shows no peak of memory")

    def end(self):
        self.process.stdin.close()
        assert self.process.wait() == 0


def upload(number, edition):
    # files whose numbers differ by 300 end with the same tokens
    words = [f"w{number}x{edition}x{token}" for token in range(TOKENS - 60)] + [f"s{number % 300}x{token}" for token in range(60)]
    return {"op": "put", "project": "p", "path": f"f{number:05}", "lang": "any", "text": " ".join(words)}


def groups(number, chunk):
    return {"op": "groups", "project": "p", "path": f"f{number:05}", "min": max(40, chunk)}


def replaced(chunk, files, is_oldest):
    """The seconds of each pair, and the peaks after the 10th and after the last."""
    server = Server(chunk)
    for number in range(files):
        server.ask(upload(number, 0))
    server.ask(groups(0, chunk))
    seconds, early = [], 0
    for index in range(PAIRS):
        number = index % files if is_oldest else files // 2
        before = server.processor()
        server.ask(upload(number, 1 + index))
        server.ask(groups(number, chunk))
        seconds.append(server.processor() - before)
        if index == 9:
            early = server.peak()
    late = server.peak()
    server.end()
    return seconds, early, late


def mean(seconds):
    return sum(seconds) / len(seconds) * 1000


def print_replaced(rounds, files, is_oldest):
    runs = [replaced(INDEXED, files, is_oldest) for _ in range(rounds)]
    tenth, last, first_half, second_half = (
        min(mean(run[0][some]) for run in runs) for some in (slice(4, 15), slice(-11, None), slice(500), slice(500, None)))
    _, early, late = runs[0]
    _, bare_early, bare_late = replaced(UNINDEXED, files, is_oldest)
    which = "the oldest of" if is_oldest else "one of"
    print(f"{which} {files} files uploaded again: the 10th {tenth:.2f} ms, the 1,000th {last:.2f} ms, of the first 500 {first_half:.2f} ms, "
          f"of the others {second_half:.2f} ms; peak {early:.1f} MiB after the 10th, {late - early:.1f} more after the last, "
          f"{bare_late - bare_early:.1f} with nothing in the index", flush=True)


def peaks(chunk):
    server, told = Server(chunk), []
    for index in range(20_000):
        server.ask(upload(index % PATHS, index))
        if index % 10 == 9:
            server.ask(groups(index % PATHS, chunk))
        if index + 1 in (2_000, 8_000, 14_000, 20_000):
            told.append(server.peak())
    server.end()
    return told


def main():
    parser = argparse.ArgumentParser(description=__doc__, formatter_class=argparse.RawDescriptionHelpFormatter)
    parser.add_argument("--rounds", type=int, default=3)
    rounds = parser.parse_args().rounds
    for is_oldest in (False, True):
        for files in (500, 3_000):
            print_replaced(rounds, files, is_oldest)
    indexed, bare = peaks(INDEXED), peaks(UNINDEXED)
    print("20,000 uploads over 200 paths, peak after 2,000, 8,000, 14,000 and 20,000:")
    for name, told in (("windows of 20", indexed), ("nothing indexed", bare)):
        print(f"  {name}: " + ", ".join(f"{peak:.1f}" for peak in told) + " MiB")
    kept = [(b - a - (d - c)) * 2**20 / 6_000 for a, b, c, d in zip(indexed, indexed[1:], bare, bare[1:])]
    print("  an upload keeps for windows: " + ", ".join(f"{each:,.0f}" for each in kept) + f" bytes, of which its {TOKENS - 19} keys have "
          f"{8 * (TOKENS - 19):,}")


if __name__ == "__main__":
    main()
