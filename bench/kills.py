#!/usr/bin/env python3
"""Kills `cqd serve` under load, again and again, and looks for each change that a client was told of.

usage: bench/kills.py [--kills N] [--anew N] [--clients N] [--workers N] [--seconds S] [--seed N]

A server takes its log, and continues it: `cqd serve ADDRESS <kept.log >>kept.log`. Half of the servers write through a pipe that holds 4,096
bytes and is read slowly, so that a kill often falls between two writes of a line. Each client uploads and drops files, sets gates, and asks
for files, in a project of its own and in one that all share. After a random time of at most --seconds the server is killed by SIGKILL. Half
of the time the end of the log is then cut off at a random byte after the last line that a client was told of or shown, or a line is begun
there, as a crash of the machine may leave it. Then the next server takes the same log. After --anew kills the log begins again.

After each kill, what the log holds is computed by the rules of bench/log.py. Each change that was reported, by any server of this log, must be
there as it was sent, under its number; each reply to a query must be what the changes up to its version give, and these must be there too.
The next server must report as many changes as the log holds, and for each project just the files of these. Printed are how many changes were
reported, and how many logs ended in the middle of a line: by a kill, and after ends were cut off. It exits with 1 if anything differs.

The program is ./cqd, or what the variable CQD names.
"""
import argparse
import collections
import fcntl
import functools
import json
import os
import random
import signal
import socket
import subprocess
import sys
import tempfile
import threading
import time
from pathlib import Path

ROOT = Path(__file__).resolve().parent.parent
PROGRAM = str(Path(os.environ.get("CQD", ROOT / "cqd")).resolve())
SHARED = "shared"
GATE = [{"metric": "files", "op": "GT", "error": 5}]


def stop(why):
    sys.exit(f"kills.py: {why}")


def free_address():
    with socket.socket() as one:
        one.bind(("127.0.0.1", 0))
        return one.getsockname()


@functools.cache
def parsed(line):
    """What a line says, without its text; None if it is no JSON object."""
    try:
        said = json.loads(line)
    except ValueError:
        return None
    return {name: said.get(name) for name in ("op", "project", "path")} if isinstance(said, dict) else None


def held(log):
    """The lines of the changes that a log holds, and whether its last line was cut off."""
    lines, torn = log.split(b"\n"), False
    rest = lines.pop()
    changes = []
    for line in lines + ([rest] if rest else []):
        if torn:
            if line:
                stop(f"a line that was cut off is followed by one that is not empty: {line[:200]!r}")
            torn = False
            continue
        torn = parsed(line) is None
        if not torn:
            changes.append(line)
    return changes, torn


def files(changes, project):
    """Which change uploaded the file at each path."""
    found = {}
    for number, line in enumerate(changes, 1):
        said = parsed(line)
        if said["project"] == project and said["op"] == "put":
            found[said["path"]] = number
        elif said["project"] == project and said["op"] == "drop":
            found.pop(said["path"], None)
    return found


class Pipe(threading.Thread):
    """Appends to a log what comes through a pipe, up to its end."""

    def __init__(self, log):
        super().__init__(daemon=True)
        self.log = log
        self.out, self.written = os.pipe()
        fcntl.fcntl(self.written, fcntl.F_SETPIPE_SZ, 4096)

    def run(self):
        with open(self.out, "rb", buffering=0) as out, open(self.log, "ab", buffering=0) as log:
            while piece := out.read(500):
                log.write(piece)
                time.sleep(0.0003)


class Server:
    def __init__(self, kept, workers, is_piped):
        self.address = free_address()
        words = [PROGRAM, "serve", "%s:%d" % self.address, "--workers", str(workers), "--sessions", "8", "--chunk", "5"]
        self.pipe = Pipe(kept) if is_piped else None
        with open(kept, "rb") as read, open(self.pipe.written, "wb") if self.pipe else open(kept, "ab") as written:
            self.process = subprocess.Popen(words, stdin=read, stdout=written)
        if self.pipe:
            self.pipe.start()

    def connect(self, seconds=60.0):
        until = time.monotonic() + seconds
        while True:
            try:
                one = socket.create_connection(self.address, seconds)
                one.setsockopt(socket.IPPROTO_TCP, socket.TCP_NODELAY, 1)
                return one
            except OSError:
                if self.process.poll() is not None:
                    stop(f"the server exited with {self.process.returncode}")
                if time.monotonic() > until:
                    stop("nobody listens")
                time.sleep(0.005)

    def kill(self):
        self.process.send_signal(signal.SIGKILL)
        self.process.wait()
        if self.pipe:
            self.pipe.join()


class Client(threading.Thread):
    """Sends one line at a time, and notes the replies, until the connection breaks."""

    def __init__(self, server, name, seed):
        super().__init__()
        self.server, self.project, self.rng = server, name, random.Random(seed)
        self.told, self.shown, self.sent = {}, [], 0

    def request(self):
        rng = self.rng
        project = rng.choice([self.project, SHARED])
        path = f"d{rng.randrange(2)}/f{rng.randrange(5)}"
        kind = rng.choices(["put", "drop", "gate", "files"], [8, 2, 1, 2])[0]
        if kind == "put":
            size = rng.choice([3, 30, 300, 3000])
            text = " ".join(rng.choice(["if", "for", "x", "y1", "(", ")", ";"]) for _ in range(rng.randrange(size)))
            return {"op": "put", "project": project, "path": path, "lang": rng.choice(["any", "c", "go", "java"]), "text": text}
        if kind == "drop":
            return {"op": "drop", "project": project, "path": path}
        if kind == "gate":
            return {"op": "gate", "project": project, "conditions": GATE[: rng.randrange(2)]}
        return {"op": "files", "project": project}

    def run(self):
        try:
            with self.server.connect() as one, one.makefile("rb") as replies:
                while True:
                    said = self.request()
                    line = json.dumps(said, separators=self.rng.choice([(",", ":"), (", ", ": ")])).encode()
                    one.sendall(line + b"\n")
                    self.sent += 1
                    reply = replies.readline()
                    if not reply.endswith(b"\n"):
                        return
                    reply = json.loads(reply)
                    if "change" in reply and reply["ok"]:
                        self.told[reply["change"]] = line
                    elif "files" in reply:
                        self.shown.append((said["project"], reply["version"], {it["path"]: it["change"] for it in reply["files"]}))
                    elif reply.get("error") not in ("absent", "full-changes", "full-text"):
                        stop(f"{said} was answered {reply}")
        except OSError:
            pass
        except SystemExit as why:
            print(why, flush=True)
            os._exit(1)


def asked(server, request):
    with server.connect() as one, one.makefile("rb") as replies:
        one.sendall(json.dumps(request).encode() + b"\n")
        return json.loads(replies.readline())


def run_on(kept, options, rng, told, shown, names):
    """One server, from its start to its kill. What was told before must be what it begins with."""
    before, _torn = held(kept.read_bytes())
    server = Server(kept, options.workers, rng.random() < 0.5)
    state = asked(server, {"op": "state"})
    if state["accepted"] != len(before):
        stop(f"the log holds {len(before)} changes, and the server reports {state}")
    for name in names:
        reply = asked(server, {"op": "files", "project": name})
        if {it["path"]: it["change"] for it in reply["files"]} != files(before, name):
            stop(f"the files of {name} are {reply}, and the log has {files(before, name)}")
    clients = [Client(server, name, rng.random()) for name in names[1:]]
    for it in clients:
        it.start()
    time.sleep(rng.random() * options.seconds)
    server.kill()
    for it in clients:
        it.join()
        for number, line in it.told.items():
            if number in told:
                stop(f"two changes were reported as number {number}")
            told[number] = line
        shown += it.shown
    return sum(it.sent for it in clients)


def checked(log, told, shown):
    changes, torn = held(log)
    for number, line in told.items():
        if number > len(changes) or changes[number - 1] != line:
            stop(f"change {number} was reported, and is not in the log: {line[:200]!r}")
    for project, version, found in shown:
        if version > len(changes) or files(changes[:version], project) != found:
            stop(f"version {version} of {project} was shown, and is not what the log has: {found}")
    return torn


def cut_off(kept, told, shown, rng):
    """Leaves the log as a crash does in the middle of a write: its end is cut off after the last line that a client was told of or shown, or a
    line is begun, if there is none after that."""
    log, at = kept.read_bytes(), 0
    last, number = max([0, *told, *(version for _project, version, _found in shown)]), 0
    while number < last:
        end = log.index(b"\n", at) + 1
        number += parsed(log[at : end - 1]) is not None
        at = end
    if at == len(log):
        log += json.dumps({"op": "put", "project": SHARED, "path": "cut", "lang": "any", "text": "x " * rng.randrange(100)}).encode()
    kept.write_bytes(log[: rng.randrange(at, len(log))])


def main():
    words = argparse.ArgumentParser(usage=__doc__)
    for name, kind, default in [("kills", int, 100), ("anew", int, 20), ("clients", int, 4), ("workers", int, 2), ("seconds", float, 0.5), ("seed", int, 1)]:
        words.add_argument(f"--{name}", type=kind, default=default)
    options = words.parse_args()
    rng = random.Random(options.seed)
    names = [SHARED] + [f"p{number}" for number in range(options.clients)]
    counts = collections.Counter()
    with tempfile.TemporaryDirectory() as room:
        kept = Path(room) / "kept.log"
        for kill in range(options.kills):
            if kill % options.anew == 0:
                kept.write_bytes(b"")
                parsed.cache_clear()
                told, shown = {}, []
            was = len(told)
            counts["sent"] += run_on(kept, options, rng, told, shown, names)
            counts["torn by kills"] += checked(kept.read_bytes(), told, shown)
            if rng.random() < 0.5:
                cut_off(kept, told, shown, rng)
                counts["torn"] += checked(kept.read_bytes(), told, shown)
            counts["told"] += len(told) - was
            if (kill + 1) % options.anew == 0:
                counts["shown"] += len(shown)
                print(f"{kill + 1} kills: {dict(counts)}, a log of {kept.stat().st_size} bytes", flush=True)
    print(f"{options.kills} kills: of {counts['sent']} requests, {counts['told']} changes were reported, and all were found; {counts['torn by kills']} kills left a log in the middle of a line, and {counts['torn']} cuts did")


main()
