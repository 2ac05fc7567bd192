#!/usr/bin/env python3
"""Runs `cqd listen` under hostile clients for as long as asked, and checks each reply.

usage: bench/soak.py [--minutes N] [--clients N] [--workers N] [--changes N] [--pause SECONDS]

Each client, in a process of its own, uploads and drops small files, sets gates and asks every query, in a project of its own and in one
that all share. In between it sends lines of 8 MiB and of one byte more, bytes that are not UTF-8, 126 to 128 nested brackets, and requests
that are refused in each way. Its first line has 8 MiB, so that the line buffer of each session is as large as it gets before memory is
compared. Its connections end in the middle of a line, with or without replies that nobody reads, in the middle of a
line of 8 MiB, or with a last line that lacks its line feed.

Each reply is checked. What needs no other client is checked at once: a refusal fits its line, versions and numbers never fall, and replies
about the client's own project are those that bench/model.py computes from its texts. The rest is checked after all clients have ended,
against the one history of all changes that were reported (bench/histories.py): each number was given once, without a gap; each reply about
the shared project is that of its version; each drop that was accepted had its file, and each that was refused lacked it at some version in
between; and a change that was reported as not done is an upload. Lines that broke off left nothing, and the numbers of `state` add up. Then
the server must exit with 0 after the last of its connections. Its memory in the last minute may be at most a tenth above that of the minute
before a quarter of the time; memory is VmRSS, read once a second, and the median of a minute.

The server keeps at most --changes changes; if a client is refused since it is full, a query makes room. Printed are how many replies of each
kind there were, and connections, changes and memory. It exits with 1 if anything differs.

The program is ./cqd, or what the variable CQD names.
"""
import argparse
import collections
import json
import multiprocessing
import os
import random
import socket
import statistics
import subprocess
import threading
import time
from pathlib import Path

from histories import Log, by_number, check
from load import Connection, free_address, must
from model import Change, History, refusal

ROOT = Path(__file__).resolve().parent.parent
PROGRAM = str(Path(os.environ.get("CQD", ROOT / "cqd")).resolve())
LINE_LIMIT = 8_388_608
TEXT_LIMIT = 1_000_000
PART = 15.0
AT_ONCE = 4
SHARED, LEFT, HALF = "shared", "left", "half"
WORDS = [f"w{number}" for number in range(9)] + ["if", "for", "begin"]
SCOPES = ["**", "d/*", "d/f?", "**/f1", "*/f*2", "d/**/f3", "d", "none/**"]
METRICS = ["complexity", "duplicated_blocks", "duplicated_lines_density", "files", "lines", "ncloc"]
JSON, LONG = refusal(1, "json"), refusal(13, "long")
FULL_CHANGES, FULL_TEXT = refusal(10, "full-changes"), refusal(11, "full-text")


def put(project, path, lang, text):
    return {"op": "put", "project": project, "path": path, "lang": lang, "text": text}


def nested(depth, behind=b""):
    """Brackets, as a line of their own or after a field that a request doesn't have."""
    brackets = b"[" * depth + b"]" * depth
    return behind + brackets + (b"}\n" if behind else b"\n")


STATE_X = b'{"op":"state","x":'
# Lines whose replies are known whatever was accepted.
BROKEN = [
    (b"\n", JSON), (b"[1]\n", JSON), (b'{"op":"files",\n', JSON), (b'{"op":"state"}}\n', JSON),
    (b"\xff\n", JSON), (b'{"op":"state","x":"\xff"}\n', JSON), (b'{"op":"files","project":"\xc3"}\n', JSON),
    (nested(127), JSON), (nested(128), JSON), (nested(126, STATE_X), refusal(3, "field", name="x")),
    (nested(127, STATE_X), JSON), (nested(128, STATE_X), JSON), (b"[" * 100_000 + b"\n", JSON),
    (b'{"op":"fly"}\n', refusal(2, "op")), (b"{}\n", refusal(2, "op")), (b'{"op":"files"}\n', refusal(3, "field", name="project")),
    (b'{"op":"put","project":"p","path":"a","lang":"rust","text":""}\n', refusal(4, "lang")),
    (b'{"op":"put","project":"p","path":"a//b","lang":"any","text":""}\n', refusal(5, "path")),
    (b'{"op":"groups","project":"p","min":1}\n', refusal(7, "min")),
    (b'{"op":"verdict","project":"p","scope":"a//b"}\n', refusal(15, "scope")),
    (b'{"op":"measures","project":"p","path":"a","scope":"a"}\n', refusal(15, "scope")),
]
# The same for lines of 8 MiB, each with what builds it.
LARGE = {
    "at the limit": (lambda: b'{"op":"files"}'.ljust(LINE_LIMIT) + b"\n", refusal(3, "field", name="project")),
    "too long": (lambda: b'{"op":"files"}'.ljust(LINE_LIMIT + 1) + b"\n", LONG),
    "much too long": (lambda: b"\xff" * (2 * LINE_LIMIT) + b"\n", LONG),
    "no JSON": (lambda: b"[" * LINE_LIMIT + b"\n", JSON),
    "no UTF-8": (lambda: b'"' + b"\xff" * (LINE_LIMIT - 2) + b'"\n', JSON),
    "text": (lambda: json.dumps(put("p", "a", "any", " " * (LINE_LIMIT - 100))).encode() + b"\n", refusal(6, "text")),
}
KINDS = {"put": 3, "drop": 1, "gate": 1, "files": 8, "groups": 16, "path": 12, "measures": 10, "verdict": 6, "pending": 10,
         "state": 6, "future": 2, "full-text": 2, "broken": 14, "large": 0.5}
ENDS = ["cut", "cut in 8 MiB", "half", "whole", "plain"]


class ClientLog(Log):
    """A log that also counts the lines that broke off, and the requests of each kind."""

    def __init__(self):
        super().__init__()
        self.sent, self.counted = 0, collections.Counter()


class Client:
    def __init__(self, address, number, start, parts, pause):
        self.address, self.number, self.start, self.parts = address, number, start, parts
        self.pause = pause
        self.project, self.drawn, self.log, self.history = f"p{number}", random.Random(number), ClientLog(), History()

    # ---- requests, each with a check of its reply

    def since(self):
        """Mostly nothing, and else a version, one of the last ones."""
        return self.drawn.choice([{}, {}, {"since": max(0, self.log.accepted - self.drawn.randrange(40))}])

    def ask(self, kind):
        draw = self.drawn
        project = draw.choice([self.project, SHARED])
        path = f"d/f{draw.randrange(6)}"
        query = {"op": kind, "project": project}
        least = {"min": draw.randrange(2, 7)}
        if kind == "put":
            lang, text = draw.choice(["any", "any", "c", "java", "js", "ts"]), self.text()
            return put(project, path, lang, text), lambda it: self.change(it, Change(project, path, lang, text))
        if kind == "drop":
            return {**query, "path": path}, lambda it: self.change(it, Change(project, path))
        if kind == "gate":
            conditions = [{"metric": draw.choice(METRICS), "op": draw.choice(["GT", "LT"]), "error": draw.randrange(30)}
                          for _ in range(draw.randrange(4))]
            return {**query, "conditions": conditions}, lambda it: self.change(it, Change(project, None, conditions=conditions))
        if kind == "files":
            return query, lambda it: self.query(query, it)
        if kind == "groups":
            return {**query, **least}, lambda it: self.query({**query, **least}, it)
        if kind in ("measures", "verdict"):
            query = {**query, **least, **draw.choice([{}, {}, {"scope": draw.choice(SCOPES)}]), **self.since()}
            return query, lambda it: self.query(query, it)
        if kind == "path":
            op = draw.choice(["groups", "measures"])
            query = {**query, "op": op, "path": path, **least, **(self.since() if op == "measures" else {})}
            return query, lambda it: self.query(query, it)
        if kind == "pending":
            at = draw.randrange(self.log.accepted + 1)
            query = {**query, "op": draw.choice(["groups", "measures", "verdict"]), **least, "at": at, "finish": False}
            return query, lambda it: self.query(query, it)
        return self.ask_else(kind)

    def ask_else(self, kind):
        if kind == "state":
            return {"op": "state"}, self.log.state
        if kind == "future":
            query = {"op": "files", "project": SHARED, "at": 2**63}
            return query, lambda it: must(not self.log.query(query, it), query, it)
        if kind == "full-text":
            return put(SHARED, "a", "any", " " * 1_048_576), self.full_text
        line, wanted = self.drawn.choice(BROKEN)
        if kind == "large":
            make, wanted = self.drawn.choice(list(LARGE.values()))
            line = make()
        return line, lambda it: must(it == wanted, line[:99], it)

    def text(self):
        words = [self.drawn.choice(WORDS) for _ in range(self.drawn.randrange(4, 20))]
        return "".join(word + self.drawn.choice("   \n") for word in words)

    # ---- replies

    def change(self, reply, change):
        if reply == FULL_CHANGES:
            self.log.counted["told full"] += 1
        else:
            self.log.change(change, reply)
            if "change" in reply and change.project == self.project:
                self.history.add(reply["change"], change)

    def full_text(self, reply):
        must(reply in (FULL_TEXT, FULL_CHANGES), "a text that never fits", reply)

    def query(self, query, reply):
        if self.log.query(query, reply):
            if query["project"] == SHARED:
                self.log.replies.append((query, reply))
            else:
                must(reply == self.history.reply(query, reply["version"]), query, reply)

    # ---- connections

    def talk(self, connection):
        """Sends a few requests at once, and checks their replies."""
        drawn = self.drawn.choices(list(KINDS), list(KINDS.values()), k=self.drawn.randrange(AT_ONCE) + 1)
        # After an upload comes a query that does not wait for its analysis.
        kinds = [kind for it in drawn for kind in ([it, "pending"] if it == "put" else [it])]
        asked = [self.ask(it) for it in kinds]
        connection.send(*(request for request, _ in asked))
        for kind, (_, check) in zip(kinds, asked):
            check(connection.receive())
            self.log.counted[kind] += 1
        time.sleep(self.drawn.random() * 2 * self.pause)

    def end(self, connection, how):
        """Ends a connection. What was sent of a line that broke off is never a request."""
        self.log.counted[f"end: {how}"] += 1
        if how == "cut":
            left = put(LEFT, f"{self.number}/{self.log.sent}", "any", "a b c")
            self.log.sent += 1
            connection.send(left, json.dumps(put(HALF, "h", "any", "a b c")).encode()[:-1])
        elif how == "cut in 8 MiB":
            front = b'{"op":"put","project":"half","path":"h","lang":"any","text":"'
            connection.send(front + b"a " * self.drawn.randrange(LINE_LIMIT // 2))
        elif how in ("half", "whole"):
            line = json.dumps({"op": "groups", "project": self.project, "min": 2}).encode()
            connection.send(line[:-1] if how == "half" else line)
            connection.socket.shutdown(socket.SHUT_WR)
            if how == "half":
                must(connection.receive() == JSON, "half a line", "another reply")
            else:
                self.query(json.loads(line), connection.receive())
            must(connection.replies.read() == b"", "the end of the input", "more than its replies")
        connection.close()

    def fill(self, connection):
        """Sends the longest line, so that the line buffer of this session is as large as it gets."""
        make, wanted = LARGE["at the limit"]
        connection.send(make())
        must(connection.receive() == wanted, "the longest line", "another reply")
        self.log.counted["large"] += 1

    def run(self):
        for part in range(self.parts):
            connection = Connection(self.address)
            self.log.begin_session()
            if part == 0:
                self.fill(connection)
            while time.monotonic() < self.start + (part + 1) * PART:
                self.talk(connection)
            self.end(connection, self.drawn.choice(ENDS))
        return self.log


def run_client(given):
    return Client(*given).run()


# ---- after all clients


def check_log(given):
    check(*given)


def left_changes(connection, sent):
    """The changes that were accepted of lines whose replies nobody read, by their numbers."""
    reply = connection.ask({"op": "files", "project": LEFT})
    told = {it["change"]: Change(LEFT, it["path"], "any", "a b c") for it in reply["files"]}
    must({it.path for it in told.values()} <= sent and len(told) == len(reply["files"]), "left", reply)
    history = History(sorted(told.items()))
    must(reply == history.reply({"op": "files", "project": LEFT}, reply["version"]), "left", reply)
    half = connection.ask({"op": "files", "project": HALF})
    must(half == {"files": [], "ok": True, "version": half["version"]}, "half", half)
    return told


def one_history(connection, logs):
    """All changes by their numbers."""
    sent = {f"{client}/{at}" for client, log in enumerate(logs) for at in range(log.sent)}
    told = [*left_changes(connection, sent).items(), *(it for log in logs for it in log.changes)]
    numbered, accepted = by_number(told), len(told)
    state = connection.ask({"op": "state"})
    must(state == {"ok": True, "accepted": accepted, "done": accepted, "published": accepted}, accepted, state)
    return numbered


class Server:
    """A server that exits after so many connections, and whose memory is read once a second."""

    def __init__(self, connections, workers, sessions, changes):
        self.address = free_address()
        words = ["listen", self.address, "--workers", workers, "--sessions", sessions, "--connections", connections, "--chunk", 2,
                 "--change-limit", changes, "--text-limit", TEXT_LIMIT]
        self.process = subprocess.Popen([PROGRAM, *map(str, words)])
        self.start, self.memory = time.monotonic(), []
        threading.Thread(target=self.look, daemon=True).start()

    def status(self, name):
        for line in Path(f"/proc/{self.process.pid}/status").read_text().splitlines():
            if line.startswith(name):
                return int(line.split()[1]) / 1024
        return 0.0

    def look(self):
        while self.process.poll() is None:
            try:
                self.memory.append((time.monotonic() - self.start, self.status("VmRSS:")))
            except OSError:
                return
            time.sleep(1)

    def memory_before(self, seconds):
        return statistics.median(mib for at, mib in self.memory if mib and seconds - 60 <= at <= seconds)


def soak(minutes, clients, workers, changes, pause):
    parts = max(1, round(minutes * 60 / PART))
    server = Server(clients * parts + 1, workers, clients, changes)
    try:
        with multiprocessing.Pool(clients) as pool:
            given = [(server.address, number, time.monotonic(), parts, pause) for number in range(clients)]
            logs = pool.map(run_client, given, chunksize=1)
            seconds = time.monotonic() - server.start
            early, late = server.memory_before(seconds / 4), server.memory_before(seconds)
            greatest = server.status("VmHWM:")
            connection = Connection(server.address)
            numbered = one_history(connection, logs)
            must(server.process.poll() is None, "before the last connection", "the server ended")
            connection.close()
            must(server.process.wait(60) == 0, "after the last connection", f"it exited with {server.process.returncode}")
            pool.map(check_log, [(numbered, it) for it in logs], chunksize=1)
    finally:
        server.process.kill()
    counted = sum((it.counted for it in logs), collections.Counter())
    shared = sum(len(it.replies) for it in logs)
    replies = sum(count for kind, count in counted.items() if not kind.startswith("end: ") and kind != "told full")
    print(f"{seconds / 60:.1f} minutes, {clients} clients, {workers} workers, {clients * parts + 1} connections:"
          f" {replies} replies, each checked; {shared} of the shared project")
    print(f"  {len(numbered)} changes, {changes} kept at most; {sum(len(it.pending) for it in logs)} refused as pending; exited with 0")
    print("  " + ", ".join(f"{kind} {count}" for kind, count in sorted(counted.items())))
    print(f"  memory: {early:.0f} MiB in the minute before a quarter of the time, {late:.0f} MiB in the last,"
          f" {greatest:.0f} MiB at most")
    must(late <= early * 1.1, "memory", f"{late:.0f} MiB is more than a tenth above {early:.0f} MiB")


def main():
    parser = argparse.ArgumentParser(description=__doc__, formatter_class=argparse.RawDescriptionHelpFormatter)
    parser.add_argument("--minutes", type=float, default=20)
    parser.add_argument("--clients", type=int, default=16)
    parser.add_argument("--workers", type=int, default=4)
    parser.add_argument("--changes", type=int, default=8000, help="changes kept at most, of all clients together")
    parser.add_argument("--pause", type=float, default=0.2, help="seconds between the requests of a client, on average")
    given = parser.parse_args()
    soak(given.minutes, given.clients, given.workers, given.changes, given.pause)


if __name__ == "__main__":
    main()
