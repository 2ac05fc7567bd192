#!/usr/bin/env python3
"""A server that answers as cqd does and fails in the way that FAILS names: by line of its input, or at a request."""
from __future__ import annotations

import json
import os
import signal
import sys
import time
from typing import Any

mode = os.environ["FAILS"]
files: dict[str, int] = {}
measures = {"complexity": 0, "duplicated_blocks": 0, "duplicated_files": 0, "duplicated_lines": 0, "duplicated_lines_density": 0,
            "files": 1, "lines": 1, "ncloc": 1}


def say(reply: dict[str, Any]) -> None:
    sys.stdout.write(json.dumps(reply) + "\n")
    sys.stdout.flush()


def answer(request: dict[str, Any]) -> dict[str, Any]:
    operation = request["op"]
    if operation == "put":
        files[request["path"]] = len(files) + 1
        return {"change": len(files), "ok": True}
    if operation == "files":
        listed = [{"change": change, "lang": "c", "lines": 1, "path": path, "state": "ok", "tokens": 1} for path, change in files.items()]
        return {"files": listed[1:] if mode == "loses a file" else listed, "ok": True, "version": len(files)}
    if operation == "gate":
        return {"change": 99, "ok": True}
    if operation == "measures":
        return {"measures": {**measures, "lines": 9999} if mode == "judges by another gate" else measures, "ok": True, "version": 3}
    if operation == "verdict":
        return {"failed": [], "ok": True, "verdict": "OK", "version": 3}
    return {"groups": [], "ok": True, "total": 0, "version": 3}


def serve() -> None:
    for number, line in enumerate(sys.stdin.buffer, 1):
        if mode == "ends at the third" and number == 3:
            sys.exit(4)
        if mode == "is killed at the third" and number == 3:
            os.kill(os.getpid(), signal.SIGKILL)
        if mode == "ends within a reply" and number == 3:
            sys.stdout.write('{"change":')
            sys.stdout.flush()
            os._exit(3)
        if mode == "is silent":
            time.sleep(1000)
        if mode == "trickles":
            while True:
                sys.stdout.write(" ")
                sys.stdout.flush()
                time.sleep(0.2)
        request = json.loads(line)
        replies = {"talks nonsense": "hello", "answers a list": "[]", "answers without members": '{"ok":true}',
                   "is out of memory": '{"code":14,"error":"memory","ok":false}',
                   "never finishes": '{"code":12,"error":"pending","number":1,"ok":false}'}
        if mode in replies:
            print(replies[mode], flush=True)
        elif mode == "is full" and request["op"] == "put" and number > 2:
            say({"code": 11, "error": "full-text", "ok": False})
        else:
            say(answer(request))
        if mode == "ends with 5 after the verdict" and request["op"] == "measures":
            sys.exit(5)
        if mode == "says more" and request["op"] == "verdict":
            say({"ok": True})


if mode == "ends at once":
    sys.exit(1)
try:
    serve()
except (BrokenPipeError, ConnectionResetError):
    # the client closed its end while something that was written here was still unread
    pass
if mode == "stays":
    time.sleep(1000)
if mode == "ends badly":
    sys.exit(2)
