#!/usr/bin/env python3
"""Prints what sessions and token files take of memory at their peak.

usage: bench/peaks.py

- A session of `listen`: what a server with 64 sessions, all of which have sent a short line, takes beyond one with a single session.
- A token file that `ask` reads, and ones that claim to be as large as they may be, and end after that claim.

bench/hostile.py has requests and replies. Memory is VmHWM. The program is ./cqd, or what the variable CQD names.
"""
import argparse
import json
import os
import random
import re
import socket
import struct
import subprocess
import time
from pathlib import Path

argparse.ArgumentParser(description=__doc__, formatter_class=argparse.RawDescriptionHelpFormatter, usage=argparse.SUPPRESS).parse_args()

ROOT = Path(__file__).resolve().parent.parent
PROGRAM = os.environ.get("CQD", ROOT / "cqd")


def peak(process):
    """The peak of memory so far, in bytes."""
    status = Path(f"/proc/{process.pid}/status").read_text()
    return 1024 * int(re.search(r"^VmHWM:\s*(\d+)", status, re.MULTILINE)[1])


def asked(data, line):
    """The peak of `ask` after these bytes, and after the reply to a line if there is one."""
    process = subprocess.Popen([PROGRAM, "ask"], stdin=subprocess.PIPE, stdout=subprocess.PIPE, stderr=subprocess.DEVNULL)
    process.stdin.write(data + line)
    process.stdin.flush()
    if line:
        assert b'"ok":true' in process.stdout.readline()
    else:
        time.sleep(1)
    found = peak(process)
    process.stdin.close()
    assert process.wait() == (0 if line else 8)
    return found


def show_token_files():
    choice = random.Random(1)
    text = lambda: "\n".join(" ".join(f"{choice.choice('abcdefgh')}{choice.randrange(9_999)}" for _ in range(10)) for _ in range(1_500))
    puts = [{"op": "put", "project": "p", "path": f"f{number}", "lang": "any", "text": text()} for number in range(40)]
    lines = "".join(json.dumps(it) + "\n" for it in puts).encode()
    whole = subprocess.run([PROGRAM, "export", "p"], input=lines, capture_output=True, check=True).stdout
    size = asked(whole, b'{"op":"files","project":"p"}\n')
    print(f"a token file of {len(whole) / 1e6:.1f} MB: {size / 1e6:.0f} MB; with nothing on its input, ask takes {asked(b'', b'') / 1e6:.1f} MB")
    frame = b"CQTOK001" + struct.pack(">Q", 268_435_456)
    head = frame + struct.pack(">QIBBI", 1, 20, 0, 0, 1) + b"p"
    file = struct.pack(">I", 1) + b"t" + struct.pack(">QBBQQQ", 1, 0, 0, 1, 1, 1)
    claims = [("268,435,456 bytes", frame), ("4,000,000,000 conditions", head + struct.pack(">I", 4_000_000_000)),
              ("262,144 files", head + struct.pack(">II", 0, 262_144)), ("262,144 tokens", head + struct.pack(">II", 0, 1) + file + struct.pack(">I", 262_144))]
    for name, data in claims:
        print(f"one that claims {name} and ends there: {asked(data, b'') / 1e6:.1f} MB")


def peak_of(sessions):
    """The peak of a server with so many sessions, each of which has answered a short line."""
    process = subprocess.Popen([PROGRAM, "listen", "127.0.0.1:19791", "--sessions", str(sessions)])
    links = []
    try:
        for _ in range(sessions):
            links.append(connected())
            links[-1].sendall(b'{"op":"state"}\n')
            assert b'"ok":true' in links[-1].recv(100)
        return peak(process)
    finally:
        process.kill()
        process.wait()


def connected():
    for _ in range(100):
        try:
            return socket.create_connection(("127.0.0.1", 19791), timeout=10)
        except ConnectionRefusedError:
            time.sleep(0.1)
    raise SystemExit("peaks.py: the server does not listen")


def show_sessions():
    one, most = peak_of(1), peak_of(64)
    print(f"a server with one session: {one / 1e6:.0f} MB, with 64: {most / 1e6:.0f} MB, {(most - one) / 63 / 1e6:.1f} MB a session")


show_sessions()
show_token_files()
