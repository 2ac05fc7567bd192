"""A server that keeps a log: what it has after it was killed, and whom it turns away. bench/kills.py kills one under load, again and again."""
from __future__ import annotations

import subprocess
import time
from pathlib import Path

import pytest

from conftest import HANG_SECONDS, Client, Serving, free_port, lines_of

FIRST = b'{"op":"put","project":"p","path":"t","lang":"any","text":"a b"}\n'
SECOND = b'{"op":"put","project":"p","path":"u","lang":"any","text":"c d"}\n'
STATE = b'{"op":"state"}\n'
NO_JSON = b'{"code":1,"error":"json","ok":false}\n'
LONG = b'{"code":13,"error":"long","ok":false}\n'


def told(number: int) -> bytes:
    return b'{"change":%d,"ok":true}\n' % number


def test_a_change_outlives_a_server_that_is_killed(serving: Serving) -> None:
    assert serving.replies(FIRST + SECOND) == [told(1), told(2)]
    serving.kill()
    assert serving.log.read_bytes() == FIRST + SECOND
    serving.start()
    assert serving.replies(b'{"op":"drop","project":"p","path":"t"}\n{"op":"files","project":"p"}\n') == [
        told(3), b'{"files":[{"change":2,"lang":"any","lines":1,"path":"u","state":"ok","tokens":2}],"ok":true,"version":3}\n']
    assert serving.log.read_bytes() == FIRST + SECOND + b'{"op":"drop","project":"p","path":"t"}\n'


@pytest.mark.parametrize(("end", "mended", "number"), [
    (b"", b"", 2),
    (SECOND[:-1], b"\n", 3),
    (SECOND[:20], b"\n\n", 2),
    (SECOND[:20] + b"\n", b"\n", 2),
    (SECOND[:20] + b"\n\n", b"", 2),
])
def test_the_end_of_a_log_is_mended(serving: Serving, end: bytes, mended: bytes, number: int) -> None:
    serving.kill()
    serving.log.write_bytes(FIRST + end)
    serving.start()
    assert serving.replies(FIRST) == [told(number)]
    assert serving.log.read_bytes() == FIRST + end + mended + FIRST


@pytest.mark.parametrize(("line", "reply"), [
    (b"POST / HTTP/1.1\r\nHost: localhost\r\n\r\n", NO_JSON),
    (b"\n", NO_JSON),
    (b"[]\n", NO_JSON),
    (b"{" * (8 * 2**20 + 1) + b"\n", LONG),
], ids=["http", "empty", "list", "long"])
def test_a_browser_is_turned_away(serving: Serving, line: bytes, reply: bytes) -> None:
    assert serving.replies(line + FIRST) == [reply]
    assert serving.log.read_bytes() == b""


def test_a_client_may_send_a_line_that_is_no_object_later(serving: Serving) -> None:
    assert serving.replies(b"{}\nno object\n" + FIRST)[1:] == [NO_JSON, told(1)]
    assert serving.log.read_bytes() == FIRST


def test_a_line_is_kept_as_it_came(serving: Serving) -> None:
    line = b'  { "path" : "t", "text":"\\u0061", "op":"put","lang":"any","project":"p" }\t\n'
    assert serving.replies(line) == [told(1)]
    assert serving.log.read_bytes() == line


def test_what_is_refused_or_asked_is_not_kept(serving: Serving) -> None:
    assert len(serving.replies(b'{"op":"drop","project":"p","path":"t"}\n' + STATE + b'{"op":"files","project":"p"}\n{}\n')) == 4
    assert serving.log.read_bytes() == b""


def test_a_second_server_at_the_same_address_writes_nothing(serving: Serving) -> None:
    serving.kill()
    serving.log.write_bytes(FIRST + SECOND[:20])
    serving.start()
    before = serving.log.read_bytes()
    assert serving.launched().wait(HANG_SECONDS) == 5
    assert serving.log.read_bytes() == before


def test_a_log_that_is_refused_ends_the_server(serving: Serving) -> None:
    serving.kill()
    serving.log.write_bytes(FIRST + SECOND[:20] + b"\n" + FIRST)
    assert serving.launched().wait(HANG_SECONDS) == 7
    assert serving.log.read_bytes() == FIRST + SECOND[:20] + b"\n" + FIRST


def test_a_change_that_cannot_be_written_gets_no_reply(tmp_path: Path, program: str) -> None:
    server = Serving(program, tmp_path / "kept.log")
    server.kill()
    server.onto = Path("/dev/full")
    server.port = free_port()
    server.addr = f"127.0.0.1:{server.port}"
    server.start()
    assert server.process
    try:
        assert server.replies(STATE + FIRST + STATE)[1:] == []
        limit = time.monotonic() + HANG_SECONDS
        # a server that has to stop notices it when the next client connects
        while server.process.poll() is None and time.monotonic() < limit:
            try:
                assert server.replies(STATE) == []
            except OSError:
                time.sleep(0.05)
        assert server.process.poll() == 3
    finally:
        server.kill()


def test_a_shorter_log_has_the_same_files(serving: Serving, program: str) -> None:
    drop = b'{"op":"drop","project":"p","path":"u"}\n'
    assert serving.replies(FIRST + FIRST + SECOND + drop) == [told(1), told(2), told(3), told(4)]
    serving.kill()
    ran = subprocess.run([program, "shorten"], input=serving.log.read_bytes(), capture_output=True, timeout=HANG_SECONDS, check=True)
    assert ran.stdout == FIRST
    serving.log.write_bytes(ran.stdout)
    serving.start()
    assert serving.replies(b'{"op":"files","project":"p"}\n') == [b'{"files":[{"change":1,"lang":"any","lines":1,"path":"t","state":"ok","tokens":2}],"ok":true,"version":1}\n']


def test_the_command_goes_on_after_a_restart(client: Client, tmp_path: Path, serving: Serving) -> None:
    words = ("verdict", ".", "--new", "--project", "p", "--addr", serving.addr, "--gate", "duplicated_blocks>1")
    (tmp_path / "a.c").write_text(lines_of("one"))
    assert client(*words).returncode == 0
    serving.kill()
    serving.start()
    ran = client(*words)
    assert (ran.returncode, ran.stderr) == (0, ""), ran
