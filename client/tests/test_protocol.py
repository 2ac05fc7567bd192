"""Whatever a server does, a call that has no answer exits with 2, says why in one line, and never says OK."""
from __future__ import annotations

import json
import socket
import threading
from pathlib import Path
from typing import Any, Callable

import pytest

from cqd_client.faults import Fault
from cqd_client.findings import Malformed, groups_of
from cqd_client.link import Address, owner
from cqd_client.protocol import Server, line_of, reached
from conftest import Client, Listening, lines_of

MODES = {
    "ends at once": "status 1",
    "ends at the third": "out of memory",
    "is killed at the third": "signal 9",
    "ends within a reply": "status 3",
    "talks nonsense": "no reply of cqd",
    "answers a list": "no reply of cqd",
    "answers without members": "no member",
    "is full": "--text-limit",
    "loses a file": "does not stay",
    "judges by another gate": "not by the gate of this call",
    "ends with 5 after the verdict": "status 5",
    "says more": "reply",
    "ends badly": "status 2",
}


def folder_of(path: Path) -> None:
    for name in "abcd":
        (path / f"{name}.c").write_text(f"int {name};\n")


@pytest.mark.parametrize("mode", MODES)
def test_no_answer_is_2(failing: Callable[[str], Client], tmp_path: Path, mode: str) -> None:
    folder_of(tmp_path)
    ran = failing(mode)("verdict", ".", "--gate", "lines>100")
    assert (ran.returncode, ran.stdout) == (2, "")
    assert MODES[mode] in ran.stderr
    assert len(ran.stderr.splitlines()) <= 4


@pytest.mark.parametrize("mode", ["is silent", "trickles", "stays"])
def test_a_server_that_does_not_answer_is_left(failing: Callable[[str], Client], tmp_path: Path, mode: str) -> None:
    folder_of(tmp_path)
    ran = failing(mode)("verdict", ".", "--gate", "lines>100", "--timeout", "1")
    assert (ran.returncode, ran.stdout) == (2, "")
    assert "--timeout" in ran.stderr or "1 second" in ran.stderr or "not ended" in ran.stderr


@pytest.mark.parametrize("mode", ["is out of memory", "never finishes"])
def test_what_can_wait_is_asked_again_and_then_refused(failing: Callable[[str], Client], tmp_path: Path, mode: str) -> None:
    folder_of(tmp_path)
    ran = failing(mode)("verdict", ".", "--gate", "lines>100")
    assert ran.returncode == 2
    assert "memory" in ran.stderr or "not finished" in ran.stderr


@pytest.mark.parametrize("text", ["", "int a;\n", "\"\\\t\r\n/", "".join(map(chr, range(0x300))), "\u2028\ufeff\U0001f600", "\\u0041\\\""])
def test_a_line_is_json_with_the_same_text(text: str) -> None:
    request = {"op": "put", "project": "p", "path": "ü\"\\.c", "lang": "any", "text": text}
    line = line_of(request)
    assert json.loads(line.decode("utf-8")) == request
    assert line.index(b"\n") == len(line) - 1 and not any(byte < 32 for byte in line[:-1])


@pytest.mark.parametrize("wrong", [
    {"total": 2}, {"total": True}, {"groups": None}, {"groups": [{"tokens": 5, "places": []}]},
    {"groups": [{"tokens": 5, "places": [{"path": "a", "at": 0, "first": 1, "last": 2}]}]},
    *({"groups": [{"tokens": 5, "places": [{"path": "a", "at": 0, "first": 1, "last": 2}, {"path": "a", "at": 9, "first": 3, "last": 4} | one]}]}
      for one in ({"first": 0}, {"last": 2}, {"at": -1}, {"path": 3}, {"at": 1.5})),
])
def test_a_reply_of_groups_that_is_not_as_documented(wrong: dict[str, Any]) -> None:
    with pytest.raises(Malformed):
        groups_of({"groups": [], "total": len(wrong.get("groups") or [])} | wrong)


def test_a_program_that_is_missing(client: Client, tmp_path: Path) -> None:
    folder_of(tmp_path)
    ran = client("groups", ".", "--cqd", "/no/such/program")
    assert ran.returncode == 2 and "/no/such/program can't be started" in ran.stderr


def test_nobody_listens(client: Client, tmp_path: Path) -> None:
    folder_of(tmp_path)
    ran = client("groups", ".", "--project", "p", "--addr", "127.0.0.1:1")
    assert ran.returncode == 2 and "127.0.0.1:1 can't be reached" in ran.stderr


class Cutting:
    """Stands between a client and a server, and cuts each connection before it passes on a reply of this number."""

    def __init__(self, port: int, *cuts: int) -> None:
        self.port, self.cuts = port, list(cuts)
        self.first_lines: list[dict[str, Any]] = []
        self.door = socket.create_server(("127.0.0.1", 0))
        self.address = Address("127.0.0.1", self.door.getsockname()[1])
        threading.Thread(target=self.serve, daemon=True).start()

    def serve(self) -> None:
        while True:
            try:
                near, _ = self.door.accept()
            except OSError:
                return
            cut = self.cuts.pop(0) if self.cuts else 0
            far = socket.create_connection(("127.0.0.1", self.port))
            threading.Thread(target=self.forward, args=(near, far), daemon=True).start()
            threading.Thread(target=self.answer, args=(far, near, cut), daemon=True).start()

    def forward(self, near: socket.socket, far: socket.socket) -> None:
        try:
            for number, line in enumerate(near.makefile("rb"), 1):
                if number == 1:
                    self.first_lines.append(json.loads(line))
                far.sendall(line)
        except OSError:
            return

    @staticmethod
    def answer(far: socket.socket, near: socket.socket, cut: int) -> None:
        for number, line in enumerate(far.makefile("rb"), 1):
            if number == cut:
                near.shutdown(socket.SHUT_RDWR)
                return
            near.sendall(line)


def test_a_lost_connection_is_made_again_and_no_answer_is_lost(listening: Listening) -> None:
    cutting = Cutting(listening.port, 5, 9, 2)
    texts = {f"f{i}.c": f"int a{i};\n" for i in range(60)}
    with reached(cutting.address, None, 20) as server:
        requests = [{"op": "put", "project": "p", "path": path, "lang": "c", "text": text} for path, text in texts.items()]
        answered = [request["path"] for request, reply in server.ask_each(requests) if reply.is_ok]
        assert answered == list(texts)
        assert server.generation == 3
        assert [file["path"] for file in server.files("p").members["files"]] == sorted(texts)


def test_a_connection_that_is_always_lost_is_given_up(listening: Listening) -> None:
    cutting = Cutting(listening.port, *[1] * 20)
    with pytest.raises(Fault, match="5 connections were tried"), reached(cutting.address, None, 20) as server:
        server.files("p")


def test_the_command_survives_lost_connections(client: Client, tmp_path: Path, listening: Listening) -> None:
    (tmp_path / "a.c").write_text(lines_of("a"))
    (tmp_path / "b.c").write_text(lines_of("b"))
    cutting = Cutting(listening.port, 4, 3, 5)
    ran = client("groups", ".", "--project", "p", "--addr", str(cutting.address))
    assert ran.returncode == 0 and "a.c:1: " in ran.stdout and "also at b.c:1" in ran.stdout


def test_each_connection_begins_with_the_project(client: Client, tmp_path: Path, listening: Listening) -> None:
    """By this a proxy chooses one of several servers."""
    (tmp_path / "a.c").write_text(lines_of("a"))
    cutting = Cutting(listening.port, 4, 3, 5)
    for command in (("groups", "."), ("groups",), ("status",), ("remove",)):
        assert client(*command, "--project", "p", "--addr", str(cutting.address)).returncode == 0
    assert len(cutting.first_lines) == 7
    assert {line["project"] for line in cutting.first_lines} == {"p"}


def test_a_server_that_restarts_within_a_call_gets_everything_again(listening: Listening) -> None:
    with reached(Address("127.0.0.1", listening.port), None, 20) as server:
        epoch = server.epoch_known()
        server.answer({"op": "put", "project": "p", "path": "a.c", "lang": "c", "text": "int a;"})
        listening.kill()
        listening.start()
        with pytest.raises(Fault, match="started again"):
            server.files("p")
        assert server.epoch_known() != epoch


def test_a_server_that_is_full_of_what_was_replaced_gets_room(client: Client, tmp_path: Path, program: str) -> None:
    full = Listening(program, "--text-limit", "10000")
    try:
        words = ("put", ".", "--project", "p", "--addr", full.addr)
        for letter in "xyz":
            for number in range(60):
                (tmp_path / f"{number}.c").write_text(f"int {letter * 90};\n")
            assert client(*words).stdout.startswith("60 uploaded, 0 unchanged")
        for number in range(60):
            (tmp_path / f"more{number}.c").write_text(f"int {'x' * 90};\n")
        ran = client(*words)
        assert ran.returncode == 2 and "--text-limit" in ran.stderr
    finally:
        full.kill()


def test_each_life_of_a_server_has_one_name(listening: Listening) -> None:
    names = []
    for _ in range(3):
        with reached(Address("127.0.0.1", listening.port), None, 20) as server:
            names.append(server.epoch_known())
    assert len(set(names)) == 1


def test_a_project_stays_at_its_server_when_another_is_added() -> None:
    addresses = [Address(f"cqd{i}", 9000) for i in range(4)]
    projects = [f"project{i}" for i in range(2000)]
    before = {project: owner(addresses[:3], project) for project in projects}
    after = {project: owner(reversed(addresses), project) for project in projects}
    moved = [project for project in projects if before[project] != after[project]]
    assert all(after[project] == addresses[3] for project in moved)
    assert 400 < len(moved) < 600


def test_a_reply_keeps_the_greatest_number(listening: Listening) -> None:
    with reached(Address("127.0.0.1", listening.port), None, 20) as server:
        assert isinstance(server, Server)
        server.answer({"op": "put", "project": "p", "path": "a", "lang": "any", "text": ""})
        assert server.greatest == 1
