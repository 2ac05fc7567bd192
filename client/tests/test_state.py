"""The state file: merged under a lock, so that calls side by side lose nothing, and void after a server's restart."""
from __future__ import annotations

import json
import multiprocessing
import os
from pathlib import Path

import pytest

from cqd_client.findings import Condition
from cqd_client.notes import Notes
from cqd_client.state import Known, State
from conftest import Client, Listening, lines_of

SIDE_BY_SIDE = 24


def keep(file: Path, number: int, shares_a_project: bool) -> None:
    state = State(file, "server:1", "p" if shares_a_project else f"p{number}", Notes())
    state.begin("life")
    for i in range(8):
        state.entry.files[f"{number}/{i}"] = Known("0" * 64, number * 8 + i + 1)
        state.keep()
    state.entry.gate = [Condition("lines", "GT", number)]
    state.keep()


@pytest.mark.parametrize("shares_a_project", [False, True])
def test_24_calls_at_once_lose_nothing(tmp_path: Path, shares_a_project: bool) -> None:
    file = tmp_path / "state.json"
    callers = [multiprocessing.Process(target=keep, args=(file, number, shares_a_project)) for number in range(SIDE_BY_SIDE)]
    for caller in callers:
        caller.start()
    for caller in callers:
        caller.join()
    assert [caller.exitcode for caller in callers] == [0] * SIDE_BY_SIDE
    projects = json.loads(file.read_text())["servers"]["server:1"]
    paths = [path for entry in projects.values() for path in entry["files"]]
    assert sorted(paths) == sorted(f"{number}/{i}" for number in range(SIDE_BY_SIDE) for i in range(8))
    assert all(entry["gate"] for entry in projects.values())


def test_24_commands_at_once_lose_nothing(client: Client, tmp_path: Path, listening: Listening) -> None:
    (tmp_path / "a.c").write_text("int a;\n")
    ran = [client.start("verdict", "a.c", "--root", ".", "--project", f"p{number}", "--addr", listening.addr, "--gate", "lines>100")
           for number in range(SIDE_BY_SIDE)]
    assert [one.communicate()[0].strip() for one in ran] == [b"OK"] * SIDE_BY_SIDE
    assert [one.returncode for one in ran] == [0] * SIDE_BY_SIDE
    projects = json.loads((tmp_path / ".cqd-state.json").read_text())["servers"][listening.addr]
    assert sorted(projects) == sorted(f"p{number}" for number in range(SIDE_BY_SIDE))
    assert all(entry["files"] and entry["gate"] and entry["passed"] for entry in projects.values())


def test_the_later_change_of_two_calls_is_kept(tmp_path: Path) -> None:
    file = tmp_path / "state.json"
    one, two = State(file, "s:1", "p", Notes()), State(file, "s:1", "p", Notes())
    for state, change in ((one, 7), (two, 5)):
        state.begin("life")
        state.entry.files["a"] = Known(str(change), change)
        state.keep()
    assert State(file, "s:1", "p", Notes()).entry.files["a"].change == 7


def test_what_another_call_kept_of_a_later_life_of_the_server_stays(tmp_path: Path) -> None:
    file = tmp_path / "state.json"
    first = State(file, "s:1", "p", Notes())
    first.begin("life")
    first.entry.files["a"] = Known("0", 1)
    first.keep()
    late, idle, other = (State(file, "s:1", "p", Notes()) for _ in range(3))
    late.begin("life")
    late.entry.files["b"] = Known("0", 2)
    other.begin("later life")
    other.entry.files["c"] = Known("0", 1)
    other.keep()
    for state in (idle, late):
        state.keep()
        assert list(State(file, "s:1", "p", Notes()).entry.files) == ["c"]
    late.begin("later life")
    late.entry.files["b"] = Known("0", 2)
    late.keep()
    assert sorted(State(file, "s:1", "p", Notes()).entry.files) == ["b", "c"]


def test_what_is_no_state_file_is_written_again(client: Client, tmp_path: Path, listening: Listening) -> None:
    (tmp_path / "a.c").write_text("int a;\n")
    for text in ("", "[]", "{", '{"form":2,"servers":{"s":{"p":{}}}}', "[" * 10_000, '{"127.0.0.1:9":{"p":{}}}', "\udcff"):
        (tmp_path / ".cqd-state.json").write_bytes(text.encode("utf-8", "surrogateescape"))
        ran = client("put", ".", "--project", "p", "--addr", listening.addr)
        assert ran.returncode == 0 and "no state file" in ran.stderr
        assert "1 uploaded" in ran.stdout or "0 uploaded" in ran.stdout


def test_a_state_file_that_cannot_be_written(client: Client, tmp_path: Path, listening: Listening) -> None:
    (tmp_path / "a.c").write_text("int a;\n")
    ran = client("put", ".", "--project", "p", "--addr", listening.addr, "--state", "no/folder/state")
    assert ran.returncode == 2 and "--state names another" in ran.stderr
    # what is no file, such as /dev/null, is neither read nor replaced
    os.mkfifo(tmp_path / "pipe")
    for name in ("pipe", "."):
        ran = client("put", "a.c", "--project", "p", "--addr", listening.addr, "--state", name)
        assert (ran.returncode, ran.stdout) == (2, "") and "no regular file; --state names another" in ran.stderr
    assert (tmp_path / "pipe").is_fifo() and sorted(os.listdir(tmp_path)) == ["a.c", "pipe"]


def test_a_state_file_that_is_a_link_is_written_where_it_leads(client: Client, tmp_path: Path, listening: Listening) -> None:
    (tmp_path / "a.c").write_text("int a;\n")
    (tmp_path / "cache").mkdir()
    (tmp_path / ".cqd-state.json").symlink_to("cache/state")
    for said in ("1 uploaded, 0 unchanged", "0 uploaded, 1 unchanged"):
        assert client("put", ".", "--project", "p", "--addr", listening.addr).stdout.startswith(said)
        assert (tmp_path / ".cqd-state.json").is_symlink() and (tmp_path / "cache" / "state").is_file()


def test_only_what_changed_is_uploaded(client: Client, tmp_path: Path, listening: Listening) -> None:
    def put() -> str:
        ran = client("put", "src", "--project", "p", "--addr", listening.addr)
        assert ran.returncode == 0, ran.stderr
        return ran.stdout.strip()
    source = tmp_path / "src"
    source.mkdir()
    (source / "a.c").write_text("int a;\n")
    (source / "b.c").write_text("int b;\n")
    assert put() == "2 uploaded, 0 unchanged, 0 dropped, 0 left out"
    assert put() == "0 uploaded, 2 unchanged, 0 dropped, 0 left out"
    (source / "a.c").write_text("int other;\n")
    (source / "b.c").unlink()
    assert put() == "1 uploaded, 0 unchanged, 1 dropped, 0 left out"


def test_an_empty_folder_drops_nothing(client: Client, tmp_path: Path, listening: Listening) -> None:
    source = tmp_path / "src"
    source.mkdir()
    (source / "a.c").write_text("int a;\n")
    words = ("--project", "p", "--addr", listening.addr)
    assert client("put", "src", *words).returncode == 0
    (source / "a.c").unlink()
    ran = client("put", "src", *words)
    assert ran.returncode == 2 and "no source files" in ran.stderr
    assert "project p: 1 file, 1 line, 3 tokens" in client("status", *words).stdout
    assert client("remove", *words).stdout == "project p is removed: 1 file dropped\n"
    assert "0 files" in client("status", *words).stdout
    assert client("groups", *words).returncode == 2


def test_a_restarted_server_that_another_client_filled_alike_is_noticed(client: Client, tmp_path: Path, listening: Listening,
                                                                        program: str) -> None:
    words = ("--project", "p", "--addr", listening.addr)
    (tmp_path / "a.c").write_text(lines_of("a"))
    (tmp_path / "b.c").write_text(lines_of("b"))
    gate = ("--gate", "duplicated_blocks>0")
    assert client("verdict", ".", *words, *gate).returncode == 1
    listening.kill()
    listening.start()
    elsewhere = tmp_path / "elsewhere"
    elsewhere.mkdir()
    (elsewhere / "a.c").write_text("int a;\n")
    (elsewhere / "b.c").write_text("int b;\n")
    assert Client(elsewhere, program)("verdict", ".", *words, *gate).returncode == 0
    # the server has the same paths by the same numbers of changes, but not the files of this folder
    assert client("verdict", "a.c", "b.c", *words, *gate).returncode == 1
