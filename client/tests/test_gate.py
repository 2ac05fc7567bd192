"""No build is green by accident: the gate is known, set again, and judged twice."""
from __future__ import annotations

import json
from pathlib import Path

import pytest

from cqd_client.faults import Misuse
from cqd_client.findings import Condition
from cqd_client.gate import condition_of, gate_of
from conftest import Client, Listening, lines_of

GATE = ("--gate", "duplicated_lines_density>3")


def duplicates(folder: Path) -> None:
    (folder / "a.c").write_text(lines_of("a"))
    (folder / "b.c").write_text(lines_of("b"))


@pytest.mark.parametrize("word, condition", [
    ("duplicated_lines_density>3", Condition("duplicated_lines_density", "GT", 300)),
    (" duplicated_lines_density > 3.5% ", Condition("duplicated_lines_density", "GT", 350)),
    ("duplicated_lines_density<0.07", Condition("duplicated_lines_density", "LT", 7)),
    ("ncloc<1", Condition("ncloc", "LT", 1)),
    ("complexity>18446744073709551615", Condition("complexity", "GT", 18446744073709551615)),
])
def test_conditions(word: str, condition: Condition) -> None:
    assert condition_of(word) == condition


@pytest.mark.parametrize("word", ["", "lines", "lines>", "lines>=3", "lines>-1", "lines>3.5", "lines>3%", "density>3", "lines>1e3", "Lines>3",
                                  "duplicated_lines_density>3.123", "complexity>18446744073709551616", "duplicated_lines_density>100",
                                  "lines<0", "lines>3 lines>4", "lines>٣"])
def test_what_is_no_condition_or_can_never_fail(word: str) -> None:
    with pytest.raises(Misuse):
        condition_of(word)


def test_a_gate_has_each_condition_once_and_at_most_32() -> None:
    assert len(gate_of(["lines>1", "lines>1"], ["any-duplicate"])) == 2
    with pytest.raises(Misuse, match="33"):
        gate_of([f"lines>{i}" for i in range(33)], None)


def test_statuses(client: Client, tmp_path: Path) -> None:
    duplicates(tmp_path)
    failed = client("verdict", ".", *GATE)
    assert (failed.returncode, failed.stdout.splitlines()[0]) == (1, "ERROR")
    passed = client("verdict", ".", "--gate", "duplicated_lines_density>99.99", "--min", "1000")
    assert (passed.returncode, passed.stdout) == (0, "OK\n")
    assert client("verdict", "nowhere", *GATE).returncode == 2
    assert client("verdict", ".", "--gate", "lines").returncode == 3
    assert client("verdict", ".").returncode == 2
    assert client("verdict").returncode == 3
    assert client().returncode == 3
    assert client("groups", ".", "--fail-on", "any-duplicate").returncode == 1
    assert client("groups", ".").returncode == 0


def test_a_restarted_server_does_not_turn_a_build_green(client: Client, tmp_path: Path, listening: Listening) -> None:
    duplicates(tmp_path)
    words = ("verdict", ".", "--project", "p", "--addr", listening.addr)
    assert client(*words).returncode == 2
    assert client(*words, *GATE).returncode == 1
    assert client(*words).returncode == 1
    listening.kill()
    listening.start()
    assert client(*words).returncode == 1
    (tmp_path / ".cqd-state.json").unlink()
    ran = client(*words)
    assert ran.returncode == 2 and "no gate is known" in ran.stderr


def test_a_project_that_a_restart_has_lost_is_not_judged_as_it_is(client: Client, tmp_path: Path, listening: Listening) -> None:
    duplicates(tmp_path)
    words = ("--project", "p", "--addr", listening.addr)
    assert client("verdict", ".", *words, *GATE).returncode == 1
    assert client("verdict", *words).returncode == 1
    listening.kill()
    listening.start()
    (tmp_path / "other.c").write_text("int other;\n")
    assert client("put", "other.c", *words, "--state", "other").returncode == 0
    ran = client("verdict", *words)
    assert ran.returncode == 2 and "started again" in ran.stderr
    assert client("verdict", ".", *words).returncode == 1
    assert client("verdict", *words).returncode == 1


def test_a_gate_that_another_client_set_does_not_judge_this_call(client: Client, tmp_path: Path, listening: Listening) -> None:
    duplicates(tmp_path)
    words = ("verdict", ".", "--project", "p", "--addr", listening.addr)
    assert client(*words, *GATE).returncode == 1
    assert client(*words, "--gate", "lines>100000", "--state", "other").returncode == 0
    assert client(*words).returncode == 1


def test_files_that_are_left_out_make_a_verdict_unknown(client: Client, tmp_path: Path) -> None:
    (tmp_path / "a.c").write_text("int a;\n")
    (tmp_path / "b.c").write_bytes(b"int b = '\xe4';\n")
    ran = client("verdict", ".", "--gate", "lines>100")
    assert ran.returncode == 2 and "UNKNOWN" in ran.stdout and "b.c: left out: it is not UTF-8 at byte 9" in ran.stderr
    assert client("verdict", ".", "--gate", "lines>100", "--encoding", "latin-1").returncode == 0
    for name in ("junit", "markdown", "text"):
        out = client("verdict", ".", "--gate", "lines>100", "--format", name).stdout
        assert "passed" not in out and 'errors="0" failures="0"' not in out, out
    said = json.loads(client("verdict", ".", "--gate", "lines>100", "--json").stdout)
    assert said["verdict"] == "UNKNOWN" and said["left_out"][0]["path"] == "b.c"


def test_a_file_that_its_language_cannot_read(client: Client, tmp_path: Path) -> None:
    (tmp_path / "A.java").write_text("class A {\nString s = \"open;\n}\n")
    ran = client("verdict", ".", "--gate", "lines>100")
    assert ran.returncode == 0 and "A.java:2: byte" in ran.stderr
    ran = client("verdict", ".", "--gate", "lines>100", "--fail-on", "fault")
    assert ran.returncode == 1 and ran.stdout.startswith("ERROR")
    said = json.loads(client("verdict", ".", "--gate", "lines>100", "--fail-on", "fault", "--json").stdout)
    assert said["verdict"] == "ERROR" and [condition["failed"] for condition in said["conditions"]] == [False, True]


def test_names_that_are_wrong_pass_no_gate(client: Client, tmp_path: Path, listening: Listening) -> None:
    duplicates(tmp_path)
    for words in (("verdict", ".", *GATE, "--scope", "nothing/**"), ("measures", ".", "--path", "nothing.c")):
        assert client(*words).returncode == 2
    assert client("verdict", *GATE, "--project", "absent", "--addr", listening.addr).returncode == 2


def test_new_judges_what_was_uploaded_since_the_last_verdict_that_passed(client: Client, tmp_path: Path, listening: Listening) -> None:
    words = ("verdict", ".", "--new", "--project", "p", "--addr", listening.addr, "--gate", "duplicated_blocks>1")
    (tmp_path / "a.c").write_text(lines_of("a"))
    assert client(*words).returncode == 0
    (tmp_path / "b.c").write_text(lines_of("b"))
    assert client(*words).returncode == 0
    (tmp_path / "c.c").write_text(lines_of("c") + lines_of("d"))
    assert client(*words).returncode == 1
    assert client(*words).returncode == 1
    (tmp_path / "c.c").unlink()
    assert client(*words).returncode == 0
    # the same scope, written in two ways
    assert "no verdict before" in client(*words[:-1], "lines>1000", "--scope", "*.c").stderr
    assert "no verdict before" not in client(*words[:-1], "lines>1000", "--scope", "**/*.c").stderr


def test_no_files_since_a_change_that_the_server_has_not_had(client: Client, tmp_path: Path, listening: Listening) -> None:
    duplicates(tmp_path)
    words = ("verdict", ".", *GATE, "--project", "p", "--addr", listening.addr)
    assert client(*words, "--since", "1").returncode == 1
    ran = client(*words, "--since", "500")
    assert ran.returncode == 2 and "--since 500" in ran.stderr


def test_a_gate_that_a_configuration_has_and_one_file(client: Client, tmp_path: Path) -> None:
    duplicates(tmp_path)
    (tmp_path / ".cqd.toml").write_text("gate = 'lines>0'\n")
    assert client("groups", ".").returncode == 1
    assert client("groups", ".", "--path", "a.c").returncode == 0
    assert client("groups", ".", "--path", "a.c", "--gate", "lines>0").returncode == 3
    assert client("measures", ".", "--path", "a.c").returncode == 0
    assert client("report", "out.html", ".", "--min", "50").returncode == 1
