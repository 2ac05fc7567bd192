"""The command as a process: its output streams, signals, and arguments that don't go together."""
from __future__ import annotations

import os
import signal
import subprocess
import sys
import time
from pathlib import Path
from typing import Callable

import pytest

from cqd_client import command, options, outputs
from cqd_client.faults import MISUSED
from conftest import FAILING, HANG_SECONDS, Client


def test_every_command_has_help(capsys: pytest.CaptureFixture[str]) -> None:
    for words in (["--help"], ["--version"], *([name, "--help"] for name in options.COMMANDS)):
        with pytest.raises(SystemExit) as ended:
            command.main(words)
        assert ended.value.code == 0
    assert "exit status" in capsys.readouterr().out


@pytest.mark.parametrize("words", [
    [], ["nothing"], ["groups"], ["put"], ["put", ""], ["groups", ".", "--addr", "a:1"], ["groups", ".", "--addr", "a"], ["groups", ".", "--addr", "a:0"],
    ["groups", ".", "--project", "a/b"], ["groups", ".", "--top", "0"], ["groups", ".", "--min", "0"], ["groups", ".", "--timeout", "nan"],
    ["groups", ".", "--workers", "65"], ["groups", ".", "--format", "html"], ["groups", ".", "--format", "csv", "--json"],
    ["groups", ".", "--output", "a", "--output", "b"], ["groups", ".", "--format", "csv", "--format", "cpd"],
    ["groups", ".", "--page", "a", "--output", "a"], ["report", "a", ".", "--output", "a"],
    ["groups", ".", "--format", "csv", "--output", "a", "--format", "cpd", "--output", "a"], ["groups", ".", "--min", "5", "--chunk", "6"],
    ["groups", ".", "--project", "p", "--addr", "a:1", "--chunk", "5"], ["groups", ".", "--project", "p", "--addr", "a:1", "--local"],
    ["measures", ".", "--scope", "a//b"], ["measures", ".", "--scope", "a", "--path", "b"], ["measures", ".", "--since", "3"],
    ["verdict", ".", "--new"], ["verdict", ".", "--gate", "x>1"], ["verdict", ".", "--fail-on", "x"], ["groups", ".", "--state", "s"],
    ["groups", ".", "--tls"], ["groups", ".", "--project", "p", "--addr", "a:1", "--tls-ca", "x"], ["status"], ["remove"], ["report"],
    ["check"], ["check", "--base", "x", "--gate", "complexity>1"], ["groups", ".", "--exclude", "../x"], ["groups", ".", "--config", "none"],
    ["groups", ".", "--nonsense"], ["groups", ".", "--min", "5", ""], ["status", "more", "--addr", "a:1"], ["remove", "--addr", "a:1"],
    ["groups", ".", "--encoding", "none"], ["groups", ".", "--encoding", "undefined"], ["groups", ".", "--encoding", "\udcff"],
    ["groups", ".", "--project", "p", "--addr", "\udcff:1"], ["groups", ".", "--project", "p", "--addr", "a\nb:1"],
])
def test_wrong_arguments(words: list[str], monkeypatch: pytest.MonkeyPatch, tmp_path: Path, capsys: pytest.CaptureFixture[str]) -> None:
    monkeypatch.chdir(tmp_path)
    monkeypatch.delenv("CQD_ADDR", raising=False)
    try:
        status = command.main(words)
    except SystemExit as ended:
        status = ended.code  # type: ignore[assignment]
    said = capsys.readouterr()
    assert (status, said.out) == (MISUSED, "")
    assert len(said.err.splitlines()) == 1 and said.err.startswith("cqd-client")


def test_paths_may_come_after_options(failing: Callable[[str], Client], tmp_path: Path) -> None:
    (tmp_path / "a.c").write_text("int a;\n")
    (tmp_path / "b.c").write_text("int b;\n")
    for words in (("put", "a.c", "--workers", "1", "b.c"), ("put", "--workers", "1", "a.c", "b.c"), ("put", "a.c", "b.c", "--workers", "1")):
        assert failing("does not")(*words).stdout == "2 uploaded, 0 unchanged, 0 dropped, 0 left out\n"
    ran = failing("does not")("put", "a.c", "--workers", "1", "b.c", "--nonsense")
    assert (ran.returncode, ran.stderr) == (3, "cqd-client put: unrecognized arguments: b.c --nonsense; cqd-client put --help describes the "
                                               "arguments\n")


def test_a_folder_that_is_gone(failing: Callable[[str], Client], tmp_path: Path) -> None:
    client = failing("does not")
    ran = subprocess.run(["sh", "-c", 'mkdir gone && cd gone && rmdir ../gone && exec "$0" -m cqd_client groups .', sys.executable], cwd=tmp_path,
                         capture_output=True, env=client.environment, check=False)
    assert (ran.returncode, ran.stdout) == (2, b"")
    assert ran.stderr == b"cqd-client: the current folder can't be used: No such file or directory\n"


@pytest.mark.parametrize("words", [["--help"], ["--version"], ["groups", "--help"], ["groups", "a.c"], ["put", "a.c"],
                                   ["verdict", "a.c", "--gate", "lines>100"]])
def test_a_standard_output_that_is_full_or_closed(failing: Callable[[str], Client], tmp_path: Path, words: list[str]) -> None:
    (tmp_path / "a.c").write_text("int a;\n")
    reading, writing = os.pipe()
    os.close(reading)
    for out, said in ((os.open("/dev/full", os.O_WRONLY), b"cqd-client: standard output can't be written: No space left on device\n"),
                      (writing, b"")):
        ran = subprocess.run([sys.executable, "-m", "cqd_client", *words], cwd=tmp_path, stdout=out, stderr=subprocess.PIPE,
                             env=failing("does not").environment, check=False)
        os.close(out)
        assert (ran.returncode, ran.stderr) == (2, said)


def test_outputs_that_cannot_be_written(client: Client, tmp_path: Path) -> None:
    (tmp_path / "a.c").write_text("int a;\n")
    ran = client("verdict", ".", "--gate", "lines>9", "--output", "no/folder")
    assert ran.returncode == 2 and "no/folder can't be written" in ran.stderr
    ran = client("verdict", ".", "--gate", "lines>9", "--output", "/dev/full")
    assert (ran.returncode, ran.stderr) == (2, "cqd-client: /dev/full can't be written: No space left on device\n")


def test_a_source_file_is_not_overwritten(client: Client, tmp_path: Path) -> None:
    (tmp_path / "a.c").write_text("int a;\n")
    assert client("groups", "a.c", "--output", "a.c").returncode == 2
    assert (tmp_path / "a.c").read_text() == "int a;\n"


def test_an_output_that_fails_leaves_what_stood_there(client: Client, tmp_path: Path) -> None:
    (tmp_path / "a.c").write_text("int a;\n")
    (tmp_path / "out").write_text("before")
    assert client("groups", "a.c", "--path", "b.c", "--output", "out").returncode == 2
    assert (tmp_path / "out").read_text() == "before"
    assert sorted(os.listdir(tmp_path)) == ["a.c", "out"]


def test_an_output_that_is_a_link_is_written_where_it_leads(failing: Callable[[str], Client], tmp_path: Path) -> None:
    (tmp_path / "a.c").write_text("int a;\n")
    (tmp_path / "there").mkdir()
    (tmp_path / "out").symlink_to("there/out")
    for _ in range(2):
        assert failing("does not")("groups", "a.c", "--output", "out").returncode == 0
        assert (tmp_path / "out").is_symlink() and (tmp_path / "there" / "out").read_text() == "no duplicates\n"
        assert os.listdir(tmp_path / "there") == ["out"]


@pytest.mark.parametrize("name", ["/dev/stdout", "/dev/fd/1", "/proc/self/fd/1"])
def test_standard_output_by_its_name_is_not_replaced(failing: Callable[[str], Client], tmp_path: Path, name: str) -> None:
    # else the command would replace /dev/stdout of the machine
    assert outputs.descriptor_of(Path(name)) == 1
    (tmp_path / "a.c").write_text("int a;\n")
    before = os.lstat(name)
    with open(tmp_path / "out", "w", encoding="utf-8") as out:
        ran = subprocess.run([sys.executable, "-m", "cqd_client", "groups", "a.c", "--format", "json", "--output", name, "--format", "text"],
                             cwd=tmp_path, stdout=out, stderr=subprocess.PIPE, env=failing("does not").environment, check=False)
    assert (ran.returncode, ran.stderr) == (0, b"")
    assert (tmp_path / "out").read_text().splitlines() == ['{"groups": [], "ok": true, "total": 0, "version": 3}', "no duplicates"]
    assert name.startswith("/proc") or os.path.samestat(os.lstat(name), before)


def test_standard_error_that_nobody_reads_changes_no_status(failing: Callable[[str], Client], tmp_path: Path) -> None:
    (tmp_path / "a.c").write_text("int a;\n")
    for words, status in ((["a.c", "--any", "*.none"], 0), (["none.c"], 2)):
        reading, writing = os.pipe()
        os.close(reading)
        ran = subprocess.run([sys.executable, "-m", "cqd_client", "groups", *words], cwd=tmp_path, stdout=subprocess.PIPE, stderr=writing,
                             env=failing("does not").environment, check=False)
        os.close(writing)
        assert ran.returncode == status
        assert ran.stdout == (b"" if status else b"no duplicates\n")


def test_a_list_on_a_standard_input_that_is_closed(failing: Callable[[str], Client], tmp_path: Path) -> None:
    ran = subprocess.run(["sh", "-c", 'exec "$0" -m cqd_client groups --files-from - <&-', sys.executable], cwd=tmp_path, capture_output=True,
                         env=failing("does not").environment, check=False)
    assert (ran.returncode, ran.stdout) == (2, b"")
    assert ran.stderr == b"cqd-client: --files-from -: standard input is closed\n"


def test_signals_end_the_call_and_its_server(failing: Callable[[str], Client], tmp_path: Path) -> None:
    # a script's shell lets what it starts in the background ignore SIGINT, and so would the client
    signal.signal(signal.SIGINT, signal.default_int_handler)
    (tmp_path / "a.c").write_text("int a;\n")
    client = failing("is silent")
    for number in (signal.SIGTERM, signal.SIGINT):
        started = client.start("groups", ".")
        children = Path(f"/proc/{started.pid}/task/{started.pid}/children")
        while not any(FAILING.name in Path(f"/proc/{child}/cmdline").read_text() for child in children.read_text().split()):
            time.sleep(0.1)
        started.send_signal(number)
        out, err = started.communicate(timeout=HANG_SECONDS)
        assert (started.returncode, out) == (2, b"") and b"interrupted" in err and b"Traceback" not in err


def checkout(folder: Path, launcher: str) -> Client:
    """The command in a folder beside a checkout with such a launcher, which keeps a line of each call."""
    (folder / "work").mkdir()
    (folder / "work" / "a.c").write_text("int a;\n")
    (folder / "crates.txt").write_text("cqd:\n")
    (folder / "cqd").write_text(f'#!/bin/sh\necho "$*" >>"{folder}/calls"\n{launcher}')
    (folder / "cqd").chmod(0o755)
    return Client(folder / "work", str(folder / "cqd"))


def test_a_program_that_cannot_be_built_is_told_at_once(tmp_path: Path) -> None:
    client = checkout(tmp_path, 'echo "cqd: not built; the whole log is out/build.log" >&2\nexit 70\n')
    ran = client("groups", ".")
    assert (ran.returncode, ran.stdout) == (2, "")
    assert ran.stderr.splitlines() == ["cqd: not built; the whole log is out/build.log",
                                       f"cqd-client: {tmp_path}/cqd ended with status 70 (the program could not be built)"]
    assert (tmp_path / "calls").read_text() == "run\n"


def test_a_program_is_built_before_it_is_started(tmp_path: Path) -> None:
    client = checkout(tmp_path, f'FAILS="does not" exec "{FAILING}"\n')
    assert client("groups", ".").stdout == "no duplicates\n"
    assert [line.split()[:2] for line in (tmp_path / "calls").read_text().splitlines()][:2] == [["run"], ["run", "--chunk"]]


def test_an_interrupted_call_ends_the_build(tmp_path: Path) -> None:
    signal.signal(signal.SIGINT, signal.default_int_handler)
    client = checkout(tmp_path, "trap 'echo ended >>calls; kill $!; exit 143' TERM\nsleep 1000 &\nwait\n")
    client.folder = tmp_path
    for number in (signal.SIGTERM, signal.SIGINT):
        (tmp_path / "calls").write_text("")
        started = client.start("groups", "work")
        while not (tmp_path / "calls").read_text():
            time.sleep(0.1)
        started.send_signal(number)
        out, err = started.communicate(timeout=HANG_SECONDS)
        assert (started.returncode, out, err) == (2, b"", b"cqd-client: interrupted\n")
        assert (tmp_path / "calls").read_text() == "run\nended\n"


@pytest.mark.parametrize("by_rt, by_launcher, is_current, found", [
    (False, False, False, ""), (False, True, False, ""), (False, True, True, "out/cqd"), (True, False, False, "crates/cqd/out/cqd"),
    (True, True, True, "crates/cqd/out/cqd"),
])
def test_which_program_the_tests_are_run_against(tmp_path: Path, by_rt: bool, by_launcher: bool, is_current: bool, found: str) -> None:
    tests = tmp_path / "client" / "tests"
    tests.mkdir(parents=True)
    (tests / "run").write_bytes(Path(__file__).with_name("run").read_bytes())
    (tests / "test_one.py").write_text("import os\ndef test(): print('against', os.environ['CQD'])\n")
    for name, is_there, text in (("crates/cqd/out/cqd", by_rt, ""), ("out/cqd", by_launcher, ""),
                                 ("build", True, f'[ "$*" = --current ] && exit {int(not is_current)}\n')):
        if is_there:
            (tmp_path / name).parent.mkdir(parents=True, exist_ok=True)
            (tmp_path / name).write_text("#!/bin/sh\n" + text)
            (tmp_path / name).chmod(0o755)
    environment = {name: value for name, value in os.environ.items() if name != "CQD"}
    ran = subprocess.run(["sh", tests / "run", "-s", "-p", "no:cacheprovider"], capture_output=True, env=environment, check=True, text=True)
    assert f"against {tmp_path}/{found}\n" in ran.stdout if found else ran.stdout == "client: tests skipped; missing: out/cqd (./cqd builds it)\n"
