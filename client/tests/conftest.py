"""What the tests share: the program, servers that fail, git repositories, and the command as a process of its own."""
from __future__ import annotations

import os
import re
import socket
import subprocess
import sys
import tempfile
import time
from collections.abc import Iterator
from pathlib import Path
from typing import Any, Callable

import pytest

CLIENT = Path(__file__).resolve().parents[1]
BUILT = CLIENT.parent / "crates" / "cqd" / "out" / "cqd"
COMPILED = tempfile.TemporaryDirectory()
FAILING = Path(__file__).with_name("failing_server.py")
# A call that takes longer hangs. It is less than the client's own time limit, but minutes, which a call may need beside proofs.
HANG_SECONDS = 500


@pytest.fixture(scope="session")
def program() -> str:
    """The program that CQD names, else the one that this checkout built."""
    named = os.environ.get("CQD") or (str(BUILT) if BUILT.exists() else "")
    if not named:
        pytest.skip("there is no cqd: set CQD, or build it")
    return named


class Client:
    """Runs the command in a folder."""

    def __init__(self, folder: Path, program: str) -> None:
        self.folder = folder
        self.environment = {name: value for name, value in os.environ.items() if not name.startswith(("CQD", "GIT"))}
        # compiled once for all tests, and not beside the sources
        self.environment.pop("PYTHONDONTWRITEBYTECODE", None)
        self.environment |= {"CQD": program, "PYTHONPATH": str(CLIENT / "src"), "PYTHONPYCACHEPREFIX": COMPILED.name,
                             "GIT_CONFIG_GLOBAL": os.devnull, "GIT_CONFIG_SYSTEM": os.devnull}

    def __call__(self, *words: str, stdin: bytes = b"", **environment: str) -> subprocess.CompletedProcess[str]:
        ran = subprocess.run([sys.executable, "-m", "cqd_client", *words], cwd=self.folder, input=stdin, capture_output=True,
                             timeout=HANG_SECONDS, env={**self.environment, **environment}, check=False)
        out, err = ran.stdout.decode("utf-8"), ran.stderr.decode("utf-8")
        assert "Traceback" not in err, err
        # whatever else happens, a log reader who sees OK sees a call that passed
        assert not re.search(r"\bOK\b", out) or ran.returncode == 0, out
        return subprocess.CompletedProcess(ran.args, ran.returncode, out, err)

    def start(self, *words: str) -> subprocess.Popen[bytes]:
        return subprocess.Popen([sys.executable, "-m", "cqd_client", *words], cwd=self.folder, stdout=subprocess.PIPE,
                                stderr=subprocess.PIPE, env=self.environment)


@pytest.fixture
def client(tmp_path: Path, program: str) -> Client:
    return Client(tmp_path, program)


@pytest.fixture
def failing(tmp_path: Path) -> Callable[[str], Client]:
    """The command with a server that fails in a way that has a name."""
    def made(mode: str) -> Client:
        one = Client(tmp_path, str(FAILING))
        one.environment["FAILS"] = mode
        return one
    return made


def lines_of(name: str, count: int = 14, factor: int = 1) -> str:
    """A function of C. Two of the same count and factor have equal tokens but for their names."""
    body = "".join(f"    total = total + price[{i * factor}] * amount[{i}] - discount({i}, total);\n" for i in range(count))
    return f"int {name}(int *price, int *amount) {{\n    int total = 0;\n{body}    return total;\n}}\n"


class Repository:
    """A git repository that a test makes."""

    def __init__(self, folder: Path) -> None:
        self.folder = folder
        folder.mkdir(parents=True, exist_ok=True)
        self.git("init", "-q", "-b", "main")

    def git(self, *words: str) -> str:
        environment = {name: value for name, value in os.environ.items() if not name.startswith("GIT")}
        environment |= {"GIT_CONFIG_GLOBAL": os.devnull, "GIT_CONFIG_SYSTEM": os.devnull, "GIT_AUTHOR_NAME": "a", "GIT_AUTHOR_EMAIL": "a@b",
                        "GIT_COMMITTER_NAME": "a", "GIT_COMMITTER_EMAIL": "a@b"}
        return subprocess.run(["git", "-C", str(self.folder), *words], check=True, capture_output=True, env=environment).stdout.decode()

    def write(self, path: str, text: str | bytes) -> None:
        file = self.folder / path
        file.parent.mkdir(parents=True, exist_ok=True)
        file.write_bytes(text if isinstance(text, bytes) else text.encode())

    def commit(self, **files: Any) -> None:
        self.git("add", "-A")
        self.git("commit", "-q", "--allow-empty", "-m", "a change")


@pytest.fixture
def repository(tmp_path: Path) -> Repository:
    return Repository(tmp_path)


def free_port() -> int:
    with socket.socket() as taken:
        taken.bind(("127.0.0.1", 0))
        return int(taken.getsockname()[1])


class Listening:
    """A server that lives on, and that a test can kill and start again at the same address."""

    def __init__(self, program: str, *words: str) -> None:
        self.program, self.words = program, words
        self.port = free_port()
        self.addr = f"127.0.0.1:{self.port}"
        self.process: subprocess.Popen[bytes] | None = None
        self.start()

    def launched(self) -> subprocess.Popen[bytes]:
        return subprocess.Popen([self.program, "listen", self.addr, *self.words])

    def start(self) -> None:
        self.process = self.launched()
        limit = time.monotonic() + HANG_SECONDS
        while time.monotonic() < limit and self.process.poll() is None:
            with socket.socket() as tried:
                if tried.connect_ex(("127.0.0.1", self.port)) == 0:
                    return
            time.sleep(0.05)
        raise AssertionError("the server does not listen")

    def kill(self) -> None:
        if self.process:
            self.process.kill()
            self.process.wait()


@pytest.fixture
def listening(program: str) -> Iterator[Listening]:
    server = Listening(program)
    yield server
    server.kill()


class Serving(Listening):
    """The same for a server that keeps a log."""

    def __init__(self, program: str, log: Path, *words: str) -> None:
        self.log, self.onto = log, log
        log.touch()
        super().__init__(program, *words)

    def launched(self) -> subprocess.Popen[bytes]:
        with self.log.open("rb") as read, self.onto.open("ab") as written:
            return subprocess.Popen([self.program, "serve", self.addr, *self.words], stdin=read, stdout=written)

    def replies(self, sent: bytes) -> list[bytes]:
        """What a connection that sends these bytes gets, up to its end."""
        with socket.create_connection(("127.0.0.1", self.port), HANG_SECONDS) as one:
            one.sendall(sent)
            one.shutdown(socket.SHUT_WR)
            return one.makefile("rb").readlines()


@pytest.fixture
def serving(tmp_path: Path, program: str) -> Iterator[Serving]:
    server = Serving(program, tmp_path / "kept.log")
    yield server
    server.kill()
