"""Lines over a connected socket, each within a time limit; and how a socket is had: over TCP, over TLS, or to a program of one's own."""
from __future__ import annotations

import contextlib
import hashlib
import os
import socket
import ssl
import subprocess
import time
from collections.abc import Iterable
from dataclasses import dataclass
from pathlib import Path
from typing import NamedTuple, Optional

from .faults import Fault, Lost

CONNECT_SECONDS = 10.0
RECEIVED_AT_ONCE = 1 << 20
# A reply that is longer than this is none of cqd.
LONGEST_REPLY = 1 << 30
END_SECONDS = 10.0


class Address(NamedTuple):
    host: str
    port: int

    def __str__(self) -> str:
        return f"[{self.host}]:{self.port}" if ":" in self.host else f"{self.host}:{self.port}"


@dataclass(frozen=True)
class Tls:
    """What proves the server to the client and, with a certificate, the client to the server."""
    authority: Optional[Path] = None
    certificate: Optional[Path] = None
    key: Optional[Path] = None

    def context(self) -> ssl.SSLContext:
        """Reads the files. A fault names the one that can't be used."""
        try:
            context = ssl.create_default_context(cafile=str(self.authority) if self.authority else None)
        except (OSError, ssl.SSLError) as error:
            raise Fault(f"--tls-ca {self.authority} can't be used: {error}") from error
        if self.certificate:
            try:
                context.load_cert_chain(self.certificate, self.key)
            except (OSError, ssl.SSLError) as error:
                raise Fault(f"--tls-cert {self.certificate} can't be used: {error}") from error
        return context


def owner(addresses: Iterable[Address], project: str) -> Address:
    """The server of a project, by rendezvous hashing: one more server takes over its share of the projects, and no other moves."""
    return max(sorted(addresses), key=lambda address: hashlib.sha256(f"{address} {project}".encode()).digest())


class Link:
    """One connection. A send or a receive that takes more than `timeout` seconds is a fault."""

    def __init__(self, connection: socket.socket, timeout: float) -> None:
        self.connection = connection
        self.timeout = timeout
        self.received = bytearray()

    def send(self, line: bytes) -> None:
        try:
            self.connection.settimeout(self.timeout)
            self.connection.sendall(line)
        except socket.timeout as error:
            raise Fault(f"the server has not read a request for {self.timeout:g} seconds; --timeout sets the limit") from error
        except OSError as error:
            raise Lost("the connection ended before the server had read all requests") from error

    def receive(self) -> bytes:
        """The next line, without its line feed."""
        limit = time.monotonic() + self.timeout
        looked_at = 0
        while True:
            end = self.received.find(b"\n", looked_at)
            if end >= 0:
                line = bytes(self.received[:end])
                del self.received[:end + 1]
                return line
            looked_at = len(self.received)
            if looked_at > LONGEST_REPLY:
                raise Fault(f"the server's reply has more than {LONGEST_REPLY:,} bytes")
            self.received += self.more(limit - time.monotonic())

    def more(self, seconds: float) -> bytes:
        try:
            self.connection.settimeout(max(seconds, 0.001))
            more = self.connection.recv(RECEIVED_AT_ONCE)
        except socket.timeout as error:
            raise Fault(f"the server has sent no reply for {self.timeout:g} seconds; --timeout sets the limit") from error
        except OSError as error:
            raise Lost(f"the connection ended before the server's reply ({error.strerror or error})") from error
        if not more:
            raise Lost("the connection ended " + ("in the middle of a reply" if self.received else "before the server's reply"))
        return more

    def end(self) -> None:
        """Closes the sending side, and waits for the other end to close its own."""
        try:
            self.connection.settimeout(self.timeout)
            self.connection.shutdown(socket.SHUT_WR)
            if self.received or self.connection.recv(1):
                raise Fault("the server sent more replies than there were requests")
        except socket.timeout as error:
            raise Fault(f"the server has not ended within {self.timeout:g} seconds after the last reply") from error
        except OSError as error:
            raise Lost("the connection ended before its time") from error

    def close(self) -> None:
        with contextlib.suppress(OSError):
            self.connection.close()


def connected(address: Address, context: Optional[ssl.SSLContext], timeout: float) -> Link:
    """A link to a running server."""
    limit = min(timeout, CONNECT_SECONDS)
    try:
        connection = socket.create_connection(address, timeout=limit)
        connection.setsockopt(socket.IPPROTO_TCP, socket.TCP_NODELAY, 1)
        connection.setsockopt(socket.SOL_SOCKET, socket.SO_KEEPALIVE, 1)
    except (OSError, UnicodeError) as error:
        raise Lost(f"{address} can't be reached: {error}") from error
    if context:
        try:
            connection = context.wrap_socket(connection, server_hostname=address.host)
        except ssl.SSLCertVerificationError as error:
            connection.close()
            raise Fault(f"{address} is not trusted: {error.verify_message}; --tls-ca names the authority that signed its certificate"
                        ) from error
        except (OSError, ValueError) as error:
            connection.close()
            # a proxy that is being restarted may end a handshake: that is worth another try
            is_lost = isinstance(error, (ConnectionError, ssl.SSLEOFError, ssl.SSLZeroReturnError, socket.timeout))
            raise (Lost if is_lost else Fault)(f"{address} can't be spoken to over TLS: {error}") from error
    return Link(connection, timeout)


def start(program: str, arguments: list[str], stdin: int, stdout: int) -> subprocess.Popen[bytes]:
    try:
        return subprocess.Popen([program, *arguments], stdin=stdin, stdout=stdout)  # pylint: disable=R1732
    except OSError as error:
        raise Fault(f"{program} can't be started: {error.strerror}; --cqd names the program") from error


def cause(status: int) -> str:
    """How a program ended that has this exit status."""
    if status < 0:
        return f"by signal {-status}" + (", perhaps since memory was short" if status == -9 else "")
    meanings = {1: "its arguments are wrong", 4: "out of memory", 70: "the program could not be built"}
    return f"with status {status}" + (f" ({meanings[status]})" if status in meanings else "")


def build(program: str) -> None:
    """Lets the launcher of a checkout build the program before it is started: that takes longer than any reply may. The launcher says
    on standard error how far it is, and why it can't. If this call is ended meanwhile, so is the build."""
    if not (Path(program).parent / "crates.txt").exists():
        return
    launcher = start(program, ["run"], subprocess.DEVNULL, subprocess.DEVNULL)
    try:
        status = launcher.wait()
    except KeyboardInterrupt:
        launcher.terminate()
        with contextlib.suppress(subprocess.TimeoutExpired):
            launcher.wait(END_SECONDS)
        raise
    if status != 0:
        raise Fault(f"{program} ended {cause(status)}")


class Program:
    """A server that the call starts: a process at the other end of a pair of sockets. It keeps to its time, or is killed."""

    def __init__(self, program: str, arguments: list[str], timeout: float) -> None:
        ours, its = socket.socketpair()
        self.name = program
        self.link = Link(ours, timeout)
        with its:
            try:
                self.process = start(program, ["run", *arguments], its.fileno(), its.fileno())
            except Fault:
                ours.close()
                raise

    def end(self) -> None:
        """Ends it as its protocol has it. Its replies hold only if it then exits with 0."""
        self.link.end()
        try:
            status = self.process.wait(END_SECONDS)
        except subprocess.TimeoutExpired as error:
            raise Fault(f"{self.name} has not ended after its last reply") from error
        if status != 0:
            raise Fault(f"{self.name} ended {cause(status)}")

    def ended(self) -> str:
        """How it ended, after the link was lost."""
        try:
            return f"{self.name} ended {cause(self.process.wait(END_SECONDS))}"
        except subprocess.TimeoutExpired:
            return f"{self.name} closed its output"

    def close(self) -> None:
        self.link.close()
        self.process.kill()
        self.process.wait()


def found_program(named: Optional[str]) -> str:
    """The program to start: the one that is named, that CQD names, `cqd` on PATH, or the one of the checkout this package is in."""
    if named or os.environ.get("CQD"):
        return named or os.environ["CQD"]
    for folder in os.get_exec_path():
        if folder and os.access(os.path.join(folder, "cqd"), os.X_OK) and os.path.isfile(os.path.join(folder, "cqd")):
            return os.path.join(folder, "cqd")
    checkout = Path(__file__).resolve().parents[3]
    for program in (checkout / "crates" / "cqd" / "out" / "cqd", checkout / "cqd"):
        if os.access(program, os.X_OK) and program.is_file():
            return str(program)
    raise Fault("there is no cqd on PATH: install it, or name it with --cqd or the variable CQD")
