"""The server, as a client speaks to it: one request a line, one reply a line, in order. docs/PROTOCOL.md describes both."""
from __future__ import annotations

import collections
import contextlib
import itertools
import json
import time
import uuid
from collections.abc import Iterable, Iterator
from typing import Any, Callable, NamedTuple, Optional

from .faults import Fault, Lost, Restarted
from .findings import member
from .link import Address, Link, Program, Tls, build, connected

# So many requests are under way at a time, and so many bytes. Either they or their replies are short, so that the short ones
# fit in what a connection holds (more than 250 of them, each sent on its own), and neither end waits for the other.
AHEAD = 128
BYTES_AHEAD = 4 << 20
# How often in a call a request is sent again that the server had no memory for, or whose analysis wasn't finished.
PAUSES = 50
PAUSE_SECONDS = 0.2
# After how many seconds a lost connection is made again, each time that it is lost.
RECONNECTS = (0.1, 0.5, 1.0, 2.0, 4.0)

# A project of this client's own on each server. It has one file, whose path names the life of the server: after a restart it is
# gone, and what was kept of changes by their numbers means nothing any more.
EPOCHS = "cqd-client"

Request = dict[str, Any]

# A server that holds as much as it may forgets what was replaced or dropped when it has answered a query. So if it has no room for a
# change, it is asked one, whose answer is not looked at, and the change is sent once more.
FULL = ("full-changes", "full-text")
ROOM: Request = {"op": "files", "project": EPOCHS}

REFUSALS = {
    "absent": "the project has no such file",
    "full-changes": "the server holds as many files and gates as it may (its --change-limit)",
    "full-text": "the server holds as much source text as it may (its --text-limit)",
    "lang": "the server does not know this language",
    "long": "the request has more bytes than the server takes",
    "memory": "the server is out of memory",
    "min": "--min is below the server's --chunk or above 100,000",
    "path": "the server does not take this path",
    "pending": "the server has not finished the analysis",
    "scope": "--scope is no pattern that the server takes",
    "text": "the file has more bytes than the server takes",
}


class Reply(NamedTuple):
    line: bytes
    members: dict[str, Any]

    @property
    def is_ok(self) -> bool:
        return bool(self.members["ok"])

    @property
    def error(self) -> str:
        """The refusal's name, empty if the request was fulfilled."""
        return "" if self.is_ok else str(self.members.get("error"))

    def refusal(self) -> str:
        return REFUSALS.get(self.error, f"the server refuses it as {self.error!r}")


def reply_of(line: bytes) -> Reply:
    try:
        members = json.loads(line.decode("utf-8"))
    except (ValueError, RecursionError):
        members = None
    if not isinstance(members, dict) or not isinstance(members.get("ok"), bool):
        raise Fault(f"this is no reply of cqd: {line[:80]!r}")
    return Reply(line, members)


ENCODER = json.JSONEncoder(ensure_ascii=False)
# The bytes of a text that JSON has as they are, and those that have an escape of their own.
PLAIN = bytes(byte for byte in range(256) if byte >= 32 or byte in b"\t\n\r")
ESCAPES = ((b"\\", b"\\\\"), (b'"', b'\\"'), (b"\n", b"\\n"), (b"\t", b"\\t"), (b"\r", b"\\r"))


def line_of(request: Request) -> bytes:
    if "text" not in request:
        return ENCODER.encode(request).encode("utf-8") + b"\n"
    head = ENCODER.encode({name: value for name, value in request.items() if name != "text"})
    return head[:-1].encode("utf-8") + b', "text": ' + encoded(request["text"]) + b"}\n"


def encoded(text: str) -> bytes:
    """A text as JSON. The encoder of Python's library looks at each character, and takes three times as long for a usual source."""
    data = text.encode("utf-8")
    if data.translate(None, PLAIN):
        return ENCODER.encode(text).encode("utf-8")
    for character, escape in ESCAPES:
        data = data.replace(character, escape)
    return b'"' + data + b'"'


class Waiting(NamedTuple):
    """A request without a reply, as its line, and whether the server had no room for it before."""
    request: Request
    line: bytes
    is_again: bool = False


class Server:
    """A server that is spoken to over a link. If `reach` is given, a link that is lost is made again, and what wasn't answered is
    asked again: a request that is made twice has the same effect as one."""

    def __init__(self, link: Link, reach: Optional[Callable[[], Link]] = None) -> None:
        self.link = link
        self.reach = reach
        self.pauses = PAUSES
        self.reconnects = list(RECONNECTS)
        # The greatest change or version that the server has reported. One that knows of less has forgotten them.
        self.greatest = 0
        # How often the connection was made again: what two queries said of one version holds together only if it didn't change.
        self.generation = 0
        self.epoch = ""

    def receive(self) -> Reply:
        reply = reply_of(self.link.receive())
        if reply.is_ok:
            numbers = [reply.members.get(name) for name in ("change", "version", "published")]
            self.greatest = max([self.greatest, *(number for number in numbers if isinstance(number, int))])
        return reply

    def ask_each(self, requests: Iterable[Request]) -> Iterator[tuple[Request, Reply]]:
        """Each request with its reply. Several are under way at a time, and in order, but for those that are sent again."""
        source = iter(requests)
        waiting: collections.deque[Waiting] = collections.deque()
        sent = held = 0
        while True:
            # half of them are made at a time, while the server has the other half, and are sent together
            if len(waiting) <= AHEAD // 2:
                while len(waiting) < AHEAD and held < BYTES_AHEAD and (request := next(source, None)) is not None:
                    waiting.append(Waiting(request, line_of(request)))
                    held += len(waiting[-1].line)
            if not waiting:
                return
            sent = self.send_rest(waiting, sent)
            try:
                reply = self.receive()
            except Lost as lost:
                self.reconnect(lost)
                sent = 0
                continue
            one = waiting.popleft()
            sent -= 1
            if reply.error in ("memory", "pending") and self.pauses:
                self.pauses -= 1
                time.sleep(PAUSE_SECONDS)
                waiting.append(one)
            elif reply.error in FULL and not one.is_again:
                if all(other.request is not ROOM for other in waiting):
                    waiting.append(Waiting(ROOM, line_of(ROOM)))
                waiting.append(one._replace(is_again=True))
            elif one.request is not ROOM:
                held -= len(one.line)
                yield one.request, reply

    def send_rest(self, waiting: collections.deque[Waiting], sent: int) -> int:
        """Sends those that wait beyond the first `sent`, and all of them if the connection had to be made again."""
        while sent < len(waiting):
            try:
                self.link.send(b"".join(one.line for one in itertools.islice(waiting, sent, None)))
                sent = len(waiting)
            except Lost as lost:
                self.reconnect(lost)
                sent = 0
        return sent

    def reconnect(self, lost: Lost) -> None:
        """Makes the connection again, and asks whether the server still knows what it reported."""
        if not self.reach:
            raise Fault(str(lost)) from lost
        self.link.close()
        cause = lost
        while self.reconnects:
            time.sleep(self.reconnects.pop(0))
            try:
                self.link = self.reach()
                self.link.send(line_of({"op": "state"}))
                accepted = member(reply_of(self.link.receive()).members, "accepted", int)
            except Lost as again:
                cause = again
                continue
            self.generation += 1
            was, self.epoch = self.epoch, ""
            if accepted < self.greatest or was and self.epoch_known() != was:
                self.greatest = accepted
                raise Restarted("the server was started again during this call, and has lost what was uploaded")
            return
        raise Fault(f"{cause}; {len(RECONNECTS)} connections were tried in this call") from lost

    def ask(self, request: Request) -> Reply:
        return next(reply for _, reply in self.ask_each([request]))

    def answer(self, request: Request) -> Reply:
        """The reply to a request that has to be fulfilled."""
        reply = self.ask(request)
        if not reply.is_ok:
            raise Fault(f"{request['op']} of project {request['project']}: {reply.refusal()}" if "project" in request
                        else f"{request['op']}: {reply.refusal()}")
        return reply

    def epoch_known(self) -> str:
        """The name of this life of the server. If it has none yet, it gets one."""
        if not self.epoch:
            names = self.epochs(finish=False)
            if not names:
                self.answer({"op": "put", "project": EPOCHS, "path": uuid.uuid4().hex, "lang": "any", "text": ""})
                names = self.epochs(finish=True)
            # if two clients were the first at once, the server has two names: the one that it had first counts
            self.epoch = min(names)[1]
        return self.epoch

    def epochs(self, finish: bool) -> list[tuple[int, str]]:
        reply = self.answer({"op": "files", "project": EPOCHS, "finish": finish})
        return [(member(file, "change", int), member(file, "path", str)) for file in member(reply.members, "files", list)]

    def files(self, project: str) -> Reply:
        return self.answer({"op": "files", "project": project, "finish": True})


@contextlib.contextmanager
def started(program: str, arguments: list[str], timeout: float) -> Iterator[Server]:
    """A server that the call starts. What it replied holds only if this ends without a fault."""
    build(program)
    own = Program(program, arguments, timeout)
    try:
        yield Server(own.link)
        own.end()
    except Lost as lost:
        raise Fault(own.ended()) from lost
    except Fault as fault:
        if isinstance(fault.__cause__, Lost):
            raise Fault(own.ended()) from fault
        raise
    finally:
        own.close()


def greeting(project: str) -> Request:
    """What comes first on each connection. A proxy in front of several servers chooses one by the project that the first line names, so
    neither `state` nor the project of the epochs may be there."""
    return {"op": "functions", "project": project, "path": EPOCHS, "finish": False}


@contextlib.contextmanager
def reached(address: Address, tls: Optional[Tls], timeout: float, project: str = "") -> Iterator[Server]:
    """A running server, which stays as it is afterwards. If a project is named, each connection begins with it."""
    context = tls.context() if tls else None

    def reach_again() -> Link:
        link = connected(address, context, timeout)
        try:
            if project:
                link.send(line_of(greeting(project)))
                reply_of(link.receive())
        except Fault:
            link.close()
            raise
        return link
    try:
        server = Server(connected(address, context, timeout), reach_again)
    except Lost as lost:
        raise Fault(str(lost)) from lost
    try:
        if project:
            server.ask(greeting(project))
        yield server
    finally:
        server.link.close()
