"""What a call says on standard error: notes, one line each, and on a terminal how far it is."""
from __future__ import annotations

import contextlib
import os
import sys
import threading
import time
from collections.abc import Iterator, Sequence

from .wording import counted, shown

# How many files of one kind are named before the rest is only counted.
MOST_NAMED = 20
REDRAW_SECONDS = 0.1


class Notes:
    """Notes are for people and logs; only standard output is read by programs."""

    def __init__(self, is_terminal: bool | None = None) -> None:
        self.is_terminal = sys.stderr.isatty() if is_terminal is None else is_terminal
        self.width = 0
        self.drawn = 0.0

    def clear(self) -> None:
        if self.width:
            print("\r" + " " * self.width + "\r", end="", file=sys.stderr, flush=True)
            self.width = 0

    def progress(self, text: str) -> None:
        if self.is_terminal and time.monotonic() - self.drawn >= REDRAW_SECONDS:
            self.drawn = time.monotonic()
            self.width = max(self.width, len(text))
            print("\r" + text.ljust(self.width), end="", file=sys.stderr, flush=True)

    @contextlib.contextmanager
    def waiting(self, what: str) -> Iterator[None]:
        """Shows on a terminal for how long the call has been waiting for this."""
        if not self.is_terminal:
            yield
            return
        ended = threading.Event()

        def draw() -> None:
            start = time.monotonic()
            while not ended.wait(1):
                self.progress(f"{what}, {time.monotonic() - start:.0f} s")
        drawing = threading.Thread(target=draw, daemon=True)
        drawing.start()
        try:
            yield
        finally:
            ended.set()
            drawing.join()
            self.clear()

    def say(self, text: str) -> None:
        try:
            self.clear()
            print("cqd-client: " + shown(text), file=sys.stderr, flush=True)
        except OSError:
            # nobody reads notes any more, and the call's answer does not depend on them; Python would try once more at its end
            os.dup2(os.open(os.devnull, os.O_WRONLY), sys.stderr.fileno())

    def each(self, lines: Sequence[str], what: str) -> None:
        """Says these lines, each about a file, as in "left out"; if there are many, the first of them, and that `what` is so of more files."""
        for line in lines[:MOST_NAMED]:
            self.say(line)
        if len(lines) > MOST_NAMED:
            self.say(f"and {counted(len(lines) - MOST_NAMED, 'more file')} {what}")
