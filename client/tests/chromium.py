"""Chromium without a window, driven by the DevTools protocol over a pair of pipes."""
from __future__ import annotations

import base64
import fcntl
import json
import os
import select
import shutil
import subprocess
import tempfile
from pathlib import Path
from typing import Any, Optional

from conftest import HANG_SECONDS

PROGRAM = shutil.which("chromium")


class Chromium:
    """One browser with one page. Use it as a context: it is ended after, and its files are removed."""

    def __init__(self) -> None:
        assert PROGRAM
        self.home = tempfile.mkdtemp(prefix="cqd-chromium-")
        self.events: list[dict[str, Any]] = []
        self.session: Optional[str] = None
        self.number = 0
        self.rest = b""
        self.scripts_off = False
        commands, self.commands = os.pipe()
        self.replies, replies = os.pipe()

        def connect() -> None:
            """The protocol's ends are the descriptors 3 and 4 of the browser."""
            far = [fcntl.fcntl(end, fcntl.F_DUPFD, 10) for end in (commands, replies)]
            os.dup2(far[0], 3)
            os.dup2(far[1], 4)

        self.process = subprocess.Popen(
            [PROGRAM, "--headless=new", "--no-sandbox", "--disable-gpu", "--hide-scrollbars", "--no-first-run",
             "--remote-debugging-pipe", "--user-data-dir=" + self.home, "about:blank"],
            preexec_fn=connect, close_fds=False, stdin=subprocess.DEVNULL, stdout=subprocess.DEVNULL, stderr=subprocess.DEVNULL,
            env={**os.environ, "HOME": self.home})
        os.close(commands)
        os.close(replies)
        target = self.call("Target.createTarget", url="about:blank")["targetId"]
        self.session = self.call("Target.attachToTarget", targetId=target, flatten=True)["sessionId"]
        for domain in ("Page", "Runtime", "Log", "Network"):
            self.call(domain + ".enable")

    def __enter__(self) -> "Chromium":
        return self

    def __exit__(self, *_: object) -> None:
        try:
            self.call("Browser.close")
            self.process.wait(10)
        except (OSError, EOFError, subprocess.TimeoutExpired):
            self.process.kill()
            self.process.wait()
        os.close(self.commands)
        os.close(self.replies)
        shutil.rmtree(self.home, ignore_errors=True)

    def message(self) -> dict[str, Any]:
        while b"\0" not in self.rest:
            if not select.select([self.replies], [], [], HANG_SECONDS)[0]:
                raise EOFError(f"Chromium has said nothing for {HANG_SECONDS} seconds")
            more = os.read(self.replies, 1 << 20)
            if not more:
                raise EOFError("Chromium ended")
            self.rest += more
        line, _, self.rest = self.rest.partition(b"\0")
        return dict(json.loads(line))

    def call(self, method: str, **parameters: Any) -> dict[str, Any]:
        self.number += 1
        request: dict[str, Any] = {"id": self.number, "method": method, "params": parameters}
        if self.session:
            request["sessionId"] = self.session
        os.write(self.commands, json.dumps(request).encode("utf-8") + b"\0")
        while True:
            reply = self.message()
            if reply.get("id") == self.number:
                assert "error" not in reply, reply
                return dict(reply["result"])
            self.events.append(reply)

    def look(self, width: int, height: int = 900, dark: bool = False) -> None:
        """The size of the window, and which of the two colour schemes is preferred."""
        self.call("Emulation.setDeviceMetricsOverride", width=width, height=height, deviceScaleFactor=1, mobile=width < 600)
        scheme = {"name": "prefers-color-scheme", "value": "dark" if dark else "light"}
        self.call("Emulation.setEmulatedMedia", features=[scheme, {"name": "prefers-reduced-motion", "value": "reduce"}])

    def open(self, file: Path, fragment: str = "") -> None:
        """Loads a file, and returns when it has been loaded and painted."""
        for url in ("about:blank", file.as_uri() + fragment):
            self.events.clear()
            self.call("Page.navigate", url=url)
            while not any(event.get("method") == "Page.loadEventFired" for event in self.events):
                self.events.append(self.message())
        if not self.scripts_off:
            self.run("new Promise(done => requestAnimationFrame(() => setTimeout(done, 50)))")

    def scripts(self, enabled: bool) -> None:
        self.scripts_off = not enabled
        self.call("Emulation.setScriptExecutionDisabled", value=not enabled)

    def run(self, expression: str) -> Any:
        """The value of an expression in the page; a promise is waited for."""
        reply = self.call("Runtime.evaluate", expression=expression, awaitPromise=True, returnByValue=True)
        assert "exceptionDetails" not in reply, reply
        return reply["result"].get("value")

    def press(self, key: str) -> None:
        codes = {"Tab": 9, "Enter": 13}
        for kind in ("keyDown", "keyUp"):
            self.call("Input.dispatchKeyEvent", type=kind, key=key, code=key, windowsVirtualKeyCode=codes[key],
                      **({"text": "\r"} if key == "Enter" and kind == "keyDown" else {}))

    def problems(self) -> list[Any]:
        """What the page logged, threw, or asked the network for beside itself."""
        found = [event for event in self.events if event.get("method") in ("Log.entryAdded", "Runtime.exceptionThrown")]
        asked = [event["params"]["request"]["url"] for event in self.events
                 if event.get("method") == "Network.requestWillBeSent"]
        return found + asked[1:]

    def picture(self, file: Path, width: int, height: int) -> None:
        clip = {"x": 0, "y": 0, "width": width, "height": height, "scale": 1}
        data = self.call("Page.captureScreenshot", format="png", clip=clip, captureBeyondViewport=True)["data"]
        file.write_bytes(base64.b64decode(data))
