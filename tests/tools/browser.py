"""A browser for tests: Chromium without a window, driven by its DevTools protocol over two pipes.

Everything that the browser writes is below a temporary folder, and all of its processes are in one
group, so that nothing is left when it is closed.
"""

from __future__ import annotations

import contextlib
import fcntl
import json
import os
import select
import shutil
import signal
import tempfile
import time
from typing import Any, Optional

NAMES = ("chromium", "chromium-browser", "google-chrome")
PROGRAM = next(filter(None, map(shutil.which, NAMES)), None)
OPTIONS = [
    "--headless",
    "--remote-debugging-pipe",
    "--disable-gpu",
    "--disable-extensions",
    "--disable-background-networking",
    "--disable-breakpad",
    "--hide-scrollbars",
    "--no-first-run",
    "--no-default-browser-check",
    "--no-zygote",
]
SECONDS = 60
END = b"\0"


class Browser:
    """A browser with one tab. `with Browser() as browser:` closes it at the end."""

    def __init__(self) -> None:
        self.folder = tempfile.mkdtemp(prefix="ptb-browser-")
        self.buffer = b""
        self.calls = 0
        self.events: list[dict[str, Any]] = []
        self.session: Optional[str] = None
        self.start()
        try:
            self.attach()
        except BaseException:
            self.close()
            raise

    def start(self) -> None:
        """Starts the browser, which reads commands on descriptor 3 and writes replies to 4."""
        commands, self.commands = os.pipe()
        self.replies, replies = os.pipe()
        ends = [fcntl.fcntl(end, fcntl.F_DUPFD_CLOEXEC, 10) for end in (commands, replies)]
        os.close(commands)
        os.close(replies)
        null = os.open(os.devnull, os.O_RDWR)
        actions = [(os.POSIX_SPAWN_DUP2, null, stream) for stream in (0, 1, 2)]
        actions += [(os.POSIX_SPAWN_DUP2, end, number) for end, number in zip(ends, (3, 4))]
        words = [PROGRAM, *OPTIONS, f"--user-data-dir={self.folder}/profile", "about:blank"]
        if os.getuid() == 0:
            words.insert(1, "--no-sandbox")
        places = {name: self.folder for name in ("HOME", "TMPDIR", "XDG_CONFIG_HOME", "XDG_CACHE_HOME")}
        environment = {**os.environ, **places}
        self.pid = os.posix_spawn(PROGRAM, words, environment, file_actions=actions, setpgroup=0)
        for descriptor in (null, *ends):
            os.close(descriptor)

    def attach(self) -> None:
        """Opens the tab, and asks for what happens in it."""
        target = self.call("Target.createTarget", url="about:blank")["targetId"]
        self.session = self.call("Target.attachToTarget", targetId=target, flatten=True)["sessionId"]
        for domain in ("Page", "Runtime", "Log", "Network"):
            self.call(f"{domain}.enable")

    def __enter__(self) -> Browser:
        return self

    def __exit__(self, *_: object) -> None:
        self.close()

    def close(self) -> None:
        """Ends the browser and removes its folder."""
        with contextlib.suppress(OSError, RuntimeError):
            self.session = None
            self.call("Browser.close")
        self.end()
        os.close(self.commands)
        os.close(self.replies)
        for _ in range(50):  # a process that is being ended may still write
            shutil.rmtree(self.folder, ignore_errors=True)
            if not os.path.exists(self.folder):
                break
            time.sleep(0.1)

    def end(self) -> None:
        """Waits for the browser, and ends what is left of its group."""
        until = time.monotonic() + 10
        while time.monotonic() < until and os.waitpid(self.pid, os.WNOHANG) == (0, 0):
            time.sleep(0.02)
        with contextlib.suppress(ProcessLookupError):
            os.killpg(self.pid, signal.SIGKILL)
        with contextlib.suppress(ChildProcessError):
            os.waitpid(self.pid, 0)

    # ---- the protocol

    def call(self, method: str, **parameters: Any) -> dict[str, Any]:
        """The result of a command. Events that come before it are kept."""
        self.calls += 1
        message = {"id": self.calls, "method": method, "params": parameters}
        if self.session:
            message["sessionId"] = self.session
        os.write(self.commands, json.dumps(message).encode() + END)
        while True:
            reply = self.receive()
            if reply.get("id") == self.calls:
                break
            self.events.append(reply)
        if "error" in reply:
            raise RuntimeError(f"{method}: {reply['error']['message']}")
        return reply["result"]

    def receive(self) -> dict[str, Any]:
        """The next message of the browser."""
        until = time.monotonic() + SECONDS
        while END not in self.buffer:
            left = until - time.monotonic()
            if left < 0 or not select.select([self.replies], [], [], left)[0]:
                raise RuntimeError(f"the browser says nothing for {SECONDS} seconds")
            piece = os.read(self.replies, 1 << 20)
            if not piece:
                raise RuntimeError("the browser is gone")
            self.buffer += piece
        message, _, self.buffer = self.buffer.partition(END)
        return json.loads(message)

    def wait(self, method: str) -> dict[str, Any]:
        """The next event of this name, or the first one that was kept."""
        for event in self.events:
            if event["method"] == method:
                self.events.remove(event)
                return event["params"]
        while True:
            event = self.receive()
            if event.get("method") == method:
                return event["params"]
            self.events.append(event)

    # ---- what tests do

    def open(self, path: str) -> None:
        """Loads a file, and forgets the events of earlier ones."""
        self.events.clear()
        self.call("Page.navigate", url=f"file://{path}")
        self.wait("Page.loadEventFired")

    def run(self, expression: str) -> Any:
        """The value of an expression of JavaScript in the page."""
        result = self.call("Runtime.evaluate", expression=expression, returnByValue=True, awaitPromise=True)
        if "exceptionDetails" in result:
            raise RuntimeError(f"{expression}: {result['exceptionDetails']}")
        return result["result"].get("value")

    def resize(self, width: int, height: int = 900) -> None:
        """Gives the page the size of a screen."""
        phone = width < 600
        size = {"width": width, "height": height, "deviceScaleFactor": 1, "mobile": phone}
        self.call("Emulation.setDeviceMetricsOverride", **size)

    def media(self, scheme: str = "light", medium: str = "screen") -> None:
        """Chooses light or dark, and a screen or paper."""
        feature = {"name": "prefers-color-scheme", "value": scheme}
        self.call("Emulation.setEmulatedMedia", media=medium, features=[feature])

    def scripts(self, allowed: bool) -> None:
        """Allows or refuses scripts, from the next page that is opened."""
        self.call("Emulation.setScriptExecutionDisabled", value=not allowed)

    def press(self, key: str, code: int, text: str = "") -> None:
        """Presses a key and lets it go. `code` is its Windows virtual key code."""
        for kind in ("keyDown" if text else "rawKeyDown", "keyUp"):
            fields = {"key": key, "windowsVirtualKeyCode": code, **({"text": text} if text else {})}
            self.call("Input.dispatchKeyEvent", type=kind, **fields)

    def type(self, text: str) -> None:
        """Types a text where the focus is."""
        self.call("Input.insertText", text=text)

    def click(self, selector: str) -> None:
        """Clicks the middle of the first element that a selector of CSS names."""
        place = self.run(
            f"(() => {{ const e = document.querySelector({json.dumps(selector)}); e.scrollIntoView(); "
            "const r = e.getBoundingClientRect(); return [r.x + r.width / 2, r.y + r.height / 2]; })()"
        )
        for kind in ("mousePressed", "mouseReleased"):
            where = {"x": place[0], "y": place[1], "button": "left", "clickCount": 1}
            self.call("Input.dispatchMouseEvent", type=kind, **where)

    def messages(self) -> list[str]:
        """What the page wrote to the console, its exceptions, and the browser's own remarks on it."""
        self.run("0")  # what was written before this has come
        found = []
        for event in self.events:
            method, parameters = event["method"], event["params"]
            if method == "Runtime.consoleAPICalled":
                found.append(str(parameters["args"]))
            elif method == "Runtime.exceptionThrown":
                found.append(str(parameters["exceptionDetails"]))
            elif method == "Log.entryAdded":
                found.append(parameters["entry"]["text"])
        return found

    def requests(self) -> list[str]:
        """The addresses that the page asked for, without its own."""
        sent = [event["params"] for event in self.events if event["method"] == "Network.requestWillBeSent"]
        return [event["request"]["url"] for event in sent if event.get("type") != "Document"]
