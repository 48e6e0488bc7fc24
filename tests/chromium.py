"""A Chromium without a window for tests of pages: opens them, presses keys, clicks, and reads what is there. It is spoken to over two pipes, in JSON
messages that end with a NUL."""
import contextlib
import fcntl
import json
import os
import pathlib
import select
import shutil
import signal
import subprocess
import time
from typing import Optional

NAMES = ("chromium", "chromium-browser", "google-chrome", "chrome")
WORDS = ("--headless=new", "--remote-debugging-pipe", "--no-first-run", "--disable-background-networking", "--disable-dev-shm-usage", "--disable-gpu")
LONGEST = 100.0
# Keys whose code isn't that of their letter.
CODES = {"ArrowLeft": 37, "ArrowUp": 38, "ArrowRight": 39, "ArrowDown": 40, "Home": 36, "End": 35, "Escape": 27, "Enter": 13, " ": 32}
SHIFT = 8


def found() -> Optional[str]:
    """A browser, where there is one."""
    return next(filter(None, map(shutil.which, NAMES)), None)


class Chromium:
    """A browser with one page. What goes wrong in the page is kept in `faults`, and what it asks of the network in `requests`."""

    def __init__(self, room: pathlib.Path):
        self.profile = room / "chromium"
        self.number, self.session, self.rest = 0, "", b""
        self.faults: list[str] = []
        self.requests: list[str] = []

    def __enter__(self) -> "Chromium":
        down, up = os.pipe(), os.pipe()

        def take_places() -> None:
            ends = [fcntl.fcntl(it, fcntl.F_DUPFD, 10) for it in (down[0], up[1])]
            for end, place in zip(ends, (3, 4)):
                os.dup2(end, place)

        words = [found(), *WORDS, *(["--no-sandbox"] if os.geteuid() == 0 else []), f"--user-data-dir={self.profile}"]
        quiet = {"stdin": subprocess.DEVNULL, "stdout": subprocess.DEVNULL, "stderr": subprocess.DEVNULL}
        self.process = subprocess.Popen(words, pass_fds=(3, 4), preexec_fn=take_places, start_new_session=True, **quiet)
        os.close(down[0])
        os.close(up[1])
        self.out, self.back = down[1], up[0]
        target = self.ask("Target.createTarget", url="about:blank")["targetId"]
        self.session = self.ask("Target.attachToTarget", targetId=target, flatten=True)["sessionId"]
        for domain in ("Page", "Runtime", "Log", "Network"):
            self.ask(f"{domain}.enable")
        return self

    def __exit__(self, *_: object) -> None:
        for end in (self.out, self.back):
            os.close(end)
        with contextlib.suppress(subprocess.TimeoutExpired):
            self.process.wait(5)
        with contextlib.suppress(ProcessLookupError):
            os.killpg(self.process.pid, signal.SIGKILL)
        self.process.wait()
        shutil.rmtree(self.profile, ignore_errors=True)

    def ask(self, method: str, **given: object) -> dict:
        self.number += 1
        message = {"id": self.number, "method": method, "params": given, **({"sessionId": self.session} if self.session else {})}
        view = memoryview(json.dumps(message).encode() + b"\0")
        while view:
            view = view[os.write(self.out, view) :]
        end = time.monotonic() + LONGEST
        while True:
            answer = json.loads(self.message(end))
            if answer.get("id") == self.number:
                if "error" in answer:
                    raise ValueError(f"{method}: {answer['error']}")
                return answer["result"]
            self.note(answer)

    def message(self, end: float) -> bytes:
        pieces = [self.rest]
        while b"\0" not in pieces[-1]:
            if not select.select([self.back], [], [], max(0.0, end - time.monotonic()))[0]:
                raise ValueError("the browser gives no answer")
            pieces.append(os.read(self.back, 1 << 20))
            if not pieces[-1]:
                raise ValueError("the browser has ended")
        first, _, self.rest = pieces[-1].partition(b"\0")
        return b"".join([*pieces[:-1], first])

    def note(self, event: dict) -> None:
        """Keeps what the page complains of, and what it asks for."""
        method, given = event.get("method"), event.get("params", {})
        if method == "Runtime.exceptionThrown":
            self.faults.append(json.dumps(given["exceptionDetails"])[:600])
        elif method == "Log.entryAdded" and given["entry"]["level"] in ("error", "warning"):
            self.faults.append(f"{given['entry']['text']} {given['entry'].get('url', '')}"[:600])
        elif method == "Runtime.consoleAPICalled" and given["type"] in ("error", "warning", "assert"):
            self.faults.append(json.dumps(given["args"])[:600])
        elif method == "Network.requestWillBeSent" and not given["request"]["url"].startswith("data:"):
            self.requests.append(given["request"]["url"])

    def value(self, script: str) -> object:
        """What a script of the page comes to."""
        answer = self.ask("Runtime.evaluate", expression=script, awaitPromise=True, returnByValue=True)
        if "exceptionDetails" in answer:
            raise ValueError(f"{script[:200]}: {json.dumps(answer['exceptionDetails'])[:600]}")
        return answer["result"].get("value")

    def when(self, condition: str, script: str) -> object:
        """What a script of the page comes to in the first frame in which a condition holds."""
        return self.value(f"new Promise((go) => {{ const look = () => ({condition}) ? go({script}) : requestAnimationFrame(look); look(); }})")

    def open(self, file: pathlib.Path, width: int = 1280, height: int = 800, dark: bool = False) -> None:
        """Opens a page in a window of this size, and waits until it is drawn."""
        self.faults, self.requests = [], []
        self.ask("Emulation.setDeviceMetricsOverride", width=width, height=height, deviceScaleFactor=1, mobile=width < 500)
        self.ask("Emulation.setEmulatedMedia", features=[{"name": "prefers-color-scheme", "value": "dark" if dark else "light"}])
        self.ask("Page.navigate", url="about:blank")
        self.ask("Page.navigate", url=file.absolute().as_uri())
        end = time.monotonic() + LONGEST
        while self.value("Boolean(window.show)") is not True:
            if time.monotonic() > end:
                raise ValueError(f"{file} isn't loaded")
            time.sleep(0.02)
        self.value("show.ready.then(() => true, () => false)")

    def key(self, key: str, shift: bool = False) -> None:
        code = CODES.get(key, ord(key[0].upper()))
        given = {"key": key, "windowsVirtualKeyCode": code, "modifiers": SHIFT if shift else 0}
        text = {"text": "\r" if key == "Enter" else key} if len(key) == 1 or key == "Enter" else {}
        self.ask("Input.dispatchKeyEvent", type="keyDown", **given, **text)
        self.ask("Input.dispatchKeyEvent", type="keyUp", **given)
        self.settle()

    def press(self, kind: str, x: float, y: float) -> None:
        self.ask("Input.dispatchMouseEvent", type=kind, x=x, y=y, button="left", buttons=1, clickCount=1)

    def click(self, x: float, y: float) -> None:
        for kind in ("mousePressed", "mouseReleased"):
            self.press(kind, x, y)
        self.settle()

    def settle(self) -> None:
        """Waits until what was asked for is drawn."""
        self.value("new Promise((go) => requestAnimationFrame(() => requestAnimationFrame(() => go(true))))")
