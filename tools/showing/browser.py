"""A Chromium without a window, over the DevTools protocol on two pipes: messages in JSON, each ended by a NUL."""
import contextlib
import fcntl
import json
import os
import pathlib
import select
import shutil
import subprocess
import time
from typing import Optional

from mapf.faults import Failed

NAMES = ("chromium", "chromium-browser", "google-chrome", "google-chrome-stable", "chrome")
WORDS = (
    "--headless=new",
    "--remote-debugging-pipe",
    "--no-first-run",
    "--no-default-browser-check",
    "--disable-background-networking",
    "--disable-component-update",
    "--disable-dev-shm-usage",
    "--disable-extensions",
    "--disable-gpu",
    "--disable-sync",
    "--host-resolver-rules=MAP * ~NOTFOUND",
)
# The browser reads commands at the one file and writes answers to the other.
READS, WRITES = 3, 4
# Above the two that the browser uses.
ABOVE = 10
# No answer takes nearly as long.
SECONDS = 120.0
# How long is waited before a page is asked again whether it is there.
STEP = 0.02
PIECE = 1 << 20


def find(given: Optional[str]) -> str:
    """The browser, or a line that says that there is none."""
    for name in [given] if given else NAMES:
        path = shutil.which(name)
        if path:
            return path
    what = f"{given} is no program" if given else f"there is no Chromium on the path ({', '.join(NAMES)})"
    raise Failed(f"{what}; a picture needs one, and --browser PATH says where it is")


class NoAnswer(Failed):
    """The browser answers that it can't."""


class Browser:
    """A browser with one page."""

    def __init__(self, path: str, profile: pathlib.Path):
        self.path, self.profile = path, profile
        self.number = 0
        self.session = ""
        self.rest = b""

    def __enter__(self) -> "Browser":
        down, up = os.pipe(), os.pipe()
        self.out, self.back = down[1], up[0]
        try:
            self.process = self.started(down[0], up[1])
        except OSError as error:
            raise Failed(f"{self.path} can't be started: {error.strerror}") from None
        finally:
            os.close(down[0])
            os.close(up[1])
        try:
            target = self.ask("Target.createTarget", url="about:blank")["targetId"]
            self.session = self.ask("Target.attachToTarget", targetId=target, flatten=True)["sessionId"]
        except BaseException:
            self.close()
            raise
        return self

    def started(self, reads: int, writes: int) -> subprocess.Popen:
        def take_places() -> None:
            ends = [fcntl.fcntl(it, fcntl.F_DUPFD, ABOVE) for it in (reads, writes)]
            for end, place in zip(ends, (READS, WRITES)):
                os.dup2(end, place)

        # Who is root has no sandbox there.
        words = [self.path, *WORDS, *(["--no-sandbox"] if os.geteuid() == 0 else []), f"--user-data-dir={self.profile}"]
        nothing = {"stdin": subprocess.DEVNULL, "stdout": subprocess.DEVNULL, "stderr": subprocess.DEVNULL}
        # What the browser makes in the folder of temporary files goes with its profile.
        self.profile.mkdir()
        place = {**os.environ, "TMPDIR": str(self.profile)}
        return subprocess.Popen(words, env=place, pass_fds=(READS, WRITES), preexec_fn=take_places, start_new_session=True, **nothing)

    def __exit__(self, *_: object) -> None:
        self.close()

    def close(self) -> None:
        # The browser ends when nobody speaks to it; what is left of it is ended then.
        for end in (self.out, self.back):
            os.close(end)
        with contextlib.suppress(subprocess.TimeoutExpired):
            self.process.wait(5)
        with contextlib.suppress(ProcessLookupError):
            os.killpg(self.process.pid, 9)
        self.process.wait()
        shutil.rmtree(self.profile, ignore_errors=True)

    def ask(self, method: str, **given: object) -> dict:
        """The answer to a command."""
        self.number += 1
        message = {"id": self.number, "method": method, "params": given, **({"sessionId": self.session} if self.session else {})}
        with contextlib.suppress(BrokenPipeError):
            view = memoryview(json.dumps(message).encode() + b"\0")
            while view:
                view = view[os.write(self.out, view) :]
        while True:
            answer = json.loads(self.message())
            if answer.get("id") == self.number:
                break
        if "error" in answer:
            raise NoAnswer(f"{self.path}: {method}: {answer['error'].get('message')}")
        return answer["result"]

    def message(self) -> bytes:
        """The next message of the browser."""
        pieces, end = [self.rest], time.monotonic() + SECONDS
        while b"\0" not in pieces[-1]:
            if not select.select([self.back], [], [], max(0.0, end - time.monotonic()))[0]:
                raise Failed(f"{self.path} gives no answer")
            pieces.append(os.read(self.back, PIECE))
            if not pieces[-1]:
                raise Failed(f"{self.path} has ended")
        first, _, self.rest = pieces[-1].partition(b"\0")
        return b"".join([*pieces[:-1], first])

    def open(self, file: pathlib.Path) -> None:
        """Opens a page, and waits until it is drawn."""
        self.ask("Page.navigate", url=file.absolute().as_uri())
        end = time.monotonic() + SECONDS
        while not self.is_there():
            if time.monotonic() > end:
                raise Failed(f"{self.path} doesn't load the page")
            time.sleep(STEP)
        trouble = self.value("show.ready.then(() => '', String)")
        if trouble:
            raise Failed(f"{self.path}: {trouble}")

    def is_there(self) -> bool:
        """Whether the page is loaded. While the page before it is left, nothing can be asked."""
        with contextlib.suppress(NoAnswer):
            return bool(self.value("Boolean(window.show)"))
        return False

    def value(self, script: str) -> object:
        """What a script comes to."""
        answer = self.ask("Runtime.evaluate", expression=script, awaitPromise=True, returnByValue=True)
        if "exceptionDetails" in answer:
            details = answer["exceptionDetails"]
            raise Failed(f"{self.path}: {details.get('exception', details).get('description', details.get('text'))}".partition("\n")[0])
        return answer["result"].get("value")
