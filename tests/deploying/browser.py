"""Chromium without a window, told what to do by its DevTools protocol over two pipes, so that no port has to be free."""

import fcntl
import json
import os
import select
import shutil
import signal
import subprocess
import tempfile
import time
from pathlib import Path

from harness.counting import Unwell

FLAGS = [
    "--headless=new",
    "--remote-debugging-pipe",
    "--no-sandbox",
    "--no-first-run",
    "--disable-gpu",
    "--disable-dev-shm-usage",
    "--disable-extensions",
    "--disable-background-networking",
    "--disable-component-update",
    "--disable-sync",
    "--no-proxy-server",
]
SECONDS = 300
"""How long an answer of the browser may take, a text may take to be there, and the browser to end."""
LEAST_NUMBER = 20
"""Numbers of open files from which on none is one that the browser uses for itself."""
PAUSE = 0.05


class Moved(Unwell):
    """What was asked of a page while another one took its place."""


def pipe():
    """A pipe whose ends have high numbers."""
    ends = os.pipe()
    moved = [fcntl.fcntl(end, fcntl.F_DUPFD_CLOEXEC, LEAST_NUMBER) for end in ends]
    for end in ends:
        os.close(end)
    return moved


class Browser:
    """A browser with one page. As a context it is taken down at its end."""

    def __init__(self, path):
        self.folder = tempfile.mkdtemp()
        self.faults = open(Path(self.folder, "faults"), "w+b")
        commands, self.writing = pipe()
        self.reading, events = pipe()
        words = [path, *FLAGS, f"--user-data-dir={self.folder}/profile", "about:blank"]
        self.child = subprocess.Popen(
            ["bash", "-c", f'exec "$0" "$@" 3<&{commands} 4>&{events}', *words],
            stdin=subprocess.DEVNULL,
            stdout=self.faults,
            stderr=self.faults,
            env={**os.environ, "HOME": self.folder},
            pass_fds=[commands, events],
            start_new_session=True,
        )
        os.close(commands)
        os.close(events)
        self.number, self.kept, self.session, self.logged = 0, b"", None, []

    def __enter__(self):
        try:
            targets = self.ask("Target.getTargets")["targetInfos"]
            page = next(target["targetId"] for target in targets if target["type"] == "page")
            self.session = self.ask("Target.attachToTarget", targetId=page, flatten=True)["sessionId"]
            for part in ("Page", "Runtime", "Log"):
                self.ask(f"{part}.enable")
            self.ask("Security.setIgnoreCertificateErrors", ignore=True)
        except BaseException:
            self.__exit__()
            raise
        return self

    def __exit__(self, *_):
        """Ends the browser with all its processes: they are a group of their own."""
        os.close(self.writing)
        os.close(self.reading)
        try:
            self.child.wait(5)
        except subprocess.TimeoutExpired:
            pass
        try:
            os.killpg(self.child.pid, signal.SIGKILL)
        except ProcessLookupError:
            pass
        self.child.wait()
        self.faults.close()
        shutil.rmtree(self.folder, ignore_errors=True)

    def told(self):
        """The end of what it printed."""
        return Path(self.faults.name).read_text(errors="replace")[-500:]

    def message(self, end):
        """The next message of the browser, which comes before a moment."""
        while b"\0" not in self.kept:
            if not select.select([self.reading], [], [], max(end - time.monotonic(), 0))[0]:
                raise Unwell(f"the browser says nothing for {SECONDS} seconds: {self.told()}")
            piece = os.read(self.reading, 1 << 16)
            if not piece:
                raise Unwell(f"the browser ended: {self.told()}")
            self.kept += piece
        text, _, self.kept = self.kept.partition(b"\0")
        return json.loads(text)

    def ask(self, method, **parameters):
        """What the browser answers to a command. Faults that pages have meanwhile are kept in `logged`."""
        self.number += 1
        command = {"id": self.number, "method": method, "params": parameters}
        if self.session:
            command["sessionId"] = self.session
        os.write(self.writing, json.dumps(command).encode() + b"\0")
        end = time.monotonic() + SECONDS
        while True:
            message = self.message(end)
            if message.get("id") == self.number:
                break
            if message.get("method") in ("Runtime.exceptionThrown", "Log.entryAdded"):
                self.logged.append(json.dumps(message["params"])[:300])
        if "error" in message:
            moved = any(word in message["error"]["message"] for word in ("context", "navigated"))
            raise (Moved if moved else Unwell)(f"{method}: {message['error']}")
        return message["result"]

    def run(self, script):
        """The value of an expression of the page, as JSON has it; a promise is waited for."""
        found = self.ask("Runtime.evaluate", expression=script, returnByValue=True, awaitPromise=True)
        if "exceptionDetails" in found:
            raise Unwell(f"{script[:200]}: {json.dumps(found['exceptionDetails'])[:300]}")
        return found["result"].get("value")

    def wait(self, script):
        """Waits until an expression of the page holds, and answers its value."""
        end = time.monotonic() + SECONDS
        while True:
            try:
                found = self.run(script)
            except Moved:
                found = None
            if found:
                return found
            if time.monotonic() > end:
                raise Unwell(f"`{script[:200]}` didn't come to hold in {SECONDS} seconds")
            time.sleep(PAUSE)

    def open(self, url):
        """Loads a page, and waits until it is there. What was logged of the one before is left out."""
        self.logged.clear()
        self.run("window.isLeft = true")
        found = self.ask("Page.navigate", url=url)
        if "errorText" in found:
            raise Unwell(f"{url}: {found['errorText']}")
        self.wait(f"!window.isLeft && location.href === {json.dumps(url)} && document.readyState === 'complete'")

    def press(self, key, code=0, text=""):
        """Presses a key of the keyboard and lets it go."""
        more = {"text": text} if text else {}
        self.ask("Input.dispatchKeyEvent", type="keyDown", key=key, code=key, windowsVirtualKeyCode=code, **more)
        self.ask("Input.dispatchKeyEvent", type="keyUp", key=key, code=key, windowsVirtualKeyCode=code)

    def type(self, text):
        """Types a text into what has the focus."""
        self.ask("Input.insertText", text=text)
