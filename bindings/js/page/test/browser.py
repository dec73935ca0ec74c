"""Chromium without a window, told what to do over two pipes."""

import json
import os
import shutil
import subprocess
import tempfile
import time
from pathlib import Path

NAMES = ("chromium", "chromium-browser", "google-chrome")


def chromium():
    """Where it is; None where it isn't."""
    return next(filter(None, map(shutil.which, NAMES)), None)


class Browser:
    """A page, what it asks of the network, its workers too, and what it complains of."""

    def __init__(self, width=1180, height=1400, *words):
        self.home = tempfile.mkdtemp(prefix="page-chromium-")
        ours, theirs = os.pipe(), os.pipe()
        command = [chromium(), "--headless=new", "--no-sandbox", "--disable-gpu", "--disable-dev-shm-usage"]
        command += ["--remote-debugging-pipe", f"--user-data-dir={self.home}", f"--window-size={width},{height}"]
        command += ["--disable-background-networking", "--no-first-run", *words, "about:blank"]

        def placed():  # it reads from 3 and writes to 4
            for end, place in ((os.dup(ours[0]), 3), (os.dup(theirs[1]), 4)):
                os.dup2(end, place)

        quiet = {"stdout": subprocess.DEVNULL, "stderr": subprocess.DEVNULL, "stdin": subprocess.DEVNULL}
        self.child = subprocess.Popen(command, preexec_fn=placed, close_fds=False, **quiet)
        os.close(ours[0]), os.close(theirs[1])
        self.to, self.of = os.fdopen(ours[1], "wb", 0), os.fdopen(theirs[0], "rb", 0)
        self.rest, self.last = b"", 0
        self.requests, self.complaints, self.sessions = [], [], []
        targets = self.call("Target.getTargets", session=None)["targetInfos"]
        target = next(it["targetId"] for it in targets if it["type"] == "page")
        self.session = self.call("Target.attachToTarget", session=None, targetId=target, flatten=True)["sessionId"]
        for it in ("Network", "Runtime", "Log", "Page", "DOM"):
            self.call(f"{it}.enable")
        self.call("Target.setAutoAttach", autoAttach=True, waitForDebuggerOnStart=False, flatten=True)

    def _receive(self):
        """The next message."""
        while b"\0" not in self.rest:
            more = os.read(self.of.fileno(), 1 << 20)
            if not more:
                raise EOFError("chromium has ended")
            self.rest += more
        told, self.rest = self.rest.split(b"\0", 1)
        told = json.loads(told)
        if "method" in told:
            self._note(told["method"], told["params"])
        return told

    def _note(self, method, params):
        if method == "Network.requestWillBeSent":
            self.requests.append(params["request"]["url"])
        elif method == "Runtime.exceptionThrown" or method == "Log.entryAdded":
            self.complaints.append(json.dumps(params)[:600])
        elif method == "Target.attachedToTarget":
            self.sessions.append(params["sessionId"])
            for it in ("Network.enable", "Runtime.enable", "Log.enable"):
                self._send(it, params["sessionId"])

    def _send(self, method, session, **params):
        self.last += 1
        message = {"id": self.last, "method": method, "params": params}
        if session:
            message["sessionId"] = session
        self.to.write(json.dumps(message).encode() + b"\0")
        return self.last

    def call(self, method, session="page", **params):
        number = self._send(method, self.session if session == "page" else session, **params)
        while True:
            told = self._receive()
            if told.get("id") == number:
                if "error" in told:
                    raise RuntimeError(f"{method}: {told['error']}")
                return told["result"]

    def ask(self, expression, session="page"):
        """What an expression of JavaScript is, awaited."""
        told = self.call("Runtime.evaluate", session, expression=expression, awaitPromise=True, returnByValue=True)
        if "exceptionDetails" in told:
            raise RuntimeError(json.dumps(told["exceptionDetails"])[:800])
        return told["result"].get("value")

    def until(self, expression, seconds=120.0):
        """Waits until an expression is true, and returns it."""
        end = time.monotonic() + seconds
        while not (found := self.ask(expression)):
            if time.monotonic() > end:
                raise TimeoutError(f"not within {seconds} s: {expression}: {self.complaints}")
            time.sleep(0.02)
        return found

    def go(self, url):
        self.call("Page.navigate", url=url)
        self.until("document.readyState === 'complete'")

    def give(self, selector, file):
        """Gives a file to an input."""
        root = self.call("DOM.getDocument")["root"]["nodeId"]
        node = self.call("DOM.querySelector", nodeId=root, selector=selector)["nodeId"]
        self.call("DOM.setFileInputFiles", nodeId=node, files=[str(file)])

    def key(self, key, **more):
        for kind in ("keyDown", "keyUp"):
            self.call("Input.dispatchKeyEvent", type=kind, key=key, code=key, **more)

    def mouse(self, kind, x, y):
        button = {"button": "left", "clickCount": 1} if kind != "mouseMoved" else {}
        self.call("Input.dispatchMouseEvent", type=kind, x=x, y=y, **button)

    def processor_time(self):
        """The seconds that all of its processes have used."""
        used, parents = {}, {}
        for place in Path("/proc").glob("[0-9]*/stat"):
            try:
                words = place.read_text().rsplit(")", 1)[1].split()
            except OSError:  # it has ended
                continue
            number = int(place.parent.name)
            used[number], parents[number] = int(words[11]) + int(words[12]), int(words[1])
        ours = {self.child.pid}
        for number in sorted(parents):
            if parents[number] in ours:
                ours.add(number)
        return sum(used.get(it, 0) for it in ours) / os.sysconf("SC_CLK_TCK")

    def close(self):
        try:
            self._send("Browser.close", None)
            self.child.wait(20)
        except (OSError, subprocess.TimeoutExpired):
            self.child.kill()
            self.child.wait()
        self.to.close(), self.of.close()
        shutil.rmtree(self.home, ignore_errors=True)
