"""Headless Chromium, spoken to over its DevTools pipe, with Python's standard library alone.

    with Browser() as browser:
        page = browser.open("file://" + os.path.abspath("page.html"), 800, 600)
        page.value("document.title")

The browser reads commands on descriptor 3 and writes answers and events on descriptor 4: JSON texts, each with a NUL byte
after it. It has a profile of its own, which goes with it.
"""
import base64
import fcntl
import json
import os
import select
import shutil
import signal
import tempfile
import time

NAMES = ("chromium", "chromium-browser", "google-chrome", "chrome")
FLAGS = (
    "--headless=new",
    "--no-sandbox",
    "--remote-debugging-pipe",
    "--hide-scrollbars",
    "--force-device-scale-factor=1",
    "--force-color-profile=srgb",
    "--disable-gpu",
    "--disable-lcd-text",
    "--disable-extensions",
    "--disable-background-networking",
    "--disable-component-update",
    "--disable-sync",
    "--no-first-run",
)
OFFLINE = "--host-resolver-rules=MAP * ~NOTFOUND"
PATIENCE = 30.0


class BrowserFault(Exception):
    """The browser did not do what it was asked."""


def find_chromium():
    """The path of a Chromium on this machine; None where there is none."""
    return next((path for path in map(shutil.which, NAMES) if path), None)


def high_descriptors():
    """A pipe whose descriptors are none of those that the browser takes."""
    pair = os.pipe()
    high = [fcntl.fcntl(end, fcntl.F_DUPFD_CLOEXEC, 10) for end in pair]
    for end in pair:
        os.close(end)
    return high


class Browser:
    """A running Chromium. Offline it resolves no host name, so that it sees files alone."""

    def __init__(self, is_offline=True):
        path = find_chromium()
        if path is None:
            raise BrowserFault("no Chromium on this machine")
        self.profile = tempfile.mkdtemp(prefix="capture-")
        self.number = 0
        self.events = []
        self.unread = b""
        self.start(path, [*FLAGS, *([OFFLINE] if is_offline else []), f"--user-data-dir={self.profile}", "about:blank"])

    def start(self, path, words):
        its_commands, self.commands = high_descriptors()
        self.answers, its_answers = high_descriptors()
        nowhere = [(os.POSIX_SPAWN_OPEN, n, os.devnull, os.O_RDWR, 0) for n in (0, 1, 2)]
        pipes = [(os.POSIX_SPAWN_DUP2, its_commands, 3), (os.POSIX_SPAWN_DUP2, its_answers, 4)]
        self.process = os.posix_spawn(path, [path, *words], os.environ, file_actions=nowhere + pipes)
        os.close(its_commands)
        os.close(its_answers)

    def __enter__(self):
        return self

    def __exit__(self, *_):
        try:
            self.call("Browser.close")
        except (BrowserFault, OSError):
            pass
        self.end()
        os.close(self.commands)
        os.close(self.answers)
        shutil.rmtree(self.profile, ignore_errors=True)

    def end(self):
        """Waits for the browser, and ends it where it does not end by itself."""
        for _ in range(50):
            if os.waitpid(self.process, os.WNOHANG)[0]:
                return
            time.sleep(0.1)
        os.kill(self.process, signal.SIGKILL)
        os.waitpid(self.process, 0)

    def message(self):
        """The next answer or event."""
        until = time.monotonic() + PATIENCE
        while b"\0" not in self.unread:
            ready, _, _ = select.select([self.answers], [], [], max(0.0, until - time.monotonic()))
            piece = os.read(self.answers, 1 << 20) if ready else b""
            if not piece:
                raise BrowserFault("the browser says nothing more")
            self.unread += piece
        text, self.unread = self.unread.split(b"\0", 1)
        return json.loads(text)

    def send(self, command):
        left = json.dumps(command).encode() + b"\0"
        while left:
            left = left[os.write(self.commands, left) :]

    def call(self, method, session=None, **params):
        """The result of a command; events that come before it are kept."""
        self.number += 1
        command = {"id": self.number, "method": method, "params": params}
        self.send({**command, "sessionId": session} if session else command)
        while True:
            message = self.message()
            if message.get("id") == self.number:
                break
            self.events.append(message)
        if "error" in message:
            raise BrowserFault(f"{method}: {message['error'].get('message')}")
        return message["result"]

    def await_event(self, method, session):
        while True:
            for place, event in enumerate(self.events):
                if event.get("method") == method and event.get("sessionId") == session:
                    return self.events.pop(place)
            self.events.append(self.message())

    def open(self, url, width, height):
        return Page(self, url, width, height)


class Page:
    """A page that is loaded, in a viewport of a size."""

    def __init__(self, browser, url, width, height):
        self.browser = browser
        self.target = browser.call("Target.createTarget", url="about:blank")["targetId"]
        self.session = browser.call("Target.attachToTarget", targetId=self.target, flatten=True)["sessionId"]
        size = {"width": width, "height": height, "deviceScaleFactor": 1, "mobile": False}
        self.call("Emulation.setDeviceMetricsOverride", **size)
        self.call("Page.enable")
        if "errorText" in self.call("Page.navigate", url=url):
            raise BrowserFault(f"{url} cannot be opened")
        browser.await_event("Page.loadEventFired", self.session)
        self.value("document.fonts.ready.then(() => new Promise(requestAnimationFrame)).then(() => 0)")

    def call(self, method, **params):
        return self.browser.call(method, self.session, **params)

    def close(self):
        self.browser.call("Target.closeTarget", targetId=self.target)

    def value(self, expression):
        """The value of an expression of JavaScript in the page."""
        answer = self.call("Runtime.evaluate", expression=expression, returnByValue=True, awaitPromise=True)
        if "exceptionDetails" in answer:
            details = answer["exceptionDetails"]
            raise BrowserFault(details.get("exception", {}).get("description") or details["text"])
        return answer["result"].get("value")

    def screenshot(self):
        """The viewport as the bytes of a PNG."""
        return base64.b64decode(self.call("Page.captureScreenshot", format="png")["data"])
