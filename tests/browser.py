"""Drives a browser: by WebDriver BiDi Chromium, by chromedriver (Debian: chromium-driver), and Firefox, by itself; by
WebDriver alone WebKit, by WebKitWebDriver (Debian: webkit2gtk-driver), which opens MiniBrowser on a display of Xvfb."""

import base64
import importlib
import json
import os
import subprocess
import time
import urllib.error
import urllib.request
from contextlib import contextmanager
from pathlib import Path
from typing import Any, Dict, Iterator, List, Optional, Sequence

# How long anything may take, in seconds.
PATIENCE = 300.0

# WebKit's own browser, which stands beside its library.
MINIBROWSER = "/usr/lib/x86_64-linux-gnu/webkit2gtk-4.1/MiniBrowser"

# Keys by their names, as WebDriver has them.
KEYS = {
    "Tab": "\ue004",
    "Enter": "\ue007",
    "Escape": "\ue00c",
    "End": "\ue010",
    "Home": "\ue011",
    "ArrowLeft": "\ue012",
    "ArrowUp": "\ue013",
    "ArrowRight": "\ue014",
    "ArrowDown": "\ue015",
}

# In how many steps a pointer is moved, so that the page draws meanwhile.
STEPS = 8

# A4, in centimetres.
PAPER = {"width": 21.0, "height": 29.7}

FIREFOX_SETTINGS = """\
user_pref("remote.active-protocols", 1);
user_pref("datareporting.policy.dataSubmissionEnabled", false);
user_pref("browser.shell.checkDefaultBrowser", false);
"""


class Fault(Exception):
    """What a browser refused, or what did not come in time."""


class Silence(Fault):
    """A browser that does not start, ended, or gives no answer."""


@contextmanager
def heard() -> Iterator[None]:
    """Tells by a fault that a socket to a browser was closed, or brought nothing in time."""
    websocket = importlib.import_module("websocket")
    try:
        yield
    except (OSError, websocket.WebSocketException) as error:
        raise Silence(f"the browser is silent: {error!r}") from error


class Session:
    """A page of a browser, and what is asked of it."""

    def __init__(self, socket: Any):
        self.socket = socket
        self.number = 0
        self.events: List[Dict[str, Any]] = []
        self.context = ""

    def open_page(self) -> None:
        tree = self.call("browsingContext.getTree", {})
        self.context = tree["contexts"][0]["context"]
        self.call("session.subscribe", {"events": ["log.entryAdded"]})

    def call(self, method: str, parameters: Dict[str, Any]) -> Any:
        """The result of a command. What the browser tells meanwhile is kept."""
        self.number += 1
        with heard():
            self.socket.send(json.dumps({"id": self.number, "method": method, "params": parameters}))
        while True:
            with heard():
                said = json.loads(self.socket.recv())
            if said.get("id") != self.number:
                self.events.append(said)
            elif said["type"] == "success":
                return said["result"]
            else:
                raise Fault(f"{method}: {said.get('message')}")

    def visit(self, address: str) -> None:
        self.call("browsingContext.navigate", {"context": self.context, "url": address, "wait": "complete"})

    def value(self, expression: str) -> Any:
        """The value of an expression, or of what it promises, as JSON."""
        words = {
            "expression": f"Promise.resolve({expression}).then((it) => JSON.stringify(it === undefined ? null : it))",
            "target": {"context": self.context},
            "awaitPromise": True,
            "userActivation": True,
        }
        found = self.call("script.evaluate", words)
        if found["type"] != "success":
            raise Fault(f"{expression}: {found['exceptionDetails']['text']}")
        return json.loads(found["result"]["value"])

    def wait_until(self, expression: str) -> None:
        """Waits until an expression is true."""
        began = time.monotonic()
        while not self.value(f"Boolean({expression})"):
            if time.monotonic() - began > PATIENCE:
                raise Fault(f"{expression} was not true within {PATIENCE} s")
            time.sleep(0.02)

    def set_files(self, selector: str, files: Sequence[Path]) -> None:
        """Chooses files, as a user does."""
        found = self.call(
            "browsingContext.locateNodes", {"context": self.context, "locator": {"type": "css", "value": selector}}
        )
        element = {"sharedId": found["nodes"][0]["sharedId"]}
        words = {"context": self.context, "element": element, "files": [str(file) for file in files]}
        self.call("input.setFiles", words)

    def picture(self, file: Path, whole: bool = True) -> None:
        """Writes a picture of the page, as PNG."""
        words = {"context": self.context, "origin": "document" if whole else "viewport"}
        found = self.call("browsingContext.captureScreenshot", words)
        file.write_bytes(base64.b64decode(found["data"]))

    def printed(self) -> bytes:
        """The page as it is printed on A4: a PDF."""
        found = self.call("browsingContext.print", {"context": self.context, "page": PAPER})
        return base64.b64decode(found["data"])

    def press(self, *keys: str) -> None:
        """Presses keys one after the other."""
        strokes = [{"type": kind, "value": KEYS.get(key, key)} for key in keys for kind in ("keyDown", "keyUp")]
        self.act({"type": "key", "id": "keys", "actions": strokes})

    def drag(self, begin: Sequence[float], end: Sequence[float], kind: str = "mouse") -> None:
        """Moves from one point of the window to another, a button or a finger down."""
        self.act(dragged(kind, kind, begin, end))

    def spread(self, x: float, y: float, begin: float, end: float) -> None:
        """Moves two fingers away from a point of the window, each from one distance to another."""
        ways = [((x + side * begin, y), (x + side * end, y)) for side in (-1, 1)]
        self.act(*(dragged(f"finger {number}", "touch", *way) for number, way in enumerate(ways)))

    def turn(self, x: float, y: float, by: int) -> None:
        """Turns the wheel over a point of the window."""
        scroll = {"type": "scroll", "x": round(x), "y": round(y), "deltaX": 0, "deltaY": by}
        self.act({"type": "wheel", "id": "wheel", "actions": [scroll]})

    def act(self, *sources: Dict[str, Any]) -> None:
        self.call("input.performActions", {"context": self.context, "actions": list(sources)})

    def size(self, width: int, height: int) -> None:
        words = {"context": self.context, "viewport": {"width": width, "height": height}}
        self.call("browsingContext.setViewport", words)

    def complaints(self) -> List[str]:
        """What the page wrote to the console as errors, the refusals of its security policy among them."""
        said = [event["params"] for event in self.events if event.get("method") == "log.entryAdded"]
        return [entry["text"] for entry in said if entry["level"] == "error"]


class Classic(Session):
    """A page of a browser that has WebDriver alone: what that can."""

    def __init__(self, address: str):
        super().__init__(None)
        self.address = address

    def call(self, method: str, parameters: Dict[str, Any]) -> Any:
        try:
            return asked(f"{self.address}/{method}", parameters)["value"]
        except urllib.error.HTTPError as error:
            raise Fault(f"{method}: {error.read().decode(errors='replace')[:500]}") from None

    def visit(self, address: str) -> None:
        self.call("url", {"url": address})

    def value(self, expression: str) -> Any:
        words = "(it) => done([JSON.stringify(it === undefined ? null : it)]), (fault) => done(String(fault))"
        script = f"const done = arguments[0]; Promise.resolve({expression}).then({words});"
        found = self.call("execute/async", {"script": script, "args": []})
        if isinstance(found, str):
            raise Fault(f"{expression}: {found}")
        return json.loads(found[0])

    def set_files(self, selector: str, files: Sequence[Path]) -> None:
        found = self.call("element", {"using": "css selector", "value": selector})
        self.call(f"element/{next(iter(found.values()))}/value", {"text": "\n".join(map(str, files))})

    def size(self, width: int, height: int) -> None:
        self.call("window/rect", {"width": width, "height": height})

    def picture(self, file: Path, whole: bool = True) -> None:
        shown = asked(f"{self.address}/screenshot", None, "GET")["value"]
        file.write_bytes(base64.b64decode(shown))


def dragged(name: str, kind: str, begin: Sequence[float], end: Sequence[float]) -> Dict[str, Any]:
    """What a pointer does that is moved, pressed, moved step by step, and let go."""
    ways = [[one + (other - one) * step / STEPS for one, other in zip(begin, end)] for step in range(STEPS + 1)]
    moves = [{"type": "pointerMove", "x": round(x), "y": round(y), "duration": 40} for x, y in ways]
    steps = [moves[0], {"type": "pointerDown", "button": 0}, *moves[1:], {"type": "pointerUp", "button": 0}]
    return {"type": "pointer", "id": name, "parameters": {"pointerType": kind}, "actions": steps}


def connected(address: str) -> Any:
    """A socket to a browser that may still be starting."""
    websocket = importlib.import_module("websocket")
    until = time.monotonic() + PATIENCE
    while True:
        try:
            with heard():
                return websocket.create_connection(address, timeout=PATIENCE, suppress_origin=True)
        except Silence:
            if time.monotonic() > until:
                raise
            time.sleep(0.1)


def free_port() -> int:
    import socket

    with socket.socket() as one:
        one.bind(("127.0.0.1", 0))
        return int(one.getsockname()[1])


@contextmanager
def running(words: Sequence[str], folder: Path) -> Iterator[None]:
    """A program that runs meanwhile, and in the end does not."""
    environment = {**os.environ, "HOME": str(folder), "MOZ_REMOTE_ALLOW_SYSTEM_ACCESS": "1"}
    quiet = subprocess.DEVNULL
    process = subprocess.Popen(words, env=environment, stdin=quiet, stdout=quiet, stderr=quiet)
    try:
        yield
    finally:
        process.terminate()
        try:
            process.wait(timeout=10)
        except subprocess.TimeoutExpired:
            process.kill()
            process.wait()


@contextmanager
def chromium(folder: Path, is_dark: bool = False) -> Iterator[Session]:
    port = free_port()
    words = ["--headless=new", "--no-sandbox", "--disable-gpu", f"--user-data-dir={folder / 'chromium'}"]
    options = {"args": [*words, *["--force-dark-mode"] * is_dark]}
    wanted = {"alwaysMatch": {"webSocketUrl": True, "goog:chromeOptions": options}}
    with running(["chromedriver", f"--port={port}"], folder):
        opened = asked(f"http://127.0.0.1:{port}/session", {"capabilities": wanted})["value"]
        session = Session(connected(opened["capabilities"]["webSocketUrl"]))
        session.open_page()
        try:
            yield session
        finally:
            session.socket.close()
            asked(f"http://127.0.0.1:{port}/session/{opened['sessionId']}", None, "DELETE")


def asked(address: str, body: Optional[Dict[str, Any]], method: str = "POST") -> Any:
    """What a server answers; it may still be starting."""
    data = None if body is None else json.dumps(body).encode()
    request = urllib.request.Request(address, data, {"Content-Type": "application/json"}, method=method)
    until = time.monotonic() + PATIENCE
    while True:
        try:
            with heard(), urllib.request.urlopen(request, timeout=PATIENCE) as answer:
                return json.load(answer)
        except Silence:
            if time.monotonic() > until:
                raise
            time.sleep(0.1)


@contextmanager
def firefox(folder: Path, is_dark: bool = False) -> Iterator[Session]:
    port = free_port()
    profile = folder / "firefox"
    profile.mkdir()
    dark = 'user_pref("layout.css.prefers-color-scheme.content-override", 0);\n' if is_dark else ""
    (profile / "user.js").write_text(FIREFOX_SETTINGS + dark, encoding="utf-8")
    words = ["firefox-esr", "--headless", "--no-remote", f"--remote-debugging-port={port}", "--profile", str(profile)]
    with running(words, folder):
        session = Session(connected(f"ws://127.0.0.1:{port}/session"))
        session.call("session.new", {"capabilities": {}})
        session.open_page()
        try:
            yield session
        finally:
            session.call("session.end", {})
            session.socket.close()


@contextmanager
def webkit(folder: Path, is_dark: bool = False) -> Iterator[Session]:
    port, display = free_port(), f":{100 + free_port() % 30000}"
    options = {"binary": MINIBROWSER, "args": ["--automation"]}
    wanted = {"alwaysMatch": {"webkitgtk:browserOptions": options, "timeouts": {"script": int(1000 * PATIENCE)}}}
    words = ["env", f"DISPLAY={display}", "GDK_BACKEND=x11", "WebKitWebDriver", f"--port={port}"]
    with running(["Xvfb", display, "-screen", "0", "1600x1200x24"], folder), running(words, folder):
        opened = asked(f"http://127.0.0.1:{port}/session", {"capabilities": wanted})["value"]
        session = Classic(f"http://127.0.0.1:{port}/session/{opened['sessionId']}")
        try:
            yield session
        finally:
            asked(session.address, None, "DELETE")


# The browsers, and the programs that each needs.
BROWSERS = {"chromium": (chromium, ["chromium", "chromedriver"]), "firefox": (firefox, ["firefox-esr"])}

# One in which the page is shown to read and to decode; its driver cannot do all that the other tests ask of one.
WEBKIT = {"webkit": (webkit, ["WebKitWebDriver", "Xvfb"])}
