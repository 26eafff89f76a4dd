"""Drives headless Firefox by WebDriver BiDi, over a plain WebSocket, by Python's standard library alone.

What it can stands in browsers.py.
"""

import base64
import contextlib
import json
import os
import pathlib
import select
import socket
import struct
import subprocess
import time

from browser_page import ANSWER_SECONDS, Away, BrowserPage

START_SECONDS = 60
OPTIONS = ["--headless", "--no-remote", "--remote-debugging-port=0"]
# Firefox writes the port that it chose into this file of its profile.
PORT_FILE = "WebDriverBiDiServer.json"
# What isn't told to a driven Firefox by itself: fingers, and that nothing is asked of the network or of the user.
PREFERENCES = {
    "dom.w3c_touch_events.enabled": 1,
    "browser.download.folderList": 2,
    "browser.download.always_ask_before_handling_new_types": False,
    "browser.download.alwaysOpenPanel": False,
    "browser.sessionstore.resume_from_crash": False,
    "browser.aboutConfig.showWarning": False,
    "browser.startup.page": 0,
    "browser.shell.checkDefaultBrowser": False,
    "datareporting.policy.dataSubmissionEnabled": False,
    # A mouse, which may hover: without a screen Firefox knows of none.
    "ui.primaryPointerCapabilities": 6,
    "ui.allPointerCapabilities": 6,
    "messaging-system.rsexperimentloader.enabled": False,
    "nimbus.rollouts.enabled": False,
    "network.captive-portal-service.enabled": False,
    "network.connectivity-service.enabled": False,
    "services.settings.server": "data:,#remote-settings-dummy/v1",
    "toolkit.startup.max_resumed_crashes": -1,
    "toolkit.telemetry.enabled": False,
}
CAMERA = {
    "media.navigator.streams.fake": True,
    "media.navigator.permission.disabled": True,
    "media.autoplay.default": 0,
}
EVENTS = ["log.entryAdded", "network.beforeRequestSent", "browsingContext.contextCreated"]
# What is answered while one page goes and another comes, or none does, as where nobody has the port.
AWAY = (
    "AbortError",
    "destroyed before query",
    "no such frame",
    "DiscardedBrowsingContextError",
    "can't access dead object",
    "NS_ERROR_",
)
KEYS = {
    "Backspace": "\ue003",
    "Tab": "\ue004",
    "Enter": "\ue007",
    "Escape": "\ue00c",
    "ArrowLeft": "\ue012",
    "ArrowUp": "\ue013",
    "ArrowRight": "\ue014",
    "ArrowDown": "\ue015",
    "Delete": "\ue017",
}
# Tells a page where the device is. Firefox has a command for that, but tells its own device's errors to who watches,
# too.
DEVICE = """coords => {
  const device = navigator.geolocation, watches = device.watches ??= new Map();
  device.now = { coords, timestamp: Date.now() };
  device.getCurrentPosition = good => void setTimeout(() => good(device.now));
  device.watchPosition = good => {
    const number = watches.size + 1;
    watches.set(number, good);
    setTimeout(() => watches.get(number)?.(device.now));
    return number;
  };
  device.clearWatch = number => void watches.set(number, null);
  for (const good of watches.values()) good?.(device.now);
}"""
# Has what is put into a storage end its change, behind that, by the error of a full one.
STORAGE = """isFull => {
  const store = IDBObjectStore.prototype, change = IDBTransaction.prototype;
  const full = new DOMException('', 'QuotaExceededError'), refused = new WeakSet();
  store.wasPut ??= store.put;
  change.wasCommit ??= change.commit;
  store.put = isFull ? function(...it) {
    const request = store.wasPut.apply(this, it), transaction = this.transaction;
    refused.add(transaction);
    Object.defineProperty(transaction, 'error', { value: full });
    queueMicrotask(() => { try { transaction.abort(); } catch { /* it has ended */ } });
    return request;
  } : store.wasPut;
  // What is committed at once can't be ended any more.
  change.commit = isFull ? function() { if (!refused.has(this)) change.wasCommit.call(this); } : change.wasCommit;
}"""
TEXT, CLOSE, PING, PONG = 1, 8, 9, 10


class Socket:
    """A WebSocket to a port of this machine."""

    def __init__(self, port):
        self.connection = socket.create_connection(("127.0.0.1", port), timeout=ANSWER_SECONDS)
        key = base64.b64encode(os.urandom(16)).decode()
        lines = [
            "GET /session HTTP/1.1",
            f"Host: 127.0.0.1:{port}",
            "Upgrade: websocket",
            "Connection: Upgrade",
            f"Sec-WebSocket-Key: {key}",
            "Sec-WebSocket-Version: 13",
        ]
        self.connection.sendall("\r\n".join([*lines, "", ""]).encode())
        self.read = b""
        deadline = time.monotonic() + ANSWER_SECONDS
        while b"\r\n\r\n" not in self.read:
            self.more(deadline)
        head, self.read = self.read.split(b"\r\n\r\n", 1)
        assert head.startswith(b"HTTP/1.1 101 "), head

    def more(self, deadline):
        """Reads on, and answers whether something came before the deadline."""
        ready, _, _ = select.select([self.connection], [], [], max(0, deadline - time.monotonic()))
        if not ready:
            return False
        part = self.connection.recv(1 << 16)
        assert part, "the browser has ended"
        self.read += part
        return True

    def send(self, data, kind=TEXT):
        """Sends a message in one frame, masked as a client's has to be."""
        size, mask = len(data), os.urandom(4)
        long = (
            bytes([0x80 | size])
            if size < 126
            else b"\xfe" + struct.pack(">H", size)
            if size < 1 << 16
            else b"\xff" + struct.pack(">Q", size)
        )
        masked = int.from_bytes(data, "big") ^ int.from_bytes((mask * (size // 4 + 1))[:size], "big")
        self.connection.sendall(bytes([0x80 | kind]) + long + mask + masked.to_bytes(size, "big"))

    def frame(self):
        """Takes the next frame, if it came whole: whether it is the last of its message, its kind, and its bytes."""
        read = self.read
        if len(read) < 2:
            return None
        begins, size = 2, read[1] & 0x7F
        if size > 125:
            begins, form = (4, ">H") if size == 126 else (10, ">Q")
            if len(read) < begins:
                return None
            (size,) = struct.unpack(form, read[2:begins])
        if len(read) < begins + size:
            return None
        self.read = read[begins + size :]
        return bool(read[0] & 0x80), read[0] & 0x0F, read[begins : begins + size]

    def message(self, deadline):
        """The next message, None where none comes before the deadline."""
        parts = b""
        while True:
            frame = self.frame()
            if frame is None:
                if not self.more(deadline):
                    return None
                continue
            last, kind, data = frame
            assert kind != CLOSE, "the browser has ended"
            if kind == PING:
                self.send(data, PONG)
            elif kind != PONG:
                parts += data
                if last:
                    return json.loads(parts)

    def close(self):
        self.connection.close()


def plain(told):
    """A value that BiDi tells, as Python has it."""
    kind, value = told["type"], told.get("value")
    if kind in ("undefined", "null"):
        return None
    if kind in ("array", "set", "nodelist", "htmlcollection"):
        return [plain(it) for it in value]
    if kind in ("object", "map"):
        return {key if isinstance(key, str) else plain(key): plain(it) for key, it in value or []}
    if kind == "number" and isinstance(value, str):
        return 0 if value == "-0" else None
    if kind in ("string", "number", "boolean", "bigint", "date", "regexp"):
        return value
    return {}


class Browser:
    """A Firefox of its own; ends with the block that it is made in."""

    def __init__(self, command, profile, camera=False, language="en"):
        self.profile = pathlib.Path(profile)
        self.profile.mkdir(parents=True, exist_ok=True)
        wanted = PREFERENCES | (CAMERA if camera else {}) | {"intl.accept_languages": language}
        lines = [f"user_pref({json.dumps(name)}, {json.dumps(value)});\n" for name, value in wanted.items()]
        (self.profile / "user.js").write_text("".join(lines))
        (self.profile / PORT_FILE).unlink(missing_ok=True)
        self.process = subprocess.Popen(
            [command, *OPTIONS, "--profile", str(self.profile)],
            stdin=subprocess.DEVNULL,
            stdout=subprocess.DEVNULL,
            stderr=subprocess.DEVNULL,
        )
        self.socket, self.last, self.pages, self.front = None, 0, {}, None
        try:
            self.socket = Socket(self.port())
            wanted = {"alwaysMatch": {"unhandledPromptBehavior": {"default": "accept"}}}
            self.ask("session.new", capabilities=wanted)
            self.ask("session.subscribe", events=EVENTS)
        except BaseException:
            self.kill()
            raise

    def port(self):
        """The port that the browser tells once it listens."""
        file, deadline = self.profile / PORT_FILE, time.monotonic() + START_SECONDS
        while time.monotonic() < deadline:
            assert (
                self.process.poll() is None
            ), f"Firefox ended with {self.process.returncode} as soon as it was started"
            with contextlib.suppress(OSError, ValueError, KeyError):
                return json.loads(file.read_text())["ws_port"]
            time.sleep(0.05)
        raise AssertionError(f"Firefox tells no port in {START_SECONDS} s")

    def __enter__(self):
        return self

    def __exit__(self, *_):
        if self.process.poll() is None:
            with contextlib.suppress(OSError, AssertionError):
                self.ask("browser.close")
            with contextlib.suppress(subprocess.TimeoutExpired):
                self.process.wait(20)
        self.kill()

    def kill(self):
        """Ends the browser as a loss of power does, where it runs still."""
        self.process.kill()
        self.process.wait()
        if self.socket:
            self.socket.close()

    def ask(self, method, **parameters):
        """Sends a command and waits for its answer; what happens meanwhile is told to the pages."""
        self.last += 1
        asked = self.last
        self.socket.send(json.dumps({"id": asked, "method": method, "params": parameters}).encode())
        deadline = time.monotonic() + ANSWER_SECONDS
        while True:
            answer = self.socket.message(deadline)
            assert answer is not None, f"{method}: no answer in {ANSWER_SECONDS} s"
            if answer.get("id") == asked:
                if answer["type"] == "error" and any(it in f"{answer['error']}: {answer['message']}" for it in AWAY):
                    raise Away(method)
                assert answer["type"] == "success", f"{method}: {answer.get('error')}: {answer.get('message')}"
                return answer["result"]
            if answer["type"] == "event":
                self.tell(answer["method"], answer["params"])

    def tell(self, method, what):
        page = self.pages.get(what.get("context") or what.get("source", {}).get("context"))
        if method == "browsingContext.contextCreated":
            # What a frame does is its page's.
            self.pages.setdefault(what["context"], self.pages.get(what.get("parent")))
        elif page:
            page.happened(method, what)

    def open(self, address, width=1280, height=800, scale=1, touch=False, kept=False, before=None):
        """Opens an address in a page of its own, which knows nothing of earlier ones.

        With `kept` the page is of the profile, so that what it keeps is there when the browser is started again.
        `before` is a script that runs before those of each page that comes there. Fingers may touch each page: Firefox
        can't be told which device has some (`touch`).
        """
        user = None if kept else self.ask("browser.createUserContext")["userContext"]
        context = self.ask("browsingContext.create", type="tab", **({} if kept else {"userContext": user}))["context"]
        page = self.pages[context] = self.front = Page(self, context, user)
        self.ask(
            "browsingContext.setViewport",
            context=context,
            viewport={"width": width, "height": height},
            devicePixelRatio=scale,
        )
        if before:
            self.ask("script.addPreloadScript", functionDeclaration=f"() => {{ {before} }}", contexts=[context])
        page.go(address)
        return page


class Page(BrowserPage):
    """A page of Firefox. Only the page in front gets what a user does, so that comes to the front first."""

    def __init__(self, browser, context, user):
        super().__init__(browser)
        self.context, self.user = context, user

    def ask(self, method, **parameters):
        return self.browser.ask(method, context=self.context, **parameters)

    def happened(self, method, what):
        if method == "network.beforeRequestSent":
            self.asked.append(what["request"]["url"])
        elif method == "log.entryAdded":
            kind = (
                what.get("method")
                if what["type"] == "console"
                else "exception"
                if what["level"] == "error"
                else what["level"]
            )
            stack = what.get("stackTrace") or {}
            frames = stack.get("callFrames") or [{}]
            self.said.append((kind, what.get("text") or "", frames[0].get("url", "")))

    def go(self, address):
        """Goes to an address, and doesn't wait for what comes, be it nothing."""
        with contextlib.suppress(Away):
            self.ask("browsingContext.navigate", url=address, wait="none")

    def reload(self):
        with contextlib.suppress(Away):
            self.ask("browsingContext.reload", wait="none")

    def to_front(self):
        self.ask("browsingContext.activate")
        self.browser.front = self

    def close(self):
        self.ask("browsingContext.close")
        if self.user:
            self.browser.ask("browser.removeUserContext", userContext=self.user)
        self.browser.pages = {context: page for context, page in self.browser.pages.items() if page is not self}
        if self.browser.front is self:
            self.browser.front = None

    def evaluated(self, expression, **how):
        answer = self.browser.ask(
            "script.evaluate", expression=expression, target={"context": self.context}, awaitPromise=True, **how
        )
        assert answer["type"] == "success", f"{expression}: {answer['exceptionDetails'].get('text')}"
        return answer["result"]

    def value(self, expression):
        return plain(self.evaluated(expression))

    def choose_files(self, element, files):
        """Gives files to an input of files, as its dialog does."""
        it = self.evaluated(element, resultOwnership="root")["sharedId"]
        self.ask("input.setFiles", element={"sharedId": it}, files=[str(file) for file in files])

    def screenshot(self, clip=None):
        """The page as PNG, or a part of it: x, y, width and height."""
        box = {} if clip is None else {"clip": {"type": "box", **dict(zip(("x", "y", "width", "height"), clip))}}
        return base64.b64decode(self.ask("browsingContext.captureScreenshot", **box)["data"])

    def keep_files_in(self, folder):
        """Has files that the page gives to the user kept in a folder."""
        of = {"userContexts": [self.user]} if self.user else {}
        self.browser.ask(
            "browser.setDownloadBehavior", downloadBehavior={"type": "allowed", "destinationFolder": str(folder)}, **of
        )

    def device_is_at(self, longitude, latitude, accuracy):
        """Has the device tell a place to the page, which may ask for it."""
        self.value(f"({DEVICE})({{ longitude: {longitude}, latitude: {latitude}, accuracy: {accuracy} }}); 0")

    def fill_storage(self, is_full):
        """Has the page's storage take nothing, or what it is given, as long as the page stays."""
        self.value(f"({STORAGE})({json.dumps(is_full)}); 0")

    def frames(self):
        """The addresses of the page's frames."""
        (tree,) = self.browser.ask("browsingContext.getTree", root=self.context)["contexts"]
        return [it["url"] for it in tree["children"]]

    def act(self, *sources):
        """Does what fingers, mouse and keys do, side by side: each source with its actions."""
        if self.browser.front is not self:
            self.to_front()
        self.ask("input.performActions", actions=list(sources))

    def mouse(self, *actions):
        self.act({"type": "pointer", "id": "mouse", "parameters": {"pointerType": "mouse"}, "actions": list(actions)})

    def move(self, x, y):
        self.mouse(to(x, y))

    def click(self, x, y):
        self.mouse(to(x, y), {"type": "pointerDown", "button": 0}, {"type": "pointerUp", "button": 0})

    def drag(self, start, end):
        """Drags from a point to another in steps, and lets go where it stood still."""
        steps = [
            to(*(begin + (stop - begin) * part / 8 for begin, stop in zip(start, end)), 20) for part in range(1, 9)
        ]
        self.mouse(
            to(*start),
            {"type": "pointerDown", "button": 0},
            *steps,
            {"type": "pause", "duration": 300},
            {"type": "pointerUp", "button": 0},
        )

    def wheel(self, x, y, down):
        """Turns the wheel, and waits for what it begins."""
        turn = {"type": "scroll", "x": round(x), "y": round(y), "deltaX": 0, "deltaY": down}
        self.act({"type": "wheel", "id": "wheel", "actions": [turn]})
        time.sleep(0.6)

    def strike(self, keys):
        strokes = [{"type": kind, "value": key} for key in keys for kind in ("keyDown", "keyUp")]
        self.act({"type": "key", "id": "keys", "actions": strokes})

    def press(self, *keys):
        self.strike([KEYS.get(it, it) for it in keys])

    def type(self, text):
        self.strike(text)

    def touch(self, *places):
        """Puts fingers down, moves them from place to place, each place a list of points, and takes them up."""
        fingers = []
        for finger in range(len(places[0])):
            begin, *rest = (points[finger] for points in places)
            moves = [to(*it, 30) for it in rest]
            actions = [to(*begin), {"type": "pointerDown", "button": 0}, *moves, {"type": "pointerUp", "button": 0}]
            fingers.append(
                {
                    "type": "pointer",
                    "id": f"finger {finger}",
                    "parameters": {"pointerType": "touch"},
                    "actions": actions,
                }
            )
        self.act(*fingers)


def to(x, y, milliseconds=0):
    """A pointer's move to a point of the page that is seen."""
    return {"type": "pointerMove", "x": x, "y": y, "duration": milliseconds}
