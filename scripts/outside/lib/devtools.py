"""Drives headless Chromium by its DevTools protocol, over a pipe (--remote-debugging-pipe), by Python's standard
library alone.

What it can stands in browsers.py.
"""

import base64
import contextlib
import json
import os
import select
import subprocess
import time

from browser_page import ANSWER_SECONDS, Away, BrowserPage

# What is answered while one page goes and another comes.
AWAY = (
    "Inspected target navigated or closed",
    "Execution context was destroyed.",
    "Cannot find context with specified id",
    "Cannot find default execution context",
)
OPTIONS = [
    "--headless=new",
    "--no-sandbox",
    "--disable-gpu",
    "--hide-scrollbars",
    "--force-device-scale-factor=1",
    "--no-first-run",
    "--disable-background-networking",
    "--disable-component-update",
    "--disable-sync",
    "--mute-audio",
    "--remote-debugging-pipe",
]
CAMERA = ["--use-fake-device-for-media-stream", "--use-fake-ui-for-media-stream"]
KEYS = {
    "Backspace": 8,
    "Tab": 9,
    "Enter": 13,
    "Escape": 27,
    "Delete": 46,
    "ArrowLeft": 37,
    "ArrowUp": 38,
    "ArrowRight": 39,
    "ArrowDown": 40,
    "+": 187,
    "-": 189,
    " ": 32,
}
TEXTS = {"Enter": "\r", "+": "+", "-": "-", " ": " "}
CODES = {"+": "Equal", "-": "Minus", " ": "Space"}


class Browser:
    """A Chromium of its own with a new profile; ends with the block that it is made in."""

    def __init__(self, command, profile, camera=False, language="en"):
        to_browser, self.to_browser = os.pipe()
        self.from_browser, from_browser = os.pipe()
        # The browser reads messages from its file 3 and writes them to 4.
        more = [*(CAMERA if camera else []), f"--accept-lang={language}", f"--user-data-dir={profile}"]
        words = ["bash", "-c", f'exec "$@" 3<&{to_browser} 4>&{from_browser}', "bash", command, *OPTIONS, *more]
        self.process = subprocess.Popen(
            words,
            pass_fds=(to_browser, from_browser),
            stdin=subprocess.DEVNULL,
            stdout=subprocess.DEVNULL,
            stderr=subprocess.DEVNULL,
        )
        os.close(to_browser)
        os.close(from_browser)
        self.pipes = [self.to_browser, self.from_browser]
        self.read = b""
        self.last = 0
        self.pages = {}

    def __enter__(self):
        return self

    def __exit__(self, *_):
        if self.process.poll() is None:
            with contextlib.suppress(OSError, AssertionError):
                self.ask("Browser.close")
            with contextlib.suppress(subprocess.TimeoutExpired):
                self.process.wait(20)
        self.kill()

    def message(self, deadline):
        """The next message, None where none comes before the deadline."""
        while b"\0" not in self.read:
            ready, _, _ = select.select([self.from_browser], [], [], max(0, deadline - time.monotonic()))
            if not ready:
                return None
            more = os.read(self.from_browser, 1 << 16)
            assert more, "the browser has ended"
            self.read += more
        text, self.read = self.read.split(b"\0", 1)
        return json.loads(text)

    def ask(self, method, session=None, **parameters):
        """Sends a command and waits for its answer; what happens meanwhile is told to the pages."""
        self.last += 1
        asked = {"id": self.last, "method": method, "params": parameters, **({"sessionId": session} if session else {})}
        os.write(self.to_browser, json.dumps(asked).encode() + b"\0")
        deadline = time.monotonic() + ANSWER_SECONDS
        while True:
            answer = self.message(deadline)
            assert answer is not None, f"{method}: no answer in {ANSWER_SECONDS} s"
            if answer.get("id") == asked["id"]:
                if answer.get("error", {}).get("message") in AWAY:
                    raise Away(method)
                assert "error" not in answer, f"{method}: {answer.get('error')}"
                return answer["result"]
            self.tell(answer)

    def post(self, method, session, **parameters):
        """Sends a command whose answer nobody waits for."""
        self.last += 1
        asked = {"id": self.last, "method": method, "params": parameters, "sessionId": session}
        os.write(self.to_browser, json.dumps(asked).encode() + b"\0")

    def tell(self, event):
        if "method" in event and event.get("sessionId") in self.pages:
            self.pages[event["sessionId"]].happened(event["method"], event["params"])

    def kill(self):
        """Ends the browser as a loss of power does, where it runs still."""
        self.process.kill()
        self.process.wait()
        for pipe in self.pipes:
            os.close(pipe)
        self.pipes = []

    def open(self, address, width=1280, height=800, scale=1, touch=False, kept=False, before=None):
        """Opens an address in a page of its own, which knows nothing of earlier ones: a browser that does opens
        connections ahead.

        With `kept` the page is of the profile, so that what it keeps is there when the browser is started again.
        `before` is a script that runs before those of each page that comes there."""
        context = None if kept else self.ask("Target.createBrowserContext", disposeOnDetach=True)["browserContextId"]
        of = {} if kept else {"browserContextId": context}
        target = self.ask("Target.createTarget", url="about:blank", **of)["targetId"]
        session = self.ask("Target.attachToTarget", targetId=target, flatten=True)["sessionId"]
        page = self.pages[session] = Page(self, session, context, target)
        for domain in ("Page", "Runtime", "Network", "Log"):
            page.ask(f"{domain}.enable")
        page.ask(
            "Emulation.setDeviceMetricsOverride", width=width, height=height, deviceScaleFactor=scale, mobile=touch
        )
        if touch:
            page.ask("Emulation.setTouchEmulationEnabled", enabled=True, maxTouchPoints=5)
        if before:
            page.ask("Page.addScriptToEvaluateOnNewDocument", source=before)
        page.go(address)
        return page


class Page(BrowserPage):
    """A page of Chromium."""

    def __init__(self, browser, session, context, target):
        super().__init__(browser)
        self.session = session
        self.context = context
        self.target = target

    def ask(self, method, **parameters):
        return self.browser.ask(method, self.session, **parameters)

    def happened(self, method, what):
        if method == "Network.requestWillBeSent":
            self.asked.append(what["request"]["url"])
        elif method == "Runtime.consoleAPICalled":
            self.said.append(
                (what["type"], " ".join(str(it.get("value", it.get("description"))) for it in what["args"]), "")
            )
        elif method == "Runtime.exceptionThrown":
            details = what["exceptionDetails"]
            self.said.append(
                ("exception", details.get("exception", {}).get("description", details["text"]), details.get("url", ""))
            )
        elif method == "Page.javascriptDialogOpening":
            # The page asks whether it may be left.
            self.browser.post("Page.handleJavaScriptDialog", self.session, accept=True)
        elif method == "Log.entryAdded":
            entry = what["entry"]
            self.said.append((entry["source"], entry["text"], entry.get("url", "")))

    def go(self, address):
        """Goes to an address, and doesn't wait for what comes."""
        self.ask("Page.navigate", url=address)

    def reload(self):
        self.ask("Page.reload")

    def to_front(self):
        self.ask("Page.bringToFront")

    def close(self):
        if self.context:
            self.browser.ask("Target.disposeBrowserContext", browserContextId=self.context)
        else:
            self.browser.ask("Target.closeTarget", targetId=self.target)
        del self.browser.pages[self.session]

    def choose_files(self, element, files):
        """Gives files to an input of files, as its dialog does."""
        it = self.ask("Runtime.evaluate", expression=element)["result"]["objectId"]
        self.ask("DOM.setFileInputFiles", files=[str(file) for file in files], objectId=it)

    def value(self, expression):
        """The value of an expression in the page; a promise is waited for."""
        answer = self.ask("Runtime.evaluate", expression=expression, returnByValue=True, awaitPromise=True)
        assert "exceptionDetails" not in answer, f"{expression}: {answer.get('exceptionDetails')}"
        return answer["result"].get("value")

    def screenshot(self, clip=None):
        """The page as PNG, or a part of it: x, y, width and height."""
        box = {} if clip is None else {"clip": dict(zip(("x", "y", "width", "height", "scale"), (*clip, 1)))}
        return base64.b64decode(self.ask("Page.captureScreenshot", format="png", **box)["data"])

    def keep_files_in(self, folder):
        """Has files that the page gives to the user kept in a folder."""
        of = {"browserContextId": self.context} if self.context else {}
        self.browser.ask("Browser.setDownloadBehavior", behavior="allow", downloadPath=str(folder), **of)

    def device_is_at(self, longitude, latitude, accuracy):
        """Has the device tell a place to the page, which may ask for it."""
        of = {"browserContextId": self.context} if self.context else {}
        self.browser.ask(
            "Browser.grantPermissions", permissions=["geolocation"], origin=self.value("location.origin"), **of
        )
        self.ask("Emulation.setGeolocationOverride", longitude=longitude, latitude=latitude, accuracy=accuracy)

    def fill_storage(self, is_full):
        """Has the storage of the page's address take next to nothing, or as much as ever."""
        size = {"quotaSize": 1000} if is_full else {}
        self.ask("Storage.overrideQuotaForOrigin", origin=self.value("location.origin"), **size)

    def frames(self):
        """The addresses of the page's frames; of one that wasn't let in that which it was to show."""
        children = self.ask("Page.getFrameTree")["frameTree"].get("childFrames", [])
        return [it["frame"].get("unreachableUrl", it["frame"]["url"]) for it in children]

    def move(self, x, y):
        self.ask("Input.dispatchMouseEvent", type="mouseMoved", x=x, y=y)

    def click(self, x, y):
        self.move(x, y)
        for kind in ("mousePressed", "mouseReleased"):
            self.ask("Input.dispatchMouseEvent", type=kind, x=x, y=y, button="left", clickCount=1)

    def drag(self, start, end):
        """Drags from a point to another in steps, and lets go where it stood still."""
        self.move(*start)
        self.ask(
            "Input.dispatchMouseEvent",
            type="mousePressed",
            x=start[0],
            y=start[1],
            button="left",
            buttons=1,
            clickCount=1,
        )
        for part in range(1, 9):
            x, y = (begin + (stop - begin) * part / 8 for begin, stop in zip(start, end))
            self.ask("Input.dispatchMouseEvent", type="mouseMoved", x=x, y=y, button="left", buttons=1)
        time.sleep(0.3)
        self.ask("Input.dispatchMouseEvent", type="mouseReleased", x=end[0], y=end[1], button="left", clickCount=1)

    def wheel(self, x, y, down):
        """Turns the wheel, and waits for what it begins."""
        self.ask("Input.dispatchMouseEvent", type="mouseWheel", x=x, y=y, deltaX=0, deltaY=down)
        time.sleep(0.6)

    def press(self, *keys):
        for key in keys:
            named = {"key": key, "code": CODES.get(key, key), "windowsVirtualKeyCode": KEYS[key]}
            self.ask(
                "Input.dispatchKeyEvent", type="keyDown", **named, **({"text": TEXTS[key]} if key in TEXTS else {})
            )
            self.ask("Input.dispatchKeyEvent", type="keyUp", **named)

    def type(self, text):
        self.ask("Input.insertText", text=text)

    def touch(self, *places):
        """Puts fingers down, moves them from place to place, each place a list of points, and takes them up."""
        for number, points in enumerate(places):
            kind = "touchMove" if number else "touchStart"
            self.ask(
                "Input.dispatchTouchEvent",
                type=kind,
                touchPoints=[{"x": x, "y": y, "id": finger} for finger, (x, y) in enumerate(points)],
            )
            time.sleep(0.03)
        self.ask("Input.dispatchTouchEvent", type="touchEnd", touchPoints=[])
