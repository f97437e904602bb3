"""Drives a headless Chromium, by the DevTools protocol over a pair of pipes."""
import base64
import json
import os
import select
import shutil
import subprocess
import tempfile
import time

PATIENCE = 30
NAMES = ("chromium", "chromium-browser", "google-chrome")
WORDS = (
    "--headless=new", "--remote-debugging-pipe", "--no-first-run", "--disable-gpu",
    "--disable-extensions", "--disable-background-networking", "--disable-component-update",
    "--disable-dev-shm-usage", "--no-sandbox", "--lang=en", "--force-device-scale-factor=1",
)
# Of a key what the protocol wants beside its name.
CODES = {"Enter": 13, "Tab": 9, "Escape": 27, "F6": 117, "Backspace": 8, "z": 90}
ALT, CONTROL, SHIFT = 1, 2, 8


def chromium():
    """The program, or None where it is not there."""
    return next(filter(None, map(shutil.which, NAMES)), None)


class Broken(Exception):
    """The browser does not answer, or the page's script fails."""


class Browser:
    """A browser without a window."""

    def __init__(self):
        self.folder = tempfile.mkdtemp()
        taken, self.output = os.pipe()
        self.input, given = os.pipe()
        # The browser reads from 3 and writes to 4.
        shell = f'exec "$@" 3<&{taken} 4>&{given} 2>/dev/null'
        words = [chromium(), *WORDS, f"--user-data-dir={self.folder}", "about:blank"]
        self.process = subprocess.Popen(
            ["bash", "-c", shell, "bash", *words], pass_fds=(taken, given),
            stdin=subprocess.DEVNULL, stdout=subprocess.DEVNULL, start_new_session=True,
        )
        os.close(taken)
        os.close(given)
        self.count, self.held, self.events = 0, b"", []

    def ask(self, method, session=None, **fields):
        """The result of a call."""
        self.count += 1
        call = {"id": self.count, "method": method, "params": fields}
        if session:
            call["sessionId"] = session
        os.write(self.output, json.dumps(call).encode() + b"\0")
        while True:
            told = self.message(PATIENCE)
            if told is None:
                raise Broken(f"{method} is not answered")
            if told.get("id") == call["id"]:
                if "error" in told:
                    raise Broken(f"{method}: {told['error']['message']}")
                return told["result"]
            self.events.append(told)

    def message(self, patience):
        """The next message, or None where none comes."""
        until = time.monotonic() + patience
        while b"\0" not in self.held:
            ready, _, _ = select.select([self.input], [], [], max(0, until - time.monotonic()))
            more = os.read(self.input, 1 << 16) if ready else b""
            if not more:
                return None
            self.held += more
        first, _, self.held = self.held.partition(b"\0")
        return json.loads(first)

    def page(self, address, width=1200, height=800):
        """A new tab that shows an address, in a profile of its own that has no history."""
        target = self.ask("Target.createTarget", url="about:blank")["targetId"]
        attached = self.ask("Target.attachToTarget", targetId=target, flatten=True)
        page = Page(self, target, attached["sessionId"])
        page.ask("Page.enable")
        page.ask("Runtime.enable")
        page.ask("Log.enable")
        page.size(width, height)
        page.ask("Page.navigate", url=address)
        return page

    def leave(self):
        try:
            self.ask("Browser.close")
        except (Broken, OSError):
            pass
        try:
            self.process.wait(PATIENCE)
        except subprocess.TimeoutExpired:
            self.process.kill()
        os.close(self.input)
        os.close(self.output)
        shutil.rmtree(self.folder, ignore_errors=True)

    def __enter__(self):
        return self

    def __exit__(self, *_):
        self.leave()


class Page:
    """A tab of the browser."""

    def __init__(self, browser, target, session):
        self.browser, self.target, self.session = browser, target, session

    def ask(self, method, **fields):
        return self.browser.ask(method, self.session, **fields)

    def value(self, expression):
        """What an expression of JavaScript comes to, also where that is promised."""
        told = self.ask(
            "Runtime.evaluate", expression=expression, awaitPromise=True, returnByValue=True,
            userGesture=True,
        )
        if "exceptionDetails" in told:
            details = told["exceptionDetails"]
            raise Broken(details.get("exception", {}).get("description", details["text"]))
        return told["result"].get("value")

    def wait(self, expression, patience=PATIENCE):
        """The value of an expression, once it is one that counts as true."""
        until = time.monotonic() + patience
        while time.monotonic() < until:
            value = self.value(expression)
            if value:
                return value
            time.sleep(0.02)
        raise Broken(f"it does not come to that: {expression}")

    def loads(self):
        """How often the tab was told to have loaded."""
        return sum(
            event["method"] == "Page.loadEventFired" and event.get("sessionId") == self.session
            for event in self.browser.events
        )

    def reload(self):
        """Loads the page anew, and waits until it is there."""
        before = self.loads()
        self.ask("Page.reload")
        while self.loads() == before:
            told = self.browser.message(PATIENCE)
            if told is None:
                raise Broken("the page does not load")
            self.browser.events.append(told)

    def size(self, width, height, scale=1):
        self.ask("Emulation.setDeviceMetricsOverride", width=width, height=height,
                 deviceScaleFactor=scale, mobile=False)

    def dark(self, is_dark):
        value = "dark" if is_dark else "light"
        feature = {"name": "prefers-color-scheme", "value": value}
        self.ask("Emulation.setEmulatedMedia", features=[feature])

    def type(self, text):
        """Types a text where the focus is."""
        self.ask("Input.insertText", text=text)

    def press(self, key, modifiers=0):
        """Presses a key, and lets it go."""
        code = CODES[key]
        fields = {"key": key, "code": key, "windowsVirtualKeyCode": code, "modifiers": modifiers}
        if key == "Enter" and not modifiers:
            fields["text"] = "\r"
        self.ask("Input.dispatchKeyEvent", type="keyDown", **fields)
        self.ask("Input.dispatchKeyEvent", type="keyUp", **fields)

    def click(self, selector):
        """Clicks the middle of an element with the mouse."""
        self.ask("Page.bringToFront")
        place = self.value(f"""(async () => {{
            const one = document.querySelector({json.dumps(selector)});
            // What comes into sight may move what stands below it.
            for (let time = 0; time < 3; time++) {{
                one.scrollIntoView({{block: "center"}});
                await new Promise(shown => requestAnimationFrame(() => setTimeout(shown)));
            }}
            const box = one.getBoundingClientRect();
            return [box.left + box.width / 2, box.top + box.height / 2];
        }})()""")
        spot = {"x": place[0], "y": place[1], "button": "left", "clickCount": 1}
        for kind in ("mousePressed", "mouseReleased"):
            self.ask("Input.dispatchMouseEvent", type=kind, **spot)

    def picture(self, file):
        shown = self.ask("Page.captureScreenshot", format="png")
        with open(file, "wb") as picture:
            picture.write(base64.b64decode(shown["data"]))

    def faults(self):
        """What the browser has logged as an error, such as what its policy keeps from loading."""
        found = []
        for event in self.browser.events:
            fields = event.get("params", {})
            if event.get("sessionId") != self.session:
                continue
            if event["method"] == "Runtime.exceptionThrown":
                details = fields["exceptionDetails"]
                found.append(details.get("exception", {}).get("description", details["text"]))
            if event["method"] == "Log.entryAdded" and fields["entry"]["level"] == "error":
                found.append(fields["entry"]["text"])
        return found

    def close(self):
        self.browser.ask("Target.closeTarget", targetId=self.target)
