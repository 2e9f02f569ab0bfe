"""Drives a page in headless Chromium, by the DevTools protocol over two pipes. For checks/web."""
import base64
import contextlib
import json
import os
import shutil
import subprocess
import tempfile
import time

NAMES = ["chromium", "chromium-browser", "google-chrome"]


def program():
    """The browser's program, if there is one."""
    return next(filter(None, map(shutil.which, NAMES)), None)


class Failed(Exception):
    """The browser refused what it was asked, or a script of the page threw."""


class Page:
    """A page in a browser of its own."""

    def __init__(self, process, to, back):
        self.process, self.to, self.back = process, to, back
        self.number, self.left, self.session, self.said = 0, b"", None, []

    def ask(self, method, **params):
        """What the browser answers; what it says meanwhile is kept."""
        self.number += 1
        request = {"id": self.number, "method": method, "params": params}
        if self.session:
            request["sessionId"] = self.session
        os.write(self.to, json.dumps(request).encode() + b"\0")
        while True:
            told = self.next_message()
            if told.get("id") == self.number:
                if "error" in told:
                    raise Failed(f"{method}: {told['error']['message']}")
                return told["result"]
            self.said.append(told)

    def next_message(self):
        while b"\0" not in self.left:
            piece = os.read(self.back, 1 << 20)
            if not piece:
                raise Failed("the browser ended")
            self.left += piece
        text, _, self.left = self.left.partition(b"\0")
        return json.loads(text)

    def open(self, url, width=1400, height=1000):
        self.ask("Emulation.setDeviceMetricsOverride", width=width, height=height, deviceScaleFactor=1, mobile=False)
        self.ask("Page.navigate", url=url)

    def run(self, script):
        """What an expression in the page comes to; where it is a promise, what that comes to."""
        told = self.ask("Runtime.evaluate", expression=script, awaitPromise=True, returnByValue=True)
        if "exceptionDetails" in told:
            raise Failed(told["exceptionDetails"].get("exception", {}).get("description", "a script threw"))
        return told["result"].get("value")

    def wait(self, script, seconds=20):
        """Waits until an expression in the page is true; whether it became so."""
        end = time.monotonic() + seconds
        while time.monotonic() < end:
            with contextlib.suppress(Failed):
                if self.run(script):
                    return True
            time.sleep(0.05)
        return False

    def key(self, name, code, text=""):
        """Presses a key and lets it go."""
        self.ask("Input.dispatchKeyEvent", type="keyDown" if text else "rawKeyDown", key=name, code=name, windowsVirtualKeyCode=code, text=text)
        self.ask("Input.dispatchKeyEvent", type="keyUp", key=name, code=name, windowsVirtualKeyCode=code)

    def write(self, text):
        """Types a text where the cursor is."""
        self.ask("Input.insertText", text=text)

    def click(self, selector):
        """Clicks on the middle of the first element that a selector finds."""
        place = self.run(
            f"(() => {{ const it = document.querySelector({json.dumps(selector)}); it.scrollIntoView({{ block: 'center' }});"
            " const r = it.getBoundingClientRect(); return [r.x + r.width / 2, r.y + r.height / 2]; })()"
        )
        for kind in ("mousePressed", "mouseReleased"):
            self.ask("Input.dispatchMouseEvent", type=kind, x=place[0], y=place[1], button="left", clickCount=1)

    def picture(self, file, height=None):
        """Writes what the page looks like now."""
        if height:
            width = self.run("window.innerWidth")
            self.ask("Emulation.setDeviceMetricsOverride", width=width, height=height, deviceScaleFactor=1, mobile=False)
        file.write_bytes(base64.b64decode(self.ask("Page.captureScreenshot", format="png")["data"]))

    def emulate(self, **features):
        """Sets features of the medium, such as prefers-color-scheme."""
        self.ask("Emulation.setEmulatedMedia", features=[{"name": name.replace("_", "-"), "value": value} for name, value in features.items()])

    def faults(self):
        """What went wrong in the page: its errors, and what it wrote to the console as such."""
        self.run("0")
        found = []
        for it in self.said:
            params = it.get("params", {})
            if it.get("method") == "Runtime.exceptionThrown":
                found.append(params["exceptionDetails"].get("text", "") + " " + str(params["exceptionDetails"].get("exception", {}).get("description", "")))
            elif it.get("method") == "Runtime.consoleAPICalled" and params["type"] in ("error", "assert"):
                found.append(" ".join(str(arg.get("value", arg.get("description"))) for arg in params["args"]))
            elif it.get("method") == "Log.entryAdded" and params["entry"]["level"] == "error":
                found.append(f"{params['entry']['text']} {params['entry'].get('url', '')}")
        return found

    def requests(self):
        """The addresses that the page asked for."""
        return [it["params"]["request"]["url"] for it in self.said if it.get("method") == "Network.requestWillBeSent"]


@contextlib.contextmanager
def page():
    """A page in a new browser, with nothing kept of it."""
    with tempfile.TemporaryDirectory() as home:
        take, to = os.pipe()
        back, give = os.pipe()

        def as_three_and_four():
            # the browser reads from 3 and writes to 4
            one, other = os.dup(take), os.dup(give)
            os.dup2(one, 3)
            os.dup2(other, 4)

        words = [program(), "--headless=new", "--no-sandbox", "--disable-gpu", "--disable-dev-shm-usage", "--no-first-run", f"--user-data-dir={home}"]
        process = subprocess.Popen(
            [*words, "--remote-debugging-pipe", "about:blank"], stdout=subprocess.DEVNULL, stderr=subprocess.DEVNULL, preexec_fn=as_three_and_four, close_fds=False
        )
        os.close(take)
        os.close(give)
        it = Page(process, to, back)
        try:
            target = next(one for one in it.ask("Target.getTargets")["targetInfos"] if one["type"] == "page")
            it.session = it.ask("Target.attachToTarget", targetId=target["targetId"], flatten=True)["sessionId"]
            for domain in ("Page", "Runtime", "Log", "Network"):
                it.ask(f"{domain}.enable")
            yield it
        finally:
            process.terminate()
            process.wait()
            os.close(to)
            os.close(back)
