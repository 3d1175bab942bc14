"""browser: a headless Chromium, driven by its DevTools protocol over two pipes, for checks/page.py."""
import base64
import json
import os
import shutil
import subprocess
import tempfile
import time

def installed():
    """The path of Chromium, or None."""
    return shutil.which("chromium") or shutil.which("chromium-browser") or shutil.which("google-chrome")

class Browser:
    """One page of a browser. It is ended by leaving a `with`."""

    def __init__(self, width=1400, height=1000):
        self.room = tempfile.TemporaryDirectory()
        (theirs_in, self.out), (self.back, theirs_out) = os.pipe(), os.pipe()
        words = [installed(), "--headless", "--no-sandbox", "--disable-gpu", "--remote-debugging-pipe",
                 "--hide-scrollbars", f"--window-size={width},{height}", f"--user-data-dir={self.room.name}"]

        def fit():
            # (Chromium reads its orders from descriptor 3 and answers on 4)
            os.dup2(os.dup(theirs_in), 3)
            os.dup2(os.dup(theirs_out), 4)
        self.child = subprocess.Popen(words, stdin=subprocess.DEVNULL, stdout=subprocess.DEVNULL,
                                      stderr=subprocess.DEVNULL, close_fds=False, preexec_fn=fit)
        os.close(theirs_in)
        os.close(theirs_out)
        self.kept, self.number, self.session, self.errors = b"", 0, None, []
        target = self.ask("Target.createTarget", url="about:blank")["targetId"]
        self.session = self.ask("Target.attachToTarget", targetId=target, flatten=True)["sessionId"]
        for domain in ("Page", "Runtime", "Network", "Log"):
            self.ask(f"{domain}.enable")
        self.ask("Emulation.setDeviceMetricsOverride", width=width, height=height, deviceScaleFactor=1, mobile=False)
        self.requests = []

    def __enter__(self):
        return self

    def __exit__(self, *_):
        self.child.terminate()
        self.child.wait()
        os.close(self.out)
        os.close(self.back)
        self.room.cleanup()

    def read(self):
        """The next message."""
        while b"\0" not in self.kept:
            more = os.read(self.back, 1 << 16)
            if not more:
                raise EOFError("the browser has ended")
            self.kept += more
        message, self.kept = self.kept.split(b"\0", 1)
        return json.loads(message)

    def ask(self, method, **values):
        """The answer to an order. Faults of the page, and requests for anything, are kept on the way."""
        self.number += 1
        order = {"id": self.number, "method": method, "params": values}
        if self.session:
            order["sessionId"] = self.session
        os.write(self.out, json.dumps(order).encode() + b"\0")
        while True:
            message = self.read()
            if message.get("id") == self.number:
                if "error" in message:
                    raise RuntimeError(f"{method}: {message['error']}")
                return message["result"]
            if message.get("method") == "Runtime.exceptionThrown":
                self.errors.append(message["params"]["exceptionDetails"].get("exception", {}).get("description", "?"))
            if message.get("method") == "Log.entryAdded" and message["params"]["entry"]["level"] == "error":
                self.errors.append(message["params"]["entry"]["text"])
            if message.get("method") == "Network.requestWillBeSent":
                self.requests.append(message["params"]["request"]["url"])

    def value(self, script):
        """The value of an expression in the page."""
        result = self.ask("Runtime.evaluate", expression=script, returnByValue=True)
        if "exceptionDetails" in result:
            raise RuntimeError(result["exceptionDetails"]["exception"].get("description"))
        return result["result"].get("value")

    def wait(self, script, seconds=60):
        """Waits until an expression is true."""
        end = time.monotonic() + seconds
        while not self.value(script):
            if time.monotonic() > end:
                raise TimeoutError(script)
            time.sleep(0.05)

    def open(self, address):
        self.ask("Page.navigate", url="about:blank")
        self.wait("location.href === 'about:blank'")
        self.requests.clear()
        self.ask("Page.navigate", url=address)
        self.wait("document.readyState === 'complete' && location.href !== 'about:blank'")

    def press(self, key):
        for kind in ("keyDown", "keyUp"):
            self.ask("Input.dispatchKeyEvent", type=kind, key=key, code=key)

    def click(self, x, y):
        self.ask("Input.dispatchMouseEvent", type="mouseMoved", x=x, y=y)
        for kind in ("mousePressed", "mouseReleased"):
            self.ask("Input.dispatchMouseEvent", type=kind, x=x, y=y, button="left", clickCount=1)

    def click_on(self, script, x=0.5, y=0.5):
        """Clicks into an element, at these parts of its width and height."""
        box = self.value(f"(it => {{ it.scrollIntoView({{block: 'center'}}); const b = it.getBoundingClientRect(); "
                         f"return [b.left, b.top, b.width, b.height]; }})({script})")
        self.click(box[0] + x * box[2], box[1] + y * box[3])

    def picture(self, name, whole=False):
        data = self.ask("Page.captureScreenshot", format="png", captureBeyondViewport=whole)["data"]
        with open(name, "wb") as file:
            file.write(base64.b64decode(data))

    def printed(self):
        """The page as it prints, as PDF."""
        return base64.b64decode(self.ask("Page.printToPDF", preferCSSPageSize=True, printBackground=True)["data"])
