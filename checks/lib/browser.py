"""Drives a page in a Chromium by its debugging pipe: loads it, runs scripts in it, clicks, types and looks."""
import base64
import contextlib
import json
import os
import shutil
import subprocess
import tempfile
import time

from checks.lib.rows import must

BROWSERS = ("chromium", "chromium-browser", "google-chrome", "chrome")
LONGEST = 60


def browser_here():
    """Returns the path of a Chromium, or None."""
    return next(filter(None, map(shutil.which, BROWSERS)), None)


class Page:
    """A tab of a browser that runs without a window."""

    def __init__(self, write_end, read_end):
        self.out, self.into = os.fdopen(write_end, "wb"), os.fdopen(read_end, "rb")
        self.asked, self.tab, self.faults = 0, None, []
        target = self.call("Target.createTarget", url="about:blank")["targetId"]
        self.tab = self.call("Target.attachToTarget", targetId=target, flatten=True)["sessionId"]
        for part in ("Page", "Runtime", "Log"):
            self.call(f"{part}.enable")

    def message(self):
        text = bytearray()
        while (byte := self.into.read(1)) != b"\0":
            must(byte, "the browser ended")
            text += byte
        return json.loads(text)

    def heed(self, message):
        """Keeps what a message says of a fault in the page."""
        if message.get("method") == "Runtime.exceptionThrown":
            self.faults.append(message["params"]["exceptionDetails"]["text"])
        if message.get("method") == "Log.entryAdded" and message["params"]["entry"]["level"] == "error":
            self.faults.append(message["params"]["entry"]["text"])

    def call(self, method, **words):
        self.asked += 1
        asked = {"id": self.asked, "method": method, "params": words}
        if self.tab:
            asked["sessionId"] = self.tab
        self.out.write(json.dumps(asked).encode() + b"\0")
        self.out.flush()
        while (answer := self.message()).get("id") != self.asked:
            self.heed(answer)
        must("result" in answer, f"{method}: {answer.get('error')}")
        return answer["result"]

    def script(self, text):
        """Returns the value of an expression in the page, waiting for it where it is a promise."""
        answer = self.call("Runtime.evaluate", expression=text, awaitPromise=True, returnByValue=True)
        must("exceptionDetails" not in answer, f"{text[:80]}: {answer.get('exceptionDetails', {}).get('exception')}")
        return answer["result"].get("value")

    def wait(self, text):
        """Waits until an expression holds in the page."""
        end = time.monotonic() + LONGEST
        while not self.script(text):
            must(time.monotonic() < end, f"the page never comes to {text}")
            time.sleep(0.02)

    def open(self, url):
        self.call("Page.navigate", url="about:blank")
        self.call("Page.navigate", url=url)
        self.wait("location.protocol === 'file:' && document.readyState === 'complete'")

    def size(self, width, height=800, theme="light"):
        self.call("Emulation.setDeviceMetricsOverride", width=width, height=height, deviceScaleFactor=1,
                  mobile=width < 600)
        self.media("", theme)

    def media(self, media, theme):
        self.call("Emulation.setEmulatedMedia", media=media,
                  features=[{"name": "prefers-color-scheme", "value": theme}])

    def middle(self, selector):
        """Scrolls an element into view, and returns its middle in the window."""
        return self.script(f"""(() => {{ const it = document.querySelector({json.dumps(selector)});
            it.scrollIntoView({{ block: "center", inline: "center" }});
            const box = it.getBoundingClientRect();
            return [box.left + box.width / 2, box.top + box.height / 2]; }})()""")

    def mouse(self, kind, x, y):
        down = 0 if kind == "mouseReleased" else 1
        button = {"button": "left", "buttons": down, "clickCount": 1}
        self.call("Input.dispatchMouseEvent", type=kind, x=x, y=y, **button)

    def click(self, selector):
        x, y = self.middle(selector)
        self.mouse("mousePressed", x, y)
        self.mouse("mouseReleased", x, y)

    def drag(self, start, end):
        self.mouse("mousePressed", *start)
        self.mouse("mouseMoved", *end)
        self.mouse("mouseReleased", *end)

    def point(self, selector):
        """Moves the pointer over an element."""
        x, y = self.middle(selector)
        self.call("Input.dispatchMouseEvent", type="mouseMoved", x=x, y=y)

    def key(self, key):
        for kind in ("keyDown", "keyUp"):
            self.call("Input.dispatchKeyEvent", type=kind, key=key)

    def drop(self, selector, data):
        """Drops files or texts on an element, from outside the page."""
        x, y = self.middle(selector)
        for kind in ("dragEnter", "dragOver", "drop"):
            self.call("Input.dispatchDragEvent", type=kind, x=x, y=y,
                      data={"items": [], "dragOperationsMask": 1, **data})

    def choose(self, selector, file):
        """Chooses a file for a field of the page."""
        root = self.call("DOM.getDocument")["root"]["nodeId"]
        node = self.call("DOM.querySelector", nodeId=root, selector=selector)["nodeId"]
        self.call("DOM.setFileInputFiles", nodeId=node, files=[file])

    def picture(self, file):
        """Saves the whole page as a PNG."""
        with open(file, "wb") as out:
            out.write(base64.b64decode(self.call("Page.captureScreenshot", captureBeyondViewport=True)["data"]))


@contextlib.contextmanager
def opened(browser):
    """Yields a page in this browser, which ends with it."""
    (browser_reads, write_end), (read_end, browser_writes) = os.pipe(), os.pipe()
    with tempfile.TemporaryDirectory() as folder:
        words = [browser, "--headless", "--no-sandbox", "--disable-gpu", "--remote-debugging-pipe",
                 f"--user-data-dir={folder}"]
        start = ["sh", "-c", f'exec "$@" 3<&{browser_reads} 4>&{browser_writes}', "sh", *words, "about:blank"]
        ends = (browser_reads, browser_writes)
        process = subprocess.Popen(start, pass_fds=ends, stdout=subprocess.DEVNULL, stderr=subprocess.DEVNULL)
        for end in ends:
            os.close(end)
        try:
            yield Page(write_end, read_end)
        finally:
            process.terminate()
            process.wait(LONGEST)
