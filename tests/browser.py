"""A page in headless Chromium, by the protocol of its pipe."""

import base64
import json
import os
import shutil
import subprocess
import time

NAMES = ["chromium", "chromium-browser", "google-chrome"]
WORDS = ["--headless=new", "--no-sandbox", "--disable-gpu", "--hide-scrollbars", "--remote-debugging-pipe"]
PATIENCE = 60


def found():
    """The browser, where there is one."""
    return next((path for path in map(shutil.which, NAMES) if path), None)


class Browser:
    """One window with one page."""

    def __init__(self, folder, *words, size=(1400, 900)):
        there, self.say = os.pipe()
        self.hear, back = os.pipe()

        def pipes():
            # the browser reads 3 and writes 4
            spare = [os.dup(there), os.dup(back)]
            os.dup2(spare[0], 3)
            os.dup2(spare[1], 4)

        command = [found(), *WORDS, f"--user-data-dir={folder}", f"--window-size={size[0]},{size[1]}", *words]
        self.child = subprocess.Popen(
            [*command, "about:blank"], preexec_fn=pipes, close_fds=False, stderr=subprocess.DEVNULL
        )
        os.close(there)
        os.close(back)
        self.number, self.rest, self.session = 0, b"", None
        targets = self.ask("Target.getTargets")["targetInfos"]
        page = next(one["targetId"] for one in targets if one["type"] == "page")
        self.session = self.ask("Target.attachToTarget", targetId=page, flatten=True)["sessionId"]
        self.ask("Page.enable")

    def ask(self, method, **params):
        """The answer to one question; what is told beside is passed over."""
        self.number += 1
        said = {"id": self.number, "method": method, "params": params}
        if self.session:
            said["sessionId"] = self.session
        os.write(self.say, json.dumps(said).encode() + b"\0")
        while True:
            heard = self.next()
            if heard.get("id") == self.number:
                if "error" in heard:
                    raise RuntimeError(f"{method}: {heard['error']}")
                return heard["result"]

    def next(self):
        while b"\0" not in self.rest:
            more = os.read(self.hear, 1 << 20)
            if not more:
                raise RuntimeError("the browser ended")
            self.rest += more
        text, _, self.rest = self.rest.partition(b"\0")
        return json.loads(text)

    def open(self, path, fragment=""):
        """Opens a page: the seconds until it was drawn."""
        begun = time.monotonic()
        self.ask("Page.navigate", url=f"file://{os.path.abspath(path)}{fragment}")
        self.wait("document.documentElement?.dataset.opened")
        return time.monotonic() - begun

    def wait(self, expression):
        end = time.monotonic() + PATIENCE
        while time.monotonic() < end:
            value = self.value(expression)
            if value:
                return value
            time.sleep(0.02)
        raise RuntimeError(f"never: {expression}")

    def value(self, expression):
        answer = self.ask("Runtime.evaluate", expression=expression, returnByValue=True)
        if "exceptionDetails" in answer:
            raise RuntimeError(answer["exceptionDetails"]["exception"].get("description"))
        return answer["result"].get("value")

    def key(self, name, code=0, text=None):
        more = {"text": text} if text else {}
        self.ask("Input.dispatchKeyEvent", type="keyDown", key=name, windowsVirtualKeyCode=code, **more)
        self.ask("Input.dispatchKeyEvent", type="keyUp", key=name, windowsVirtualKeyCode=code)

    def mouse(self, kind, x, y, **more):
        self.ask("Input.dispatchMouseEvent", type=kind, x=x, y=y, **more)

    def click(self, x, y):
        self.mouse("mousePressed", x, y, button="left", clickCount=1)
        self.mouse("mouseReleased", x, y, button="left", clickCount=1)

    def drag(self, x, y, distance):
        self.mouse("mousePressed", x, y, button="left", buttons=1, clickCount=1)
        for share in (0.3, 0.6, 1):
            self.mouse("mouseMoved", x + share * distance, y, button="left", buttons=1)
        self.mouse("mouseReleased", x + distance, y, button="left", clickCount=1)

    def picture(self, path):
        with open(path, "wb") as file:
            file.write(base64.b64decode(self.ask("Page.captureScreenshot", format="png")["data"]))

    def close(self):
        self.child.terminate()
        self.child.wait()
        os.close(self.say)
        os.close(self.hear)
