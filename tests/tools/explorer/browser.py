"""A headless Chromium, steered over a pipe by its debugging protocol, with the standard library alone; and how well what it shows is read."""

import base64
import contextlib
import json
import math
import os
import re
import select
import shutil
import subprocess
import tempfile
import time
from typing import Any, Dict, List, Optional, Union

NAMES = ("chromium", "chromium-browser", "google-chrome")
PATIENCE = 120.0
KEYS = {"ArrowRight": 39, "ArrowLeft": 37, "Home": 36, "End": 35, "PageDown": 34, "PageUp": 33, "Tab": 9, "Enter": 13, "Space": 32}
TEXTS = {"Enter": "\r", "Space": " "}


Told = Dict[str, Any]  # of JSON, whose form the browser's protocol has for each message
Path = Union[str, "os.PathLike[str]"]
Colour = List[float]
"""Red, green and blue, from 0 to 1."""


def find_browser() -> Optional[str]:
    """The program's path, None where there is none."""
    return next((path for name in NAMES if (path := shutil.which(name))), None)


class Browser:
    """One page. `errors` are the exceptions of its scripts and the errors of its console, `asked` the addresses that it wanted."""

    def __init__(self) -> None:
        self.profile = tempfile.TemporaryDirectory()
        to_read, self.write_end = os.pipe()
        self.read_end, to_write = os.pipe()
        words = [find_browser() or NAMES[0], "--headless", "--no-sandbox", "--disable-gpu", "--no-first-run", "--disable-dev-shm-usage", "--remote-debugging-pipe",
                 f"--user-data-dir={self.profile.name}", "--window-size=1440,900", "about:blank"]
        shell = f'exec "$@" 3<&{to_read} 4>&{to_write}'
        self.child = subprocess.Popen(["bash", "-c", shell, "bash", *words], pass_fds=(to_read, to_write), stdout=subprocess.DEVNULL, stderr=subprocess.DEVNULL)
        os.close(to_read)
        os.close(to_write)
        self.waiting, self.number, self.loaded = b"", 0, False
        self.session: Optional[str] = None
        self.errors: List[str] = []
        self.asked: List[str] = []
        target = next(info["targetId"] for info in self.call("Target.getTargets")["targetInfos"] if info["type"] == "page")
        self.session = self.call("Target.attachToTarget", targetId=target, flatten=True)["sessionId"]
        for domain in ("Page", "Runtime", "Log", "Network"):
            self.call(f"{domain}.enable")

    def close(self) -> None:
        self.child.kill()
        self.child.wait()
        os.close(self.write_end)
        os.close(self.read_end)
        with contextlib.suppress(OSError):  # What the browser started may still write there.
            self.profile.cleanup()

    def call(self, method: str, **parameters: object) -> Told:
        """Asks the browser, and waits for its answer."""
        self.number += 1
        message = {"id": self.number, "method": method, "params": parameters, **({"sessionId": self.session} if self.session else {})}
        os.write(self.write_end, json.dumps(message).encode() + b"\0")
        while True:
            answer = self.hear()
            if answer.get("id") == self.number:
                if "error" in answer:
                    raise AssertionError(f"{method}: {answer['error']}")
                result: Told = answer["result"]
                return result

    def hear(self) -> Told:
        """The next message; what it tells of the page is noted."""
        end = time.monotonic() + PATIENCE
        while b"\0" not in self.waiting:
            if not select.select([self.read_end], [], [], max(0.0, end - time.monotonic()))[0]:
                raise AssertionError("the browser is silent")
            self.waiting += os.read(self.read_end, 1 << 20)
        text, self.waiting = self.waiting.split(b"\0", 1)
        message: Told = json.loads(text)
        self.note(message.get("method"), message.get("params", {}))
        return message

    def note(self, method: Optional[str], told: Told) -> None:
        if method == "Runtime.exceptionThrown":
            self.errors.append(told["exceptionDetails"].get("exception", {}).get("description", "exception"))
        elif method == "Log.entryAdded" and told["entry"]["level"] == "error":
            self.errors.append(told["entry"]["text"])
        elif method == "Network.requestWillBeSent":
            self.asked.append(told["request"]["url"])
        elif method == "Page.loadEventFired":
            self.loaded = True

    def open(self, path: Path) -> None:
        self.errors, self.asked, self.loaded = [], [], False
        self.call("Page.navigate", url="about:blank")
        while not self.loaded:
            self.hear()
        self.loaded, self.asked = False, []
        self.call("Page.navigate", url=f"file://{path}")
        while not self.loaded:
            self.hear()

    def value(self, expression: str) -> Any:
        """What an expression of the page's script comes to: JSON of any form."""
        made = self.call("Runtime.evaluate", expression=expression, returnByValue=True)
        if "exceptionDetails" in made:
            raise AssertionError(f"{expression}: {made['exceptionDetails']}")
        return made["result"].get("value")

    def press(self, key: str, times: int = 1) -> None:
        named = {"key": " " if key == "Space" else key, "code": key, "windowsVirtualKeyCode": KEYS[key]}
        for _ in range(times):
            self.call("Input.dispatchKeyEvent", type="rawKeyDown", **named)
            if key in TEXTS:
                self.call("Input.dispatchKeyEvent", type="char", text=TEXTS[key], **named)
            self.call("Input.dispatchKeyEvent", type="keyUp", **named)

    def click(self, selector: str) -> None:
        """A click into the middle of an element that is in sight."""
        box = self.value(f"(() => {{ const b = document.querySelector({json.dumps(selector)}).getBoundingClientRect(); return [b.x + b.width / 2, b.y + b.height / 2]; }})()")
        for kind in ("mousePressed", "mouseReleased"):
            self.call("Input.dispatchMouseEvent", type=kind, x=box[0], y=box[1], button="left", clickCount=1)

    def scheme(self, name: str) -> None:
        """Light or dark."""
        self.call("Emulation.setEmulatedMedia", features=[{"name": "prefers-color-scheme", "value": name}])

    def size(self, width: int, height: int) -> None:
        self.call("Emulation.setDeviceMetricsOverride", width=width, height=height, deviceScaleFactor=1, mobile=False)

    def picture(self, path: Path) -> None:
        data = self.call("Page.captureScreenshot", format="png")["data"]
        with open(path, "wb") as file:
            file.write(base64.b64decode(data))


def parts_of(colour: str) -> Colour:
    """Those of `#rrggbb` or `rgb(r, g, b)`."""
    if colour.startswith("#"):
        return [int(colour[at:at + 2], 16) / 255 for at in (1, 3, 5)]
    return [int(number) / 255 for number in re.findall(r"\d+", colour)[:3]]


def contrast(one: Colour, other: Colour) -> float:
    """The ratio of two colours' brightness: how well one is read on the other, as the accessibility guidelines (WCAG 2) define it."""
    def brightness(colour: Colour) -> float:
        parts = [part / 12.92 if part <= 0.03928 else math.pow((part + 0.055) / 1.055, 2.4) for part in colour]
        return 0.2126 * parts[0] + 0.7152 * parts[1] + 0.0722 * parts[2]
    dark, light = sorted((brightness(one), brightness(other)))
    return (light + 0.05) / (dark + 0.05)
