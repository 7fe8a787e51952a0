"""A browser without a window, told what to do by its DevTools protocol over a pipe, with the standard library alone."""
import json
import os
import shutil
import subprocess
import tempfile
import time


def command():
    """A browser that is installed, or None."""
    return next(
        filter(None, map(shutil.which, ("chromium", "chromium-browser", "google-chrome"))), None
    )


class Browser:
    """One page in a browser of its own; `faults` are what the page's scripts complained of."""

    def __init__(self, program):
        self.folder, (given, writing), (reading, back) = tempfile.mkdtemp(), os.pipe(), os.pipe()
        arguments = [
            program,
            "--headless",
            "--no-sandbox",
            "--disable-gpu",
            "--no-first-run",
            "--remote-debugging-pipe",
            f"--user-data-dir={self.folder}",
            "about:blank",
        ]
        self.process = subprocess.Popen(
            # Not sh, since Debian's takes no number of two digits for a file that is open.
            ["bash", "-c", f'exec "$@" 3<&{given} 4>&{back}', "bash", *arguments],
            pass_fds=(given, back),
            stderr=subprocess.DEVNULL,
            stdout=subprocess.DEVNULL,
        )
        os.close(given)
        os.close(back)
        self.reading, self.writing, self.rest, self.number, self.faults = (
            reading,
            writing,
            b"",
            0,
            [],
        )
        self.session = {}
        while not (
            pages := [
                one for one in self.ask("Target.getTargets")["targetInfos"] if one["type"] == "page"
            ]
        ):
            time.sleep(0.05)
        attached = self.ask("Target.attachToTarget", targetId=pages[0]["targetId"], flatten=True)
        self.session = {"sessionId": attached["sessionId"]}
        for domain in ("Page", "Runtime", "Log"):
            self.ask(domain + ".enable")

    def ask(self, method, **fields):
        self.number += 1
        asked = {"id": self.number, "method": method, "params": fields} | self.session
        os.write(self.writing, json.dumps(asked).encode() + b"\0")
        while True:
            told = self.told()
            if told.get("method") == "Runtime.exceptionThrown":
                self.faults.append(
                    told["params"]["exceptionDetails"].get("exception", {}).get("description", "?")
                )
            if (
                told.get("method") == "Log.entryAdded"
                and told["params"]["entry"]["level"] == "error"
            ):
                self.faults.append(
                    told["params"]["entry"]["text"] + " " + told["params"]["entry"].get("url", "")
                )
            if told.get("id") == self.number:
                if "error" in told:
                    raise RuntimeError(f"{method}: {told['error']['message']}")
                return told["result"]

    def told(self):
        """The next message."""
        while b"\0" not in self.rest:
            more = os.read(self.reading, 1 << 20)
            if not more:
                raise ConnectionError("the browser has ended")
            self.rest += more
        text, _, self.rest = self.rest.partition(b"\0")
        return json.loads(text)

    def value(self, code):
        """What an expression is on the page."""
        got = self.ask("Runtime.evaluate", expression=code, returnByValue=True, awaitPromise=True)
        if "exceptionDetails" in got:
            raise RuntimeError(
                f"{code}: {got['exceptionDetails'].get('exception', {}).get('description')}"
            )
        return got["result"].get("value")

    def until(self, code, seconds=120):
        """Waits until an expression is true."""
        end = time.monotonic() + seconds
        while time.monotonic() < end:
            if self.value(f"Boolean({code})"):
                return True
            time.sleep(0.03)
        return False

    def go(self, address):
        self.ask("Page.navigate", url=address)

    def text(self, name):
        """What an element says; nothing if there is none."""
        return self.value(f"(document.getElementById({name!r}) || {{}}).textContent || ''")

    def choose(self, name, value):
        """Sets a field, as a user would."""
        self.value(
            f"(() => {{ const e = document.getElementById({name!r}); e.value = {json.dumps(value)}; "
            "(e.oninput || e.onchange || (() => 0))(); })()"
        )

    def size(self, wide, high, phone=False):
        self.ask(
            "Emulation.setDeviceMetricsOverride",
            width=wide,
            height=high,
            deviceScaleFactor=2 if phone else 1,
            mobile=phone,
        )
        self.ask("Emulation.setTouchEmulationEnabled", enabled=phone)

    def mouse(self, kind, x, y):
        self.ask(
            "Input.dispatchMouseEvent",
            type=kind,
            x=x,
            y=y,
            button="left",
            buttons=int(kind != "mouseReleased"),
            clickCount=1,
        )

    def click(self, x, y):
        self.mouse("mousePressed", x, y)
        self.mouse("mouseReleased", x, y)

    def tap(self, x, y):
        self.ask("Input.dispatchTouchEvent", type="touchStart", touchPoints=[{"x": x, "y": y}])
        self.ask("Input.dispatchTouchEvent", type="touchEnd", touchPoints=[])

    def click_on(self, selector):
        """Clicks the middle of an element, which is scrolled into sight."""
        place = self.value(
            f"(() => {{ const e = document.querySelector({json.dumps(selector)}); "
            "e.scrollIntoView({block: 'nearest'}); const b = e.getBoundingClientRect(); "
            "return [b.x + b.width / 2, b.y + b.height / 2]; })()"
        )
        self.click(*place)

    def key(self, key, **more):
        for kind in ("keyDown", "keyUp"):
            self.ask("Input.dispatchKeyEvent", type=kind, key=key, **more)

    def end(self):
        self.process.terminate()
        self.process.wait(20)
        os.close(self.reading)
        os.close(self.writing)
        shutil.rmtree(self.folder, ignore_errors=True)
