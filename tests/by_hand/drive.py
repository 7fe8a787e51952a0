"""Drives a page by commands of a shell, with a picture after each: for somebody who tries the studio as a fresh reader.

  python3 -m tests.by_hand.drive ME begin            a studio of its own, in a window of 1280 x 800
  python3 -m tests.by_hand.drive ME begin --phone    in one of 360 x 740; --dark, --size 768x1024
  python3 -m tests.by_hand.drive ME begin FILE       a page in a file, or at an address, instead of a studio
  python3 -m tests.by_hand.drive ME click 640 700    a click at a place of the last picture
  python3 -m tests.by_hand.drive ME click next       on the button, link or field with these words
  python3 -m tests.by_hand.drive ME drag 100 100 300 200
  python3 -m tests.by_hand.drive ME choose examples star    a choice of a menu, whose choices no picture shows
  python3 -m tests.by_hand.drive ME choose examples         its choices
  python3 -m tests.by_hand.drive ME type "some words"       into the field that has the focus
  python3 -m tests.by_hand.drive ME key Tab          also Enter, Space, ArrowRight, Escape, a, Ctrl+z
  python3 -m tests.by_hand.drive ME scroll 1100 400 300     at this place, so far down
  python3 -m tests.by_hand.drive ME back             as the browser's button
  python3 -m tests.by_hand.drive ME wait 3           looks at what moves: a picture a second
  python3 -m tests.by_hand.drive ME see              one more picture
  python3 -m tests.by_hand.drive ME end

ME is any name; each has a browser of its own. The page stands still between two commands, so that it takes no time to
look and think: each command takes one second of the page's time, `wait` as many as it says, and what is printed has
the sum. What the page's scripts complained of is printed, too."""
import base64
import json
import os
import shutil
import signal
import socket
import subprocess
import sys
import tempfile
import time
from argparse import ArgumentParser, Namespace

from tests import browser
from tests.programs.test_studio import begin as begin_studio

# Keys that have no letter, with their numbers.
KEYS = {
    "Enter": 13,
    "Space": 32,
    "Tab": 9,
    "Escape": 27,
    "Backspace": 8,
    "Delete": 46,
    "End": 35,
    "Home": 36,
    "PageUp": 33,
    "PageDown": 34,
    "ArrowLeft": 37,
    "ArrowUp": 38,
    "ArrowRight": 39,
    "ArrowDown": 40,
}
# A page that answers nothing for so long never will.
MOST_SECONDS = 120
MODIFIERS = {"Alt": 1, "Ctrl": 2, "Shift": 8}
# The first element that is seen with these words: as its text, its label or its title; whole, then as a part.
FIND = """((words, kinds) => {
  const plain = text => (text || '').replace(/\\s+/g, ' ').trim().toLowerCase(), wanted = plain(words);
  const names = one => [one.textContent, one.getAttribute('aria-label'), one.getAttribute('title'),
    one.labels && one.labels[0] && one.labels[0].textContent].map(plain).filter(Boolean);
  const all = Array.from(document.querySelectorAll(kinds)).filter(one => one.getClientRects().length);
  const has = name => name.includes(wanted);
  return all.find(one => names(one).includes(wanted)) || all.find(one => names(one).some(has));
})"""
# Scrolls what can be scrolled at a place, as a wheel or a finger there does.
SCROLL = """((x, y, by) => {
  let one = document.elementFromPoint(x, y);
  const goes = is => is.scrollHeight > is.clientHeight + 1 && /auto|scroll/.test(getComputedStyle(is).overflowY);
  while (one && !goes(one)) one = one.parentElement;
  (one || document.scrollingElement).scrollBy(0, by);
})"""
USED = "button, a, summary, label, input, select, textarea, [role=tab], [data-node]"


def folder_of(name: str) -> str:
    return os.path.join(tempfile.gettempdir(), f"drive-{name}")


class Driven:
    """A page that stands still between two commands."""

    def __init__(self, name: str, given: Namespace) -> None:
        program = browser.command()
        if program is None:
            raise SystemExit("drive: no browser is installed")
        self.folder = folder_of(name)
        self.factor = 2 if given.phone else 1
        self.pictures = 0
        self.seconds = 0.0
        self.studio: subprocess.Popen[str] | None = None
        address = given.page
        if not address:
            self.studio, address = begin_studio()
        elif os.path.exists(address):
            address = "file://" + os.path.abspath(address)
        self.page = browser.Browser(program)
        wide, high = given.size
        self.page.size(wide, high, given.phone)
        scheme = {"name": "prefers-color-scheme", "value": "dark" if given.dark else "light"}
        self.page.ask("Emulation.setEmulatedMedia", features=[scheme])
        self.page.go(address)
        self.page.until("document.readyState === 'complete'", 30)

    def end(self) -> None:
        self.page.end()
        if self.studio:
            self.studio.send_signal(signal.SIGINT)
            self.studio.wait(20)

    def state(self, name: str) -> None:
        self.page.ask("Page.setWebLifecycleState", state=name)

    def answer(self, arguments: list[str]) -> str:
        """Does what a command says, and says where the pictures are."""
        self.state("active")
        self.page.ask("Page.bringToFront")
        name, *more = arguments
        lines: list[str] = []
        try:
            said = getattr(self, "do_" + name.replace("-", "_"))(*more)
            if said:
                lines.append(said)
        except (AttributeError, TypeError, ValueError, RuntimeError) as why:
            lines.append(f"not done: {why}")
        if name != "wait":
            lines.append(self.passed(1.0))
        else:
            lines += [self.passed(1.0) for _ in range(max(1, round(float(more[0]))))]
        lines.append(f"{self.seconds:.0f} s of the page's time")
        lines += [f"A SCRIPT COMPLAINED: {fault}" for fault in self.page.faults]
        self.page.faults.clear()
        self.state("frozen")
        return "\n".join(lines)

    def passed(self, seconds: float) -> str:
        """Lets so much time pass, and takes a picture."""
        time.sleep(seconds)
        self.seconds += seconds
        self.pictures += 1
        path = os.path.join(self.folder, f"{self.pictures:03}.png")
        data = self.page.ask("Page.captureScreenshot")["data"]
        with open(path, "wb") as file:
            file.write(base64.b64decode(data))
        return f"picture: {path}"

    def press(self, x: float, y: float) -> None:
        # Of a page that has stood still Chromium takes the mouse's events, and no touches.
        self.page.mouse("mouseMoved", x, y)
        self.page.click(x, y)

    def do_see(self) -> None:
        """Nothing but a picture."""

    def do_wait(self, seconds: str) -> None:
        float(seconds)

    def do_click(self, *arguments: str) -> str:
        if len(arguments) == 2 and all(word.replace(".", "").isdigit() for word in arguments):
            self.press(*(float(word) / self.factor for word in arguments))
            return ""
        place = self.page.value(
            f"(one => {{ if (!one) return null; one.scrollIntoView({{block: 'nearest'}}); "
            "const b = one.getBoundingClientRect(); return [b.x + b.width / 2, b.y + b.height / 2]; })"
            f"({FIND}({json.dumps(' '.join(arguments))}, {json.dumps(USED)}))"
        )
        if place is None:
            return "not done: nothing that is seen has these words"
        self.press(*place)
        return ""

    def do_drag(self, *places: str) -> None:
        x, y, to_x, to_y = (float(place) / self.factor for place in places)
        self.page.mouse("mousePressed", x, y)
        for k in range(1, 11):
            self.page.mouse("mouseMoved", x + (to_x - x) * k / 10, y + (to_y - y) * k / 10)
        self.page.mouse("mouseReleased", to_x, to_y)

    def do_choose(self, menu: str, *arguments: str) -> str:
        found = self.page.value(
            f"((list, wanted) => {{ if (!list) return 'not done: no such menu';"
            " const all = Array.from(list.options).filter(one => one.value);"
            " if (!wanted) return all.map(one => one.textContent).join(' | ');"
            " const one = all.find(one => one.textContent.toLowerCase().includes(wanted.toLowerCase()));"
            " if (!one) return 'not done: no such choice'; list.focus(); list.value = one.value;"
            " list.dispatchEvent(new Event('input')); list.dispatchEvent(new Event('change')); return ''; })"
            f"({FIND}({json.dumps(menu)}, 'select'), {json.dumps(' '.join(arguments))})"
        )
        return str(found or "")

    def do_type(self, *arguments: str) -> None:
        self.page.ask("Input.insertText", text=" ".join(arguments))

    def do_key(self, keys: str) -> None:
        *held, key = keys.split("+") if len(keys) > 1 else [keys]
        number = KEYS.get(key, ord(key[0].upper()))
        name = " " if key == "Space" else key
        more: dict[str, object] = {"modifiers": sum(MODIFIERS[one] for one in held)}
        if not held or held == ["Shift"]:
            texts = {"Enter": "\r", "Space": " "}
            text = texts.get(key, key if len(key) == 1 else "")
            if text:
                more["text"] = text
        self.page.key(name, code=key, windowsVirtualKeyCode=number, **more)

    def do_scroll(self, x: str, y: str, by: str) -> None:
        places = [float(place) / self.factor for place in (x, y, by)]
        self.page.value(f"{SCROLL}(...{json.dumps(places)})")

    def do_back(self) -> None:
        self.page.value("history.back()")


def served(name: str, given: Namespace) -> None:
    """Answers commands until `end`, at a socket in the folder of the name."""
    driven = Driven(name, given)
    server = socket.socket(socket.AF_UNIX)
    server.bind(os.path.join(driven.folder, "socket"))
    server.listen()
    try:
        while True:
            asked, _ = server.accept()
            with asked, asked.makefile("rw", encoding="utf-8") as file:
                fields = json.loads(file.readline())
                file.write("ended" if fields == ["end"] else driven.answer(fields))
                file.flush()
            if fields == ["end"]:
                return
    finally:
        driven.end()


def asked_of(name: str, arguments: list[str]) -> str:
    with socket.socket(socket.AF_UNIX) as place:
        place.settimeout(MOST_SECONDS)
        place.connect(os.path.join(folder_of(name), "socket"))
        with place.makefile("rw", encoding="utf-8") as file:
            file.write(json.dumps(arguments) + "\n")
            file.flush()
            return file.read()


def begun(name: str, arguments: list[str]) -> str:
    """Starts a process that keeps the browser, and asks it for its first picture."""
    folder = folder_of(name)
    shutil.rmtree(folder, ignore_errors=True)
    os.makedirs(folder)
    with open(os.path.join(folder, "log"), "w", encoding="utf-8") as log:
        subprocess.Popen(
            [sys.executable, "-m", "tests.by_hand.drive", name, "serve", *arguments],
            stdin=subprocess.DEVNULL,
            stdout=log,
            stderr=log,
            start_new_session=True,
        )
    for _ in range(600):
        if os.path.exists(os.path.join(folder, "socket")):
            return asked_of(name, ["see"])
        time.sleep(0.1)
    with open(os.path.join(folder, "log"), encoding="utf-8") as file:
        raise SystemExit("drive: it didn't begin: " + file.read())


def two_numbers(word: str) -> tuple[int, int]:
    wide, high = map(int, word.split("x"))
    return wide, high


def main() -> None:
    if len(sys.argv) < 3:
        raise SystemExit(__doc__)
    _, name, command, *arguments = sys.argv
    if command == "begin":
        print(begun(name, arguments))
    elif command == "serve":
        line = ArgumentParser("drive")
        line.add_argument("page", nargs="?", default="")
        line.add_argument("--phone", action="store_true")
        line.add_argument("--dark", action="store_true")
        line.add_argument("--size", type=two_numbers)
        given = line.parse_args(arguments)
        given.size = given.size or ((360, 740) if given.phone else (1280, 800))
        served(name, given)
    else:
        try:
            print(asked_of(name, [command, *arguments]))
        except OSError as why:
            raise SystemExit(f"drive: no answer of {name}: {why}") from None


if __name__ == "__main__":
    main()
