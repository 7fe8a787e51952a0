"""Pictures of the studio, to be looked at: `python3 -m tests.by_hand.studio_pictures FOLDER [WORD ..]` puts into the
folder each tab, the first screen, lessons and the lecture, in four widths, light, dark and large, and contact sheets of
them. With words it makes only those whose names have one of them."""
import base64
import glob
import os
import sys
import time

from tests import browser
from tests.pages.test_studio_page import Page

# Width and height of the window, and whether a finger points.
WINDOWS = {1440: (900, False), 1280: (800, False), 768: (1024, False), 360: (740, True)}
LOOKS = ("light", "dark", "large")
# Pictures in a row of a sheet, for windows wider than this.
COLUMNS = ((800, 3), (400, 4), (0, 6))
# What is after the # of the address, and what is waited for.
PLACES = {
    "first": "",
    "lesson1": "lesson=1&step=4",
    "lesson3": "lesson=3&step=2",
    "lesson6": "lesson=6&step=3",
    "lecture": "lecture=4",
    "draw": "example=barred&tab=draw&node=3",
    "rounds": "example=petersen&tab=rounds&at=15&node=3",
    "end": "example=petersen&tab=rounds&at=48",
    "run": "example=chain6&tab=run&slow=2-3&seed=7&at=60&beside=1",
    "two_runs": "example=chain6&tab=run&slow=2-3&seed=7&other=newest.2&at=6",
    "adversary": "example=triangle&tab=adversary&dare=apart&without=safes&steps=1-2_2-1_1-3",
    "won": "example=two&tab=adversary&without=safes&dare=wrong&steps=1-2_2-1_2-1_2_2",
    "check": "example=petersen&tab=check&plan=1_1",
    "pictures": "example=petersen&tab=pictures&kind=rounds",
    "crowd": "example=disk100&tab=rounds&at=0",
}


class Looked(Page):
    """A browser with a studio, which isn't a test."""

    def picture(self, path: str) -> None:
        data = self.page.ask("Page.captureScreenshot")["data"]
        with open(path, "wb") as file:
            file.write(base64.b64decode(data))

    def look(self, look: str) -> None:
        scheme = {"name": "prefers-color-scheme", "value": "dark" if look == "dark" else "light"}
        calm = {"name": "prefers-reduced-motion", "value": "reduce"}
        self.page.ask("Emulation.setEmulatedMedia", features=[scheme, calm])

    def open(self, place: str, look: str) -> None:
        """Opens the page at a place."""
        self.page.go("about:blank")
        self.page.go(self.address + ("#" + place if place else ""))
        self.page.until("window.studio && studio.seen.hello && !studio.isFollowing()", 400)
        self.page.until("busy.hidden && !document.querySelector('.old')", 400)
        # A run, rounds or the steps are there as soon as the slider, if it is seen, can be moved.
        self.page.until("!slider.disabled || !slider.getClientRects().length", 400)
        if look == "large":
            self.value("large.click()")
        time.sleep(1.2)

    def sheet(self, names: list[str], path: str, wide: int) -> None:
        """A picture of pictures, side by side, each with its name."""
        columns = next(count for least, count in COLUMNS if wide > least)
        shown = "".join(
            f'<figure><img src="file://{name}"><figcaption>{os.path.basename(name)[:-4]}</figcaption></figure>'
            for name in names
        )
        page = path.replace(".png", ".html")
        with open(page, "w", encoding="utf-8") as file:
            file.write(
                "<style>body{margin:4px;display:grid;gap:6px;font:13px sans-serif;background:#999;"
                f"grid-template-columns:repeat({columns},1fr)}}figure{{margin:0}}img{{width:100%}}</style>{shown}"
            )
        self.page.size(1900, 1000)
        self.page.go("file://" + page)
        self.page.until("Array.from(document.images).every(one => one.complete)", 30)
        high = self.value("document.documentElement.scrollHeight")
        self.page.size(1900, high)
        time.sleep(0.3)
        self.picture(path)
        os.remove(page)


def looked_at(looked: "Looked", folder: str, arguments: list[str]) -> None:
    for wide, (high, is_phone) in WINDOWS.items():
        for look in LOOKS:
            names = [f"{wide}-{look}-{name}" for name in PLACES]
            names = [
                one for one in names if not arguments or any(word in one for word in arguments)
            ]
            if not names:
                continue
            looked.page.size(wide, high, is_phone)
            looked.look(look)
            for name in names:
                looked.open(PLACES[name.split("-")[2]], look)
                looked.picture(os.path.join(folder, name + ".png"))
            looked.look("light")
            made = [os.path.join(folder, f"{name}.png") for name in names]
            looked.sheet(made, os.path.join(folder, f"sheet-{wide}-{look}.png"), wide)


def main() -> None:
    folder, *arguments = sys.argv[1:]
    folder = os.path.abspath(folder)
    os.makedirs(folder, exist_ok=True)
    if browser.command() is None:
        raise SystemExit("studio_pictures: no browser is installed")
    Looked.setUpClass()
    looked = Looked("picture")
    looked.value, looked.click_on = looked.page.value, looked.page.click_on
    try:
        looked_at(looked, folder, arguments)
        print(f"{len(glob.glob(os.path.join(folder, '*.png')))} pictures in {folder}")
        for fault in looked.page.faults:
            print("a script complained:", fault)
    finally:
        Looked.doClassCleanups()


if __name__ == "__main__":
    main()
