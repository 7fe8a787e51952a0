"""The studio as static files: `forestlab studio --publish DIR`. The page and its scripts are the studio's own. In place
of the server they have the answers of recording.py, in pieces that are scripts, too. So any web server gives the page
away, below any path, and a browser opens it from a folder."""
import contextlib
import json
import os
import re
import shutil
from collections.abc import Iterator, Mapping, Sequence
from dataclasses import MISSING, fields, replace

from forestplan import version
from forestplan.fault_codes import Code
from forestplan.faults import Fault, InText
from forestplan.folders import TOP
from forestplan.pictures import pages
from forestplan.pictures.page_data import as_object
from forestplan.process_exit import held
from forestplan.studio.answers import Hello, Published
from forestplan.studio.bundle import OWN, as_one_script
from forestplan.studio.calls import CALLS
from forestplan.studio.messages import HelloCall
from forestplan.studio.networks import answer_hello
from forestplan.studio.recording import MADE, SIZES, Recording, Spot, tell
from forestplan.studio.session import Session

# The page runs its own scripts alone, and asks nobody for anything.
POLICY = (
    "default-src 'none'; script-src 'self' file:; style-src 'unsafe-inline'; img-src 'self' file: data: blob:; "
    "form-action 'none'; base-uri 'none'"
)
# What a browser opens first.
PAGE = "index.html"
PICTURE = re.compile(r"\]\(\.\./pictures/([\w.-]+)\)")


def published(session: Session, places: Sequence[Spot] | None = None) -> dict[str, bytes]:
    """The files of the page, by their names: of all places, or of some."""
    recording = Recording(session, places).record()
    is_ = hello_of(session, recording)
    files = {PAGE: index_page(), "studio.js": script(is_, list(recording.pieces))}
    for name, piece in recording.pieces.items():
        files[f"answers/{name}.js"] = f'recorded("{name}", {json_of(piece)});\n'
    found = {name: text.encode() for name, text in files.items()}
    for name in sorted({name for one in is_.lessons for name in PICTURE.findall(one.text)}):
        with open(os.path.join(TOP, "docs", "pictures", name), "rb") as file:
            found[f"pictures/{name}"] = file.read()
    return found


def json_of(value: object) -> str:
    """JSON that is a script, too, whatever its encoding is taken for."""
    return json.dumps(value, separators=(",", ":"), default=as_object)


def hello_of(session: Session, recording: Recording) -> Hello:
    """What there is to choose from on the page: what was recorded."""
    whole = answer_hello(HelloCall(), session, tell)
    commit = version.version_text().splitlines()[1].removeprefix("commit ")
    return replace(
        whole,
        examples=sorted(recording.examples),
        kinds={name: whole.kinds[name] for name in MADE},
        published=Published(commit, SIZES),
    )


def script(is_: Hello, pieces: list[str]) -> str:
    usual = {
        name: {one.name: one.default for one in fields(call.asked) if one.default is not MISSING}
        for name, call in CALLS.items()
    }
    given = {"hello": is_, "usual": usual, "pieces": pieces}
    return f"const RECORDED = {json_of(given)};\n{as_one_script('studio', {'api': 'recorded'})}"


def index_page() -> str:
    """The studio's page with its style in it, and one script."""
    with open(os.path.join(OWN, "page.html"), encoding="utf-8") as file:
        text = file.read()
    style = re.sub(r"/\*.*?\*/|\n", "", pages.page_file_text("page.css"))
    text = re.sub(r'<link rel="modulepreload"[^>]*>\n?', "", text)
    text = text.replace('<link rel="stylesheet" href="page.css">', f"<style>{style}</style>")
    text = text.replace('<script type="module" src="studio.js">', '<script defer src="studio.js">')
    policy = f'<meta http-equiv="Content-Security-Policy" content="{POLICY}">'
    return text.replace('<meta charset="utf-8">', f'<meta charset="utf-8">{policy}')


@contextlib.contextmanager
def as_fault_of(folder: str) -> Iterator[None]:
    """What can't be written is said of the folder that the user has named."""
    try:
        yield
    except OSError as why:
        raise Fault(Code.NOT_PUBLISHED, InText(folder), why=why.strerror) from None


def check_is_new(folder: str) -> None:
    """Refuses what isn't a new folder or an empty one."""
    with as_fault_of(folder):
        is_free = not os.path.lexists(folder) or os.path.isdir(folder) and not os.listdir(folder)
    if not is_free:
        raise Fault(Code.FOLDER_NOT_EMPTY, InText(folder))


def publish(folder: str, session: Session) -> int:
    """Writes the page into a folder, which is there whole or as it was, and returns its bytes. A folder that is there
    stays: it may be a disk, the folder that the user is in, or one that somebody has given the user.
    """
    check_is_new(folder)
    at = os.path.realpath(folder)
    room = f"{at}{os.sep}" if os.path.isdir(at) else at
    new = f"{room}.{os.getpid()}.new"
    is_made = False
    try:
        with as_fault_of(folder):
            os.makedirs(os.path.dirname(new), exist_ok=True)
            # What ends the command waits until it is known that this folder has to go. One that is there already is
            # somebody else's.
            with held():
                os.mkdir(new)
                is_made = True
        files = published(session)
        with as_fault_of(folder):
            write_files(files, new)
            put_in_place(new, at, folder)
    finally:
        if is_made:
            shutil.rmtree(new, ignore_errors=True)
    return sum(map(len, files.values()))


def write_files(files: Mapping[str, bytes], folder: str) -> None:
    for name, data in files.items():
        path = os.path.join(folder, name)
        os.makedirs(os.path.dirname(path), exist_ok=True)
        with open(path, "xb") as file:
            file.write(data)


def put_in_place(new: str, at: str, folder: str) -> None:
    """Gives a folder its name, or moves what is in it into the one around it, the page itself last."""
    if os.path.dirname(new) != at:
        check_is_new(folder)
        os.rename(new, at)
        return
    if os.listdir(at) != [os.path.basename(new)]:
        raise Fault(Code.FOLDER_NOT_EMPTY, InText(folder))
    moved = []
    try:
        for name in sorted(os.listdir(new), key=PAGE.__eq__):
            os.rename(os.path.join(new, name), os.path.join(at, name))
            moved.append(name)
    except BaseException:
        for name in moved:
            os.rename(os.path.join(at, name), os.path.join(new, name))
        raise
