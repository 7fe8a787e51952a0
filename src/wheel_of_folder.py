"""What pip calls to install the package `forestplan`. Of an installed folder it gets a wheel of the package, with the
programs below it, wherever pip puts packages, and of the commands. Of a tree `pip install -e` gets a wheel
that says where the package is. It needs pip alone, no other package and no network.

The members of a wheel are sorted and have one time, the one of SOURCE_DATE_EPOCH or the earliest that a zip file can
say: so its bytes depend only on what is in it."""
import ast
import base64
import hashlib
import os
import sysconfig
import time
import zipfile
from collections.abc import Iterator, Mapping

# The folder of the package.
SOURCES = os.path.dirname(os.path.realpath(__file__))
TOP = os.path.dirname(SOURCES)
PACKAGE = os.path.join("src", "forestplan")
# What the package and the commands call, and what the commands that pages show read.
FOLDERS = ("bin", "lib", "examples", os.path.join("docs", "pictures"))
COMMANDS = ("forestlab", "forestplan", "forestplay")
LICENSES = ("LICENSE-APACHE", "LICENSE-MIT", "LICENSE-THIRD-PARTY")
# 1 January 1980, before which a zip file has no time.
EARLIEST = 315532800
# The scripts of bin/ find the package where an installed folder has it; pip has it elsewhere.
DOOR = {
    "forestplan/installed/src/forestplan/launcher.sh": 'source "${BASH_SOURCE[0]%/*}/../../../launcher.sh"\n'
}
NO_FOLDER = """\
This is a tree of sources. Call `pip install -e` for it, or make a folder by `python3 build install DIR`, and then call
`pip install DIR`."""


def build_wheel(
    folder: str, config_settings: object = None, metadata_directory: str | None = None
) -> str:
    """Writes the wheel of an installed folder into another folder, and returns its name."""
    if not os.path.isfile(os.path.join(TOP, "VERSION")):
        raise SystemExit(NO_FOLDER)
    platform = sysconfig.get_platform().replace("-", "_").replace(".", "_")
    return write_wheel(folder, f"py3-none-{platform}", dict(files()), DOOR)


def build_editable(
    folder: str, config_settings: object = None, metadata_directory: str | None = None
) -> str:
    """Writes the wheel that has Python find the package where it is, and returns its name."""
    return write_wheel(folder, "py3-none-any", {}, {"forestplan.pth": f"{SOURCES}\n"})


def write_wheel(
    folder: str, tag: str, copied: Mapping[str, str], written: Mapping[str, str]
) -> str:
    """Writes a wheel of files that are copied, by their paths in it, and of texts; with what a wheel says of itself."""
    version = version_number()
    name = f"forestplan-{version}-{tag}.whl"
    info = f"forestplan-{version}.dist-info"
    said = ast.get_docstring(ast.parse(text_in(PACKAGE, "__init__.py"))) or ""
    summary = said.partition("\n")[0]
    licenses = "".join(f"License-File: {one}\n" for one in LICENSES)
    metadata = f"""\
Metadata-Version: 2.1
Name: forestplan
Version: {version}
Summary: {summary}
License: MIT OR Apache-2.0
{licenses}Platform: {sysconfig.get_platform()}
Requires-Python: >=3.10
Description-Content-Type: text/plain

{said}
"""
    commands = [f"{one} = forestplan.interface.programs:command\n" for one in COMMANDS]
    texts = {
        **written,
        f"{info}/METADATA": metadata,
        f"{info}/WHEEL": "Wheel-Version: 1.0\nGenerator: forestplan\nRoot-Is-Purelib: false\n"
        f"Tag: {tag}\n",
        f"{info}/entry_points.txt": "[console_scripts]\n" + "".join(commands),
    }
    paths = {**copied, **{f"{info}/{one}": one for one in LICENSES}}
    path = os.path.join(folder, name)
    with zipfile.ZipFile(path, "w", zipfile.ZIP_DEFLATED) as wheel:
        for there, here in sorted(paths.items()):
            full = os.path.join(TOP, here)
            with open(full, "rb") as file:
                wheel.writestr(member(there, os.access(full, os.X_OK)), file.read())
        for there, text in texts.items():
            wheel.writestr(member(there), text)
        rows = [row(there, wheel.read(there)) for there in wheel.namelist()]
        wheel.writestr(member(f"{info}/RECORD"), "".join(rows) + f"{info}/RECORD,,\n")
    return name


def member(path: str, is_run: bool = False) -> zipfile.ZipInfo:
    """What a wheel says of a file, which may be one to run."""
    since = max(int(os.environ.get("SOURCE_DATE_EPOCH", "0")), EARLIEST)
    info = zipfile.ZipInfo(path, time.gmtime(since)[:6])
    info.external_attr = (0o100755 if is_run else 0o100644) << 16
    info.compress_type = zipfile.ZIP_DEFLATED
    # What zipfile says of the system that wrote it differs by system.
    info.create_system = 3
    return info


def text_in(*parts: str) -> str:
    with open(os.path.join(TOP, *parts), encoding="utf-8") as file:
        return file.read()


def version_number() -> str:
    """What VERSION says in an installed folder, which may be more than the sources say, as `0.6.0+unproved`."""
    if os.path.isfile(os.path.join(TOP, "VERSION")):
        return text_in("VERSION").split()[1]
    return text_in(PACKAGE, "__init__.py").partition('__version__ = "')[2].partition('"')[0]


def files() -> Iterator[tuple[str, str]]:
    """(path in the wheel, path here) of all that it has of this folder."""
    yield "forestplan/installed/VERSION", "VERSION"
    for folder in (PACKAGE, *FOLDERS):
        for at, below, names in os.walk(os.path.join(TOP, folder)):
            below[:] = [name for name in below if name != "__pycache__"]
            for name in names:
                path = os.path.relpath(os.path.join(at, name), TOP)
                inner = f"forestplan/installed/{path}"
                yield path.removeprefix("src/") if folder == PACKAGE else inner, path


def row(path: str, data: bytes) -> str:
    """The line of a file in the list of all files."""
    digest = base64.urlsafe_b64encode(hashlib.sha256(data).digest()).rstrip(b"=").decode()
    return f"{path},sha256={digest},{len(data)}\n"
