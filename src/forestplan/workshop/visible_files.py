"""What a graded program sees of this machine's files: a list. Nothing else is there for it, whatever the disk has."""

import fnmatch
import functools
import os
import stat
from pathlib import Path
from collections.abc import Iterable, Iterator

# The folders of the system's programs and libraries.
ROOTS = ("bin", "lib", "lib32", "lib64", "libx32", "sbin")
# What programs need besides their own folder: entries of the folder above it; and more of some languages, if a sign of
# that language is there.
PARTS = (*ROOTS, "include", "libexec", "share")
MORE_PARTS = {
    "release": ("conf", "jmods", "jre", "release"),  # Java
    "pkg/tool": ("api", "pkg", "src", "VERSION", "go.env"),  # Go
    "collects": ("collects", "etc"),  # Racket
    "pyvenv.cfg": ("pyvenv.cfg",),  # Python
    "shims": ("installs", "plugins", "pyenv.d", "rbenv.d", "shims", "version", "versions"),
}
PROGRAMS = ("bin", "libexec", "sbin", "shims")
# Of /etc: links to programs, where libraries are, the time zone, and settings that languages read as they start.
OF_ETC = (
    *("alternatives", "ld.so.cache", "ld.so.conf", "ld.so.conf.d", "localtime"),
    *("dotnet", "java*", "mono", "perl", "php", "python*", "racket", "R", "ruby*"),
)
# Of /proc: each process sees itself and its children there.
OF_PROC = ("self", "thread-self", "mounts", "net")
# The folder of an installed copy of this program, beside those of others.
OWN_NAME = "forestplan"
OWN_SIGNS = ("bin/forestlab", "src/forestplan/workshop", "examples/workshop")
MOST_LINKS = 40


def system() -> list[str]:
    """The files of the system, by their paths; a link is a link for the program, too."""
    found = [os.path.join("/", name) for name in ROOTS]
    found += [os.path.join(prefix, name) for prefix in ("/usr", "/usr/local") for name in PARTS]
    names = sorted(os.listdir("/etc"))
    found += [f"/etc/{name}" for want in OF_ETC for name in fnmatch.filter(names, want)]
    return [path for path in found if os.path.exists(path)]


def parts(prefix: str) -> list[str]:
    """What the programs in a folder of this one need of it."""
    signs = [sign for sign in MORE_PARTS if os.path.exists(os.path.join(prefix, sign))]
    names = [*PARTS, *(name for sign in signs for name in MORE_PARTS[sign])]
    return [os.path.join(prefix, name) for name in names]


@functools.cache
def on_the_path(path: str, closed: tuple[str, ...], homes: tuple[str, ...]) -> list[str]:
    """What the programs of a PATH need: their folders, those to which links in these lead, and entries of the folder
    above them; but nothing that is in a closed folder or has one in it, nothing of another copy of this program, and of
    a home only the folder of programs itself."""
    found: dict[str, None] = {}
    for named in filter(os.path.isabs, path.split(":")):
        for folder in program_folders(os.path.normpath(named)):
            found |= dict.fromkeys(needed_by(folder, {*homes, "/"}))
    there = [part for part in found if os.path.exists(part)]
    return [part for part in there if not any(meets(part, other) for other in closed)]


def program_folders(folder: str) -> list[str]:
    """A folder of the PATH, and all to which it and the links in it lead."""
    found = dict.fromkeys([folder, os.path.realpath(folder)])
    try:
        links = [entry.path for entry in os.scandir(folder) if entry.is_symlink()]
    except OSError:
        return []
    for link in links:
        found |= dict.fromkeys(os.path.dirname(place) for place in ways(link))
    return list(found)


def ways(link: str) -> Iterator[str]:
    """Each place to which a link leads, one after the other; nothing if nothing is there at last."""
    if not os.path.isfile(link):
        return
    yield os.path.realpath(link)
    for _ in range(MOST_LINKS):
        if not os.path.islink(link):
            return
        link = os.path.normpath(os.path.join(os.path.dirname(link), os.readlink(link)))
        yield link


def needed_by(folder: str, homes: set[str]) -> list[str]:
    """What the programs in a folder need."""
    prefix, name = os.path.split(folder)
    if folder in homes or is_copy(folder):
        return []
    if name not in PROGRAMS or prefix in homes or is_copy(prefix):
        return [folder]
    return [folder, *parts(prefix)]


def is_copy(folder: str) -> bool:
    """Whether a folder is a copy of this program, as a whole."""
    return any(os.path.exists(os.path.join(folder, sign)) for sign in OWN_SIGNS)


def copies_in(folders: Iterable[str]) -> list[str]:
    """The installed copies of this program in folders that are shown. Behind a link of the system is the same copy as
    where it leads, and nothing can be laid over a path through the link before that is there."""
    found = [os.path.join(folder, OWN_NAME) for folder in folders if not is_link_of_system(folder)]
    return [path for path in found if os.path.isdir(path)]


def is_link_of_system(path: str) -> bool:
    """Whether a folder of the system is a link to another one, as /lib is to /usr/lib; a program sees a link, too."""
    return os.path.islink(path) and os.path.dirname(path) == "/"


def meets(path: str, other: str) -> bool:
    """Whether one of two places is in the other, or both are one."""
    real = os.path.realpath(path)
    return os.path.commonpath([real, os.path.realpath(other)]) in (real, os.path.realpath(other))


def is_path_below(path: str, folders: Iterable[str]) -> bool:
    """Whether a path is one of some folders, or in one."""
    return any(path == folder or path.startswith(f"{folder}/") for folder in folders)


def deepest(path: str, folders: Iterable[str]) -> int:
    """The letters of the nearest folder above a path; 0 if none of these is."""
    above = [folder for folder in folders if path.startswith(f"{folder}/")]
    return max(map(len, above), default=0)


def covered_in_proc() -> list[str]:
    """What /proc has besides the processes, and everybody may read: it tells what the whole machine does."""
    names = [name for name in os.listdir("/proc") if not name.isdecimal() and name not in OF_PROC]
    paths = [os.path.join("/proc", name) for name in sorted(names)]
    return [path for path in paths if os.stat(path).st_mode & stat.S_IROTH]


def reaches(path: str, user: int | None) -> bool:
    """Whether a user may pass all folders above a path; None is who asks, to whom all of it belongs."""
    if user is None:
        return True
    return all(
        os.stat(above).st_mode & stat.S_IXOTH for above in Path(os.path.realpath(path)).parents
    )
