"""Archives whose bytes depend only on what is packed: their members are sorted, belong to root and have one time, and
each may be read by all. `zlib` alone has a say besides: two versions of it may compress one text differently."""
import io
import os
import struct
import tarfile
import zlib
from collections.abc import Iterator, Mapping

# What an archive of Debian begins with, and the length of a member's head in it.
MAGIC = b"!<arch>\n"


def inside(folder: str) -> Iterator[str]:
    """The paths of all that a folder has, sorted, each folder before what is in it."""
    for at, below, names in os.walk(folder):
        below.sort()
        # A link to a folder is a link, and isn't walked.
        links = [name for name in below if os.path.islink(os.path.join(at, name))]
        for name in sorted([*names, *links]):
            yield os.path.relpath(os.path.join(at, name), folder)
        for name in below:
            if name not in links:
                yield os.path.relpath(os.path.join(at, name), folder)


def member(path: str, name: str, time: int) -> tarfile.TarInfo:
    """What an archive says of a file, a folder or a link."""
    info = tarfile.TarInfo(name)
    info.uname = info.gname = "root"
    info.mtime = time
    is_run = os.access(path, os.X_OK)
    info.mode = 0o755 if is_run else 0o644
    if os.path.islink(path):
        info.type = tarfile.SYMTYPE
        info.linkname = os.readlink(path)
        info.mode = 0o777
    elif os.path.isdir(path):
        info.type = tarfile.DIRTYPE
        info.mode = 0o755
    else:
        info.size = os.path.getsize(path)
    return info


def tar(folder: str, top: str, time: int) -> bytes:
    """An archive of a folder, which is called `top` in it."""
    archive = io.BytesIO()
    with tarfile.open(fileobj=archive, mode="w", format=tarfile.GNU_FORMAT) as to:
        to.addfile(member(folder, top, time))
        for path in sorted(inside(folder)):
            full = os.path.join(folder, path)
            info = member(full, os.path.join(top, path), time)
            if info.isreg():
                with open(full, "rb") as file:
                    to.addfile(info, file)
            else:
                to.addfile(info)
    return archive.getvalue()


def compressed(data: bytes) -> bytes:
    """The same in gzip's form, without a name and a time. (Python's own `gzip` writes another head from 3.11 on.)"""
    deflate = zlib.compressobj(6, zlib.DEFLATED, -zlib.MAX_WBITS)
    body = deflate.compress(data) + deflate.flush()
    head = b"\x1f\x8b\x08\x00\x00\x00\x00\x00\x00\xff"
    return head + body + struct.pack("<II", zlib.crc32(data), len(data) & 0xFFFFFFFF)


def debian_package(control: Mapping[str, str], root: str, time: int) -> bytes:
    """A package of Debian, as deb(5) describes it: what it says of itself, and the files below a root."""
    fields = "".join(f"{name}: {word}\n" for name, word in control.items())
    said = io.BytesIO()
    with tarfile.open(fileobj=said, mode="w", format=tarfile.GNU_FORMAT) as to:
        info = tarfile.TarInfo("./control")
        info.uname = info.gname = "root"
        info.mtime = time
        info.mode = 0o644
        info.size = len(fields.encode())
        to.addfile(info, io.BytesIO(fields.encode()))
    parts = {
        "debian-binary": b"2.0\n",
        "control.tar.gz": compressed(said.getvalue()),
        "data.tar.gz": compressed(tar(root, ".", time)),
    }
    package = MAGIC
    for name, data in parts.items():
        package += f"{name:<16}{time:<12}{0:<6}{0:<6}{'100644':<8}{len(data):<10}`\n".encode()
        package += data + b"\n" * (len(data) % 2)
    return package
