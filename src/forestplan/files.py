"""How a command reads a text, with a limit of its size, and how it writes what -o asks for."""
import argparse
import contextlib
import os
import stat
import sys
from typing import BinaryIO

from forestplan.fault_codes import Code
from forestplan.faults import Fault, InText
from forestplan.wording import as_utf8, one_line


# In bytes, the most that is read of a text, and of a transcript, which may be longer than its network.
MOST_BYTES = 1 << 28
MOST_OF_TRANSCRIPT = 1 << 29
# A file is read in parts of so many bytes: who asks for the limit at once takes as much memory.
PART = 1 << 20


def bytes_in(file: BinaryIO, most: int) -> bytes | None:
    """All that a file has; None if that is more than `most` bytes, of which none is read beyond the next one."""
    parts: list[bytes] = []
    left = most
    while True:
        wanted = min(PART, left + 1)
        part = file.read(wanted)
        if len(part) > left:
            return None
        parts.append(part)
        left -= len(part)
        # A terminal says the end of a text once.
        if len(part) < wanted:
            return b"".join(parts)


def bytes_at(path: str, most: int = MOST_BYTES, why: str = "the most that is read") -> bytes:
    """All that a file has, or standard input for `-`. What has more than `most` bytes, or no end, is refused."""
    try:
        if path == "-":
            data = bytes_in(sys.stdin.buffer, most)
        else:
            with open(path, "rb") as file:
                data = bytes_in(file, most)
    except OSError as fault:
        raise Fault(Code.NOT_READ, InText(text_name(path)), why=fault.strerror) from None
    if data is None:
        raise Fault(Code.TEXT_TOO_LONG, InText(text_name(path)), most=most >> 20, why=why)
    return data


def text_at(path: str, most: int = MOST_BYTES) -> str:
    return bytes_at(path, most).decode("utf-8", "replace")


def text_name(path: str) -> str:
    """What a fault of a text calls it."""
    return "standard input" if path == "-" else one_line(path)


def write_output(given: argparse.Namespace, text: str | bytes) -> None:
    """Writes what a command has made: to the file of -o, which stays as it was until all is written, or to standard
    output."""
    data = text if isinstance(text, bytes) else as_utf8(text).encode()
    if given.output in (None, "-"):
        sys.stdout.buffer.write(data)
    elif os.path.exists(given.output) and not stat.S_ISREG(os.stat(given.output).st_mode):
        with open(given.output, "wb") as file:
            file.write(data)
    else:
        write_apart(os.path.realpath(given.output), data)


def write_apart(path: str, data: bytes) -> None:
    new = f"{path}.{os.getpid()}.new"
    try:
        with open(new, "xb") as file:
            file.write(data)
        os.replace(new, path)
    except OSError as why:
        raise OSError(why.errno, why.strerror, path) from None
    finally:
        with contextlib.suppress(OSError):
            os.remove(new)
