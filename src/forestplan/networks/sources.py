"""A network that a command line names: a file, standard input, an example, or a kind with its size."""
import os
import re

from forestplan.fault_codes import Code
from forestplan.faults import Fault, InText
from forestplan.files import bytes_at, text_name
from forestplan.folders import TOP
from forestplan.network import NAMELESS, Network
from forestplan.networks.kinds import KINDS
from forestplan.networks.network_text import network_in_bytes
from forestplan.networks.texts import dimacs_text

# Why no file of a network is longer than `MOST_BYTES`.
TOO_LONG = "and no network within the limits is so long"
# The name of a kind with its size, as ring7 or grid3x4.
MADE = re.compile(r"([a-z]+)([0-9]{1,5})(?:x([0-9]{1,5}))?")
EXAMPLES = [os.path.join(TOP, "examples", "workshop"), os.path.join(TOP, "examples")]


def path_of(name: str) -> str | None:
    """The file that a name means, or `-`; None if it means none. A name of an example or of a kind means that in any
    folder, whatever is there: `./two` is the file.

    >>> os.path.basename(path_of("petersen"))
    'petersen.col'
    >>> path_of("ring7") is None
    True
    """
    if name == "-":
        return name
    for folder in EXAMPLES:
        example = os.path.join(folder, f"{name}.col")
        if os.sep not in name and os.path.isfile(example):
            return example
    return name if os.path.exists(name) and not sizes_of(name) else None


def sizes_of(name: str) -> tuple[str, list[int]] | None:
    """The kind that a name has, and its sizes, as ring7 or grid3x4 do; None if it names none that is made so."""
    found = MADE.fullmatch(name)
    if not found:
        return None
    kind = KINDS.get(found[1])
    sizes = [int(size) for size in found.groups()[1:] if size]
    if not kind or kind.is_by_chance or len(kind.sizes) != len(sizes):
        return None
    return found[1], sizes


def network_bytes(name: str) -> bytes:
    """The text of the network of a name: a file, an example, or a kind with its size.

    >>> network_bytes("path2").splitlines()[-1]
    b'e 1 2'

    Raises `Fault` of a name that means none, and of a file that can't be read.
    """
    path = path_of(name)
    if path is not None:
        return bytes_at(path, why=TOO_LONG)
    found = sizes_of(name)
    if found:
        kind, sizes = found
        return dimacs_text(KINDS[kind].make(*sizes)).encode()
    if not MADE.fullmatch(name):
        raise Fault(Code.NO_FILE, InText(text_name(name)))
    made = [
        kind + ("N" if len(of.sizes) == 1 else "RxC")
        for kind, of in KINDS.items()
        if not of.is_by_chance
    ]
    raise Fault(Code.NO_FILE_AND_NO_NETWORK, InText(name), made=", ".join(made))


def network_at(name: str) -> Network:
    """The network that a `name` means: an example, a kind with its size, a file in the DIMACS format, or `-`, which is
    standard input. An example and a kind are meant in any folder; `./ring5` is the file.

    >>> network_at("grid2x2").edges
    [(1, 2), (1, 3), (2, 4), (3, 4)]
    >>> network_at("petersen").nodes
    10

    Raises `Fault` of a name that means none, and of the first fault of its text.
    """
    network = network_in_bytes(network_bytes(name), text_name(name))
    if name == "-":
        network.name = NAMELESS
    return network
