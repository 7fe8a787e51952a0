"""What the studio is open with, which each call is given. The server's own process changes it when the programs are
built."""
import os
from dataclasses import dataclass, field
from typing import Literal

from forestplan.folders import TOP
from forestplan.pictures.page_data import Net

# What the nodes of a file do: they make rounds, or they react to each message.
Form = Literal["rounds", "reactions"]
# The samples without rounds of lesson 8, which the studio always has.
SAMPLES = {
    name: os.path.join(TOP, "examples", "algorithms", f"{name}.py")
    for name in ("echo", "exclusion", "snapshot")
}


@dataclass
class Session:
    """What the command line gives: the network to begin with, and programs of one's own by name, each with the path of
    its file and with its form; and whether the programs are proved and built, and the file with what their build says.
    """

    network: Net | None = None
    own: dict[str, str] = field(default_factory=dict)
    forms: dict[str, Form] = field(default_factory=dict)
    is_proved: bool = False
    log: str | None = None
