"""How a call tells the page how far it is."""
from typing import Protocol


class Tell(Protocol):
    """Tells that `done` of `of` is done; or a part of what will come out."""

    def __call__(self, done: int = 0, of: int = 0, part: object = None) -> None:
        ...
