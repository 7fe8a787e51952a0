"""Why something can't be done. A fault has a code, a place and a subject. sentences.py makes its sentence where a
command or a page shows it, and nothing in src/forestplan/ reads one. A script writes it as one line on standard
error."""
from typing import NamedTuple

from forestplan.fault_codes import Code


class InText(NamedTuple):
    """Where a fault is: what the text is called, and the number of a line, or where else in the text, in words.

    >>> str(InText("net.col", 3)), str(InText("net.json", "nodes[0]")), str(InText("net.col"))
    ('net.col line 3', 'net.json nodes[0]', 'net.col')
    """

    name: str
    where: int | str | None = None

    def __str__(self) -> str:
        if self.where is None:
            return self.name
        where = self.where if isinstance(self.where, str) else f"line {self.where}"
        return f"{self.name} {where}".lstrip()


class Fault(Exception):
    """Says with a code that a text is wrong, or a network is too large for what is asked. `place` is where, if it is
    about a text, and `subject` has what its sentence names.

    >>> fault = Fault(Code.SECOND_PROBLEM_LINE, InText("net.col", 3))
    >>> fault.place.where, str(fault)
    (3, 'net.col line 3: a second `p` line (F2)')
    """

    def __init__(self, code: Code, place: InText | None = None, **subject: object) -> None:
        super().__init__(code, place, subject)
        self.code = code
        self.place = place
        self.subject = subject

    def __str__(self) -> str:
        # Only what is refused pays for what the import takes.
        from forestplan.sentences import sentence_of

        return sentence_of(self.code, "" if self.place is None else str(self.place), self.subject)


def at_most(kind: str, count: float, what: str, limit: int, instead: str) -> None:
    """Refuses what would be no picture any more, and names the kind to use."""
    if count > limit:
        subject = {"kind": kind, "most": limit, "what": what, "count": count, "instead": instead}
        raise Fault(Code.TOO_MANY_OF_KIND, None, **subject)
