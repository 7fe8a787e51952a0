"""Judges the links of a class, `forestlab studio --links FILE`: one a line, each a dare and the steps that win it."""
from collections.abc import Iterator
from functools import partial

from forestplan.definitions.reacting_program import Reacting
from forestplan.fault_codes import Code
from forestplan.faults import Fault
from forestplan.networks.fields import shown_field
from forestplan.studio.address import program_named
from forestplan.studio.call_values import either_program_asked, network_asked
from forestplan.studio.dares import dare_judged
from forestplan.studio.limits import apart
from forestplan.studio.messages import OfProgram
from forestplan.studio.networks import opened_by
from forestplan.studio.own_dares import own_dare_judged
from forestplan.studio.session import Session


def judged_links(lines: list[str], session: Session) -> Iterator[tuple[str, bool]]:
    """For each link the line that is said of it, as soon as it is judged, and whether it could be."""
    for number, line in enumerate(lines, 1):
        link = line.strip()
        if not link:
            continue
        found = apart(partial(judged_link, link, session))
        if found.kind == "answer":
            yield f"{number}: {found.answer}", True
        else:
            # What takes too much, and a fault of the studio, say nothing of the link.
            what = "read" if found.kind == "refusal" else "judged"
            yield f"{number}: can't be {what}: {found.wrong}", False


def judged_link(link: str, session: Session) -> str:
    """What is said of a link."""
    host, mark, place = link.partition("#")
    if not mark:
        raise Fault(Code.NO_ADDRESS, host=shown_field(host))
    opened = opened_by(place, session)
    opened.address.refuse()
    values = opened.address.values
    if values.dare is None:
        raise Fault(Code.NO_DARE_IN_ADDRESS)
    if opened.text is None:
        raise Fault(Code.NO_NETWORK_IN_ADDRESS)
    asked = OfProgram(network=opened.text, program=program_named(values))
    network = network_asked(asked)
    rules = tuple(values.without.split(",")) if values.without else ()
    program = either_program_asked(asked, network, session)
    steps = values.steps or ()
    if isinstance(program, Reacting):
        found = own_dare_judged(network, program, rules, steps, values.dare)
    else:
        found = dare_judged(network, program, rules, steps, values.dare)
    without = f" without {','.join(rules)}" if rules else ""
    verdict = "won" if found.won else "not won"
    return f"{verdict}: {values.dare}{without}: {found.said}"
