"""The addresses of the studio: what its page shows, as NAME=VALUE with `&` between, after the `#`.

`NAMES` is their only grammar. The page has it from the call `hello`, and writes by it (address.js). Whoever follows an
address has it read here: the page by the call `address`, a class's links by `studio --links`. What can't be read is
named with the reason; nothing of it is guessed."""
import re
from collections.abc import Callable, Collection, Mapping
from dataclasses import dataclass, field, replace
from typing import get_args

from forestplan.definitions.nodes import COLOURING
from forestplan.definitions.programs import OPTIONS, PROGRAMS
from forestplan.fault_codes import Code
from forestplan.faults import Fault
from forestplan.limits import MAX_PASSES
from forestplan.networks.fields import shown_field
from forestplan.schedules.policies import POLICIES
from forestplan.schedules.rules import OF_LINKS, OF_PROGRAMS, OF_SCHEDULES
from forestplan.studio.answers import TABS, Order, PictureKind, Values, Written
from forestplan.studio.call_values import MOST_STEPS
from forestplan.studio.dares import DARES
from forestplan.studio.drawn_network import percent_decoded
from forestplan.studio.lessons import LECTURE, LESSONS, step_place, steps_in
from forestplan.studio.own_dares import OWN_DARES
from forestplan.studio.session import Form

# Letters of an address: browsers take no longer one. And how many faults of one are named.
MOST_LETTERS = 2 << 20
MOST_NAMED = 5
MOST_CHANNEL = 9999


@dataclass(frozen=True)
class Here:
    """What the other values of an address are of: the network that it has, the program, the lesson, and
    the programs of one's own that there are, with their forms."""

    nodes: int = 0
    edges: Collection[tuple[int, int]] = ()
    program: str = COLOURING.name
    own: Mapping[str, Form] = field(default_factory=dict)
    lesson: int | None = None

    @property
    def reacts(self) -> bool:
        """Whether the nodes react to messages, without rounds."""
        return self.own.get(self.program) == "reactions"

    def node(self, said: str) -> int:
        v = address_number(said)
        if not 1 <= v <= self.nodes:
            raise Fault(Code.NO_NODE_OF_ADDRESS, node=v, nodes=self.nodes)
        return v

    def edge(self, said: str) -> tuple[int, int]:
        v, _, w = said.partition("-")
        found = min(address_number(v), address_number(w)), max(address_number(v), address_number(w))
        if found not in self.edges:
            raise Fault(Code.NO_LINK, said=shown_field(said))
        return found


def address_number(said: str) -> int:
    if not re.fullmatch("[0-9]{1,6}", said):
        raise Fault(Code.NO_WHOLE_NUMBER, said=shown_field(said))
    return int(said)


def within(said: str, low: int, high: int) -> int:
    if not low <= address_number(said) <= high:
        raise Fault(Code.NUMBER_OUTSIDE, low=low, high=high)
    return address_number(said)


def time_of(said: str, _here: Here) -> float:
    if not re.fullmatch(r"[0-9]{1,9}(\.[0-9]{1,9})?", said):
        raise Fault(Code.NUMBER_FROM_0)
    return float(said)


def filled_items(said: str) -> list[str]:
    """The items of a list; nothing between two `_` is no item."""
    return [one for one in said.split("_") if one]


def step_of(said: str) -> str:
    if not re.fullmatch("[0-9]{1,5}(-[0-9]{1,5}){0,2}", said):
        raise Fault(Code.NO_STEP, said=shown_field(said))
    return said


def steps_of(said: str, _here: Here) -> list[str]:
    found = list(map(step_of, filled_items(said)))
    if len(found) > MOST_STEPS:
        raise Fault(Code.TOO_MANY_STEPS, steps=len(found), most=MOST_STEPS)
    return found


def plan_in_address(said: str, here: Here) -> list[int]:
    found = [within(one, 0, MOST_CHANNEL) for one in filled_items(said)]
    if len(found) > here.nodes:
        raise Fault(Code.TOO_MANY_CHANNELS, channels=len(found), nodes=here.nodes)
    return found


def rules_in_address(said: str, rules: Collection[str]) -> str:
    names = said.split(",")
    unknown = [name for name in names if name not in rules]
    if unknown or len(set(names)) < len(names):
        if unknown:
            raise Fault(
                Code.NO_RULE, rule=shown_field(unknown[0]), rules=", ".join(rules) or "none"
            )
        raise Fault(Code.RULE_TWICE, rules=", ".join(rules) or "none")
    return said


def other_run(said: str, here: Here) -> Order:
    policy, has_seed, seed = said.partition(".")
    return Order(word_among(POLICIES)(policy, here), seed if has_seed else "1")


def word_among(names: Collection[str]) -> Callable[[str, Here], str]:
    def parse(said: str, _here: Here) -> str:
        if said not in names:
            raise Fault(Code.NOT_AMONG, names=", ".join(names))
        return said

    return parse


def program_in_address(said: str, here: Here) -> str:
    return word_among([*PROGRAMS, *here.own])(said, here)


def lesson_step_of(said: str, here: Here) -> int:
    if here.lesson is None:
        raise Fault(Code.NO_LESSON_OF_STEP)
    return within(said, 1, len(steps_in(here.lesson)))


def flag_of(said: str, here: Here) -> bool:
    return word_among(("0", "1"))(said, here) == "1"


@dataclass(frozen=True)
class Name:
    """A name of the grammar: how the page writes its value (`WRITE` of address.js), and how it is read."""

    written: Written
    takes: Callable[[str, Here], object]


# Each name that an address can have. Of `example` and `net` it has at most one (`networks.py` reads them).
NAMES: dict[str, Name] = {
    "example": Name("word", lambda said, _: said),
    "net": Name("network", lambda said, _: said),
    "program": Name("word", program_in_address),
    "tab": Name("word", word_among(TABS)),
    "passes": Name("number", lambda said, _: within(said, 1, MAX_PASSES)),
    "root": Name("number", lambda said, here: here.node(said)),
    "slow": Name("list", lambda said, here: list(map(here.edge, filled_items(said)))),
    "lazy": Name("list", lambda said, here: list(map(here.node, filled_items(said)))),
    "node": Name("number", lambda said, here: here.node(said)),
    "at": Name("number", time_of),
    "forest": Name("number", lambda said, here: within(said, 0, max(0, here.nodes - 2))),
    "broken": Name(
        "rules", lambda said, here: rules_in_address(said, OF_PROGRAMS.get(here.program, {}))
    ),
    "predict": Name("flag", flag_of),
    "play": Name("flag", flag_of),
    "how": Name("word", word_among(("seed", "threads"))),
    "policy": Name("word", word_among(POLICIES)),
    "seed": Name("text", lambda said, _: said),
    "other": Name("run", other_run),
    "beside": Name("flag", flag_of),
    "steps": Name("list", steps_of),
    "without": Name(
        "rules",
        lambda said, here: rules_in_address(said, OF_LINKS if here.reacts else OF_SCHEDULES),
    ),
    "dare": Name(
        "word", lambda said, here: word_among(OWN_DARES if here.reacts else DARES)(said, here)
    ),
    "plan": Name("list", plan_in_address),
    "kind": Name("word", word_among(get_args(PictureKind))),
    "lesson": Name("number", lambda said, _: within(said, 1, len(LESSONS))),
    "step": Name("number", lesson_step_of),
    "lecture": Name("number", lambda said, _: within(said, 1, len(LECTURE))),
}


@dataclass
class Address:
    """What an address says. `values` has what can be read, by its name; `unread` why each of the others can't be."""

    values: Values = Values()
    unread: dict[str, Fault] = field(default_factory=dict)

    def refuse(self) -> None:
        """Refuses an address of which anything can't be read."""
        if self.unread:
            raise Fault(Code.ADDRESS_NOT_READ, unread=self.faults())

    def faults(self) -> str:
        """What can't be read, in one line."""
        first = [f"{name} ({why})" for name, why in list(self.unread.items())[:MOST_NAMED]]
        left = len(self.unread) - len(first)
        return ", ".join([*first, f"and {left:,} more"] if left else first)


def values_by_name(place: str) -> tuple[dict[str, str], dict[str, Fault]]:
    """The values of an address as they are written, by their names; and what is no name, or is there twice. A name
    without a value is as good as none, but for the seed: it is any text."""
    if len(place) > MOST_LETTERS:
        raise Fault(Code.ADDRESS_TOO_LONG, most=MOST_LETTERS, letters=len(place))
    found: dict[str, str] = {}
    unread: dict[str, Fault] = {}
    for part in filter(None, place.split("&")):
        name, _, value = part.partition("=")
        if name not in NAMES:
            unread[shown_field(part)] = Fault(Code.NO_SUCH_NAME)
        elif name in found:
            unread[name] = Fault(Code.NAME_TWICE)
        elif value or name in ("seed", "net"):
            found[name] = value
    return {name: value for name, value in found.items() if name not in unread}, unread


def place_opened(pairs: dict[str, str]) -> dict[str, str]:
    """A lesson or the lecture without a tab opens its place; with a tab it is only named."""
    if "tab" in pairs or "lesson" not in pairs and "lecture" not in pairs:
        return pairs
    if "lecture" in pairs:
        place = LECTURE[within(pairs["lecture"], 1, len(LECTURE)) - 1].place
        return values_by_name(place)[0] | {"lecture": pairs["lecture"]}
    lesson = within(pairs["lesson"], 1, len(LESSONS))
    step = within(pairs.get("step", "1"), 1, len(steps_in(lesson)))
    return values_by_name(step_place(lesson, step))[0] | {"lesson": str(lesson), "step": str(step)}


def read_values(pairs: dict[str, str], unread: dict[str, Fault], here: Here) -> Address:
    """What the values of an address say, in the order of the table: what comes later may be of the program."""
    values: dict[str, object] = {}
    unread = dict(unread)
    for name in filter(pairs.__contains__, NAMES):
        said = pairs[name]
        try:
            values[name] = NAMES[name].takes(said if name == "net" else percent_decoded(said), here)
        except Fault as why:
            unread[shown_field(f"{name}={said}")] = why
        if name == "program":
            here = replace(here, program=str(values.get("program", COLOURING.name)))
        if name == "lesson" and "lesson" in values:
            here = replace(here, lesson=int(pairs["lesson"]))
    make: Callable[..., Values] = Values
    return Address(make(**values), unread)


def program_named(values: Values) -> str:
    """The program of an address with its option, as a call names it; `programNamed` of base.js is the page's."""
    program = values.program or COLOURING.name
    if program == OPTIONS["passes"][0] and (values.passes or 1) > 1:
        return f"{program} passes {values.passes}"
    if program == OPTIONS["root"][0] and values.root:
        return f"{program} root {values.root}"
    return program
