"""The rules that can be left out, and the wrong body that takes each one away from the proved program.

`crate` and `edit` name that body: it is the file EDIT.edit in crates/CRATE/must-fail/ or in
crates/CRATE/wrong-bodies/."""
from collections import namedtuple
from collections.abc import Collection, Mapping

Rule = namedtuple("Rule", "says without crate edit")

# Of the synchroniser and its links: what breaks is looked for in the schedules of a network.
OF_SCHEDULES = {
    "safes": Rule(
        "a node makes a pulse only when its neighbours are safe",
        "it doesn't wait for their safes",
        "alpha_core",
        "can_pulse_without_the_neighbours_safes",
    ),
    "acks": Rule(
        "a node says safe only when its payloads are acknowledged",
        "it says safe at once",
        "alpha_core",
        "settle_says_safe_before_the_last_acknowledgement",
    ),
    "early": Rule(
        "a payload of the next pulse is kept apart",
        "it is put in the place of this pulse's payload",
        "alpha_core",
        "take_payload_puts_an_early_one_among_the_present",
    ),
    "fifo": Rule(
        "a link hands wires over in the order in which they were put",
        "a wire may overtake those before it",
        "event_machine",
        "next_gives_the_newest_wire",
    ),
}

# Of the links alone: of nodes that react to messages, without rounds.
OF_LINKS = {
    "fifo": OF_SCHEDULES["fifo"]._replace(
        says="a link hands messages over in the order in which they were put",
        without="a message may overtake those before it",
    )
}

# Of the rounds of the colouring: of a forest's colours, and of the merging.
OF_FORESTS = {
    "digit": Rule(
        "a bit step is the place and the node's own digit there",
        "it is only the place",
        "cole_vishkin",
        "bit_step_leaves_the_digit_out",
    ),
    "shift": Rule(
        "before a drop all nodes take their parents' colours",
        "they keep their own",
        "shift_down",
        "shift_leaves_every_colour",
    ),
    "root": Rule(
        "in a shift a root takes another colour than its own",
        "it keeps its own",
        "shift_down",
        "shift_of_a_root_keeps_its_colour",
    ),
    "children": Rule(
        "a node that drops its colour takes another than its children have",
        "it doesn't look at them",
        "shift_down",
        "drop_class_avoids_the_parent_alone",
    ),
    "parent": Rule(
        "a node that drops its colour takes another than its parent has",
        "it doesn't look at it",
        "shift_down",
        "drop_class_forgets_the_parent",
    ),
}
OF_MERGING = {
    "pair": Rule(
        "nodes choose in the order of pairs: colour in the forest, old colour",
        "the order is only by the colour in the forest",
        "colour_rules",
        "chooses_by_the_colour_in_the_forest_alone",
    ),
    "earlier": Rule(
        "a node tells its choice to its neighbours in this forest and in earlier ones",
        "only to those in this forest",
        "colour_rules",
        "is_merged_takes_the_merged_forest_alone",
    ),
}
OF_ROUNDS = OF_FORESTS | OF_MERGING

# Of the programs that go on where the colouring ends: of what their nodes have found at the end.
OF_SEQUELS = {
    "matching": {
        "partner": Rule(
            "a node that has a partner takes no child",
            "it takes one in its turn all the same",
            "matching",
            "taken_takes_a_child_of_a_matched_node",
        ),
        "last": Rule(
            "a pulse after the last turn reads what was sent in it",
            "the last turn ends it",
            "matching",
            "last_pulse_is_a_pulse_early",
        ),
    },
    "independent-set": {
        "class": Rule(
            "a node joins in the pulse of its channel, and if no neighbour is in",
            "one of the two is enough",
            "independent_set",
            "choose_joins_beside_a_member",
        ),
        "beside": Rule(
            "a node knows of each neighbour that has joined",
            "it forgets it at once",
            "independent_set",
            "pulse_forgets_what_it_heard",
        ),
    },
    "recolouring": {
        "bars": Rule(
            "a node chooses no channel that is barred at it",
            "it doesn't look at its bars",
            "recolouring",
            "first_free_is_a_barred_colour",
        ),
        "anew": Rule(
            "a node tells the channel that it has chosen again",
            "it tells its channel in the plan",
            "recolouring",
            "choose_tells_the_first_colour",
        ),
    },
}
# By the program whose rounds have them; of the rounds of any program; and all.
OF_PROGRAMS = {"colouring": OF_ROUNDS} | OF_SEQUELS
OF_ANY_ROUNDS = {word: rule for of in OF_PROGRAMS.values() for word, rule in of.items()}
ALL = OF_SCHEDULES | OF_ANY_ROUNDS


def rules_named(without: Collection[str], known: Mapping[str, Rule]) -> frozenset[str]:
    """The rules that are left out, each of them one of the `known` ones.

    >>> sorted(rules_named(["safes", "fifo"], OF_SCHEDULES))
    ['fifo', 'safes']

    Raises ValueError for a rule that isn't known there, and for a text, which isn't a list of rules.
    """
    unknown = sorted({without} if isinstance(without, str) else {*without} - known.keys())
    if unknown:
        what = (
            "isn't a list of rules"
            if isinstance(without, str)
            else "is no rule that can be left out there"
        )
        raise ValueError(f"{unknown[0]!r} {what}; the rules are {', '.join(known)}")
    return frozenset(without)


def program_with_rules(names: Collection[str]) -> str | None:
    """The program whose rounds have all these rules, or None.

    >>> program_with_rules(["shift"]), program_with_rules(["shift", "no such rule"])
    ('colouring', None)
    """
    return next((name for name, of in OF_PROGRAMS.items() if set(names) <= set(of)), None)


def unknown_to(program: str, names: Collection[str]) -> str | None:
    """Why the rounds of a program can't be played without these rules, or None if they can."""
    of = program_with_rules(names)
    if of is None:
        return "rules of two programs can't be left out together"
    return (
        None if of == program else f"only --program {of} has the rules {','.join(OF_PROGRAMS[of])}"
    )


def rules_table() -> str:
    """The rules as lines of help."""
    return "".join(
        f"  {word:9} {rule.says};\n            left out: {rule.without}\n"
        for word, rule in ALL.items()
    )
