"""What `forestlab transcript check` says of a run that isn't right: whose entry, which rule, who owes what, which
field."""
from tests.cases import Case, said_by
from tests.sentences import ACK, NO_ACK, PULSE, SAFE
from tests.tools import needs

HELLO_1, HELLO_2 = "payload 0 hello 1", "payload 0 hello 2"
# A pulse's worth of two nodes without the acknowledgements.
GREETED = f"1 1 put 2 {HELLO_1}|1 2 put 1 {HELLO_2}|2 1 take 2 {HELLO_2}|2 2 take 1 {HELLO_1}|"
ACKED = GREETED + "3 1 put 2 ack 0|3 2 put 1 ack 0|4 1 take 2 ack 0|4 2 take 1 ack 0|"
WIRES = "`payload P WORD NUMBER`, `ack P`, `safe P` and `close`"
LACKS_ACK = NO_ACK.format(0, "from 2")
PUT_LATER = "; it is put in line {}, which can't have come before"
NEVER_PUT = ", and 2 never puts it (is the text cut?)"
# (the entries of edition 2, the line that is said)
ROWS = (
    (
        GREETED + "3 2 put 1 ack 1|",
        f"line 6: WrongWire: node 2 puts ack 1 for 1, but the next one there is ack 0; {ACK}, before anything else is "
        "put on that link",
    ),
    (
        "1 1 put 2 payload 0 hello 7|",
        "line 2: WrongWire: node 1 puts payload 0 hello 7 for 2, but the next one there is payload 0 hello 1; the "
        "rounds have payload 0 hello 1 there",
    ),
    (
        "1 1 put 2 safe 0|",
        "line 2: WrongWire: node 1 puts safe 0 for 2, but the next one there is payload 0 hello 1; in pulse 0 it has "
        "to send payload 0 hello 1 for 2 first",
    ),
    (
        "1 1 put 2 payload 1 label 0|",
        "line 2: WrongWire: node 1 puts payload 1 label 0 for 2, but the next one there is payload 0 hello 1; the node "
        "is at pulse 0, and a payload of pulse P is put after pulse P is made",
    ),
    (
        f"1 1 put 2 {HELLO_1}|2 1 put 2 ack 0|",
        "line 3: NothingToPut: node 1 puts ack 0 for 2, for which it has nothing; each payload is acknowledged once, "
        "with the payload's own pulse",
    ),
    (
        ACKED + "5 1 put 2 safe 0|6 1 put 2 safe 1|",
        "line 11: NothingToPut: node 1 puts safe 1 for 2, for which it has nothing; the node is at pulse 0, and safe P "
        "is said in pulse P",
    ),
    (
        "1 3 pulse 1|",
        "line 2: NoSuch: node 3 makes pulse 1, but there is no such node or neighbour",
    ),
    (
        "1 1 put 1 safe 0|",
        "line 2: NoSuch: node 1 puts safe 0 for 1, but there is no such node or neighbour",
    ),
    (
        f"1 1 put 2 {HELLO_1}|1 2 put 1 {HELLO_2}|2 1 take 2 payload 0 hello 7|",
        "line 4: WrongWire: node 1 takes payload 0 hello 7 from 2, but the next one there is payload 0 hello 2",
    ),
    (
        f"2 1 put 2 {HELLO_1}|",
        f"line 2: WrongStamp: node 1 puts {HELLO_1} for 2 with stamp 2, but the clock there gives 1",
    ),
    (
        f"1 2 put 1 {HELLO_2}|1 1 put 2 {HELLO_1}|",
        f"line 3: WrongStamp: node 1 puts {HELLO_1} for 2 with stamp 1, but "
        "entries ascend by stamp, and then by node",
    ),
    # A wire that isn't there: where it is put, if it is, or nowhere, be there another one; and one that was taken.
    *(
        (
            f"{entries}1 take 2 {HELLO_2}|{more}",
            f"line {line}: LinkEmpty: node 1 takes payload 0 hello 2 from 2{said}",
        )
        for entries, more, line, said in (
            ("1 ", f"1 2 put 1 {HELLO_2}|", 2, PUT_LATER.format(3)),
            ("1 ", "", 2, NEVER_PUT),
            ("1 ", "2 2 put 1 ack 0|", 2, NEVER_PUT),
            ("1 ", f"2 2 put 1 ack 0|3 2 put 1 {HELLO_2}|", 2, PUT_LATER.format(4)),
            (f"1 1 put 2 {HELLO_1}|1 2 put 1 {HELLO_2}|2 1 take 2 {HELLO_2}|3 ", "", 5, NEVER_PUT),
        )
    ),
    # Nothing is on its way: it isn't asked whether the text is cut.
    (
        GREETED,
        "line 5: NotWhole: after the last entry nothing is on its way, and not all is done: node 1 at pulse 0 "
        "doesn't put 2 ack 0; node 2 at pulse 0 doesn't put 1 ack 0",
    ),
    # Something is.
    (
        f"1 1 put 2 {HELLO_1}|",
        "line 2: NotWhole: after the last entry node 1 is at pulse 0 of 18 (is the text cut?)",
    ),
    # An entry before a line that is none comes first.
    (
        "1 1 pulse 1|1 1 put 2 payload 0 colour -2|",
        f"line 2: NotReady: node 1 makes pulse 1, but it lacks ack 0 of 2; safe 0 of 2; {PULSE}; {LACKS_ACK}",
    ),
    (
        f"1 1 put 2 {HELLO_1}|1 1 put 2 payload 0 colour -2|",
        "line 3: X1: not an entry: `-2` is no number of a " "colour, which is below 2^128",
    ),
    ("x 1 pulse 1|", "line 2: X1: not an entry: `x` is no number of a stamp, which is below 2^64"),
    *(
        (
            f"1 {entry}|",
            f"line 2: X1: not an entry: `{entry}` after its stamp is neither `V pulse P`, `V put W "
            "WIRE` nor `V take W WIRE`",
        )
        for entry in ("1", "1 puts 2 close", "1 put 2", "1 pulse")
    ),
    *(
        (f"1 1 put 2 {wire}|", f"line 2: X1: not an entry: `{wire}` is no wire, which are {WIRES}")
        for wire in ("nack 0", "ack")
    ),
    (
        "1 1 put 2 payload 0 best 1|",
        "line 2: X1: not an entry: `best` is no payload of colouring, which has hello, "
        "label, colour, chosen",
    ),
    # A payload of another program.
    (
        "1 1 put 2 payload 0 hops 0|",
        "line 2: X1: not an entry: `hops` is no payload of colouring, which has hello, "
        "label, colour, chosen; is it a run of layers? See --program",
    ),
    (
        "1 1 put 2 payload 1 label 65536|",
        "line 2: X1: not an entry: `65536` is no number of a label, which is below " "2^16",
    ),
)


# A file of the user's may be called so, and no proved program is: `replay` says X1 (programs.test_node_programs).
OF_FILES = ("my_own", "independent_set", "Leader", "-set")


class Transcripts(Case):
    def says(self, text, line, *parts, network="two"):
        status, _, said = said_by(
            "transcript", "check", network, *parts, data=text.replace("|", "\n").encode()
        )
        self.same(f"{text} {parts}", (status, said), (1, f"{line}\n"))

    def test_of_edition_2(self):
        for entries, line in ROWS:
            self.says("transcript 2 2|" + entries, line)
        middle = "transcript 2 3|1 2 put 1 payload 0 hello 2|2 2 put 3 payload 0 hello 2|3 2 put 1 safe 0|"
        self.says(
            middle,
            f"line 4: NothingToPut: node 2 puts safe 0 for 1, for which it has nothing; {SAFE}; it can't "
            "have said safe yet: it lacks the acknowledgements of pulse 0 from 1 and 3",
            network="path3",
        )
        alone = "transcript 2 1|" + "".join(f"{p} 1 pulse {p}|" for p in range(1, 14))
        self.says(
            alone, "line 14: NotReady: node 1 makes pulse 13; pulse 12 is the last", network="path1"
        )

    def test_the_last_stamp(self):
        """A stamp has 64 bits: with a greater number a line is no entry, whatever the clock says."""
        for stamp, is_entry in ((2**64 - 1, True), (2**64, False)):
            data = f"transcript 2 2\n{stamp} 1 put 2 {HELLO_1}\n".encode()
            status, _, said = said_by("transcript", "check", "two", data=data)
            self.same(stamp, (status, "not an entry" in said), (1, not is_entry))

    def test_of_edition_1(self):
        line = f"line 3: NotReady: node 1 makes pulse 2, but it lacks ack 0 of 2; safe 0 of 2; {PULSE}; {LACKS_ACK}"
        self.says(f"transcript 1 2|1 put 2 {HELLO_1}|1 pulse 2|1 put 2 odd|", line)

    def test_of_edition_3(self):
        """A text that names its program is refused by another one's, with its name."""
        named = "transcript 3 {} 2|1 1 put 2 payload 0 hops 0|"
        for name, program, line in (
            (
                "layers",
                "layers",
                "line 2: NotWhole: after the last entry node 1 is at pulse 0 of 1 (is the text cut?)",
            ),
            (
                "layers",
                "colouring",
                "line 1: WrongProgram: a transcript of layers, not of colouring: --program layers",
            ),
            (
                "layers",
                "leader",
                "line 1: WrongProgram: a transcript of layers, not of leader: --program layers",
            ),
            *(
                (
                    name,
                    "layers",
                    f"line 1: WrongProgram: a transcript of {name}, not of layers: --program {name}",
                )
                for name in OF_FILES
            ),
            (
                "lay\x1bers",
                "layers",
                "line 1: X1: neither `transcript 1 N`, `transcript 2 N`, `transcript 3 NAME N` nor "
                "`transcript 4 NAME N`",
            ),
        ):
            self.says(named.format(name), line, "--program", program)

    def test_a_text_that_ends_inside_a_line(self):
        self.says(
            "transcript 2 2|1 1 put 2 pay",
            f"line 2: X1: not an entry: `pay` is no wire, which are {WIRES}, and no line feed "
            "after it (is the text cut?)",
        )

    @needs("bin/forestplan", "bin/forestplay")
    def test_bars_that_a_program_ignores(self):
        """Each command that reads a network for another program says so once; the colouring minds bars."""
        for arguments in (["simulate"], ["explore", "--limit", "100000"], ["picture", "watch"]):
            for program, noted in (("colouring", 0), ("leader", 1), ("layers", 1)):
                done = said_by(
                    *arguments, "-", "--program", program, data=b"p edge 2 1\ne 1 2\nb 1 3\n"
                )
                count = done[2].count(f"{arguments[0]}: {program} ignores the bars of the network")
                self.note(f"{arguments[0]} of {program}", (done[0], count) == (0, noted), done)
