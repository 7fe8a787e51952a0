"""Black-box tests: runs the built program as a user would, and compares standard output, standard error and
status byte by byte.

Expected answers are worked by hand, or come from the plain definition in src/forestplan/definitions/colours.py; none is
taken from the program. """
import os

from forestplan.definitions.colours import forests_text, plan_text
from forestplan.definitions.rounds import rounds_text
from forestplan.networks.network_text import network_in_bytes
from tests import TOP
from tests.cases import Case, called, contents, examples, text
from tests.commands import COMMANDS, EDGE, HELPS, PROGRAMS, TRIANGLE, commands_of
from tests.programs.slow_reader import answer_to
from tests.settings import PATHS, PLAN, PLAY, SECOND_PLAN
from tests.tools import needs

# The last line of a refusal of a word that isn't known.
READS = {
    name: f"{name} reads the network from standard input: {name} {command} < FILE|"
    for name, command in (("forestplan", "plan"), ("forestplay", "rounds"))
}
STAR = "p edge 1024 1023|" + "".join(f"e {v} 1024|" for v in range(1, 1024))
ODD_PATH = "c path\r|p edges 3 99 extra\r|\r|n 1 2\r|e 1 2 7\r|e 2 1\r|e 3 2\r|e 2 3\r|"
FOUR = "p edge 4 6|e 1 2|e 1 3|e 1 4|e 2 3|e 2 4|e 3 4|"
GREATEST = 2**128 - 1


# Networks, their channels and some forests, worked by hand. With bars: on one edge the three-colours are 0 and 1, so
# vertex 1 chooses first; in the greatest star the centre chooses last.
NETWORKS = [
    ("triangle", TRIANGLE, [2, 3, 1], "forests 3 2|0 1 2|0 2 3|1 1 3|"),
    ("path in an odd layout", ODD_PATH, [1, 2, 1], "forests 3 1|0 1 2|0 2 3|"),
    (
        "identifiers changed about, after the edges",
        "p edge 3 2|e 1 2|e 2 3|i 3 0 x|i 1 2|i 2 1|",
        None,
        "forests 3 1|0 2 1|0 3 2|",
    ),
    (
        "the greatest identifier, and one with zeros before it",
        f"p edge 3 2|e 1 2|e 1 3|i 3 {GREATEST} x\r|\ti 01  0007|",
        None,
        "forests 3 1|0 1 3|0 2 1|",
    ),
    (
        "complete graph on four",
        FOUR,
        [2, 3, 1, 4],
        "forests 4 3|0 1 2|0 2 3|0 3 4|1 1 3|1 2 4|2 1 4|",
    ),
    (
        "the greatest star",
        STAR,
        [1] * 1023 + [2],
        "forests 1024 1|" + "".join(f"0 {v} 1024|" for v in range(1, 1024)),
    ),
    (
        "a path of seven, one node alone",
        "p edge 8 6|e 1 2|e 2 4|e 4 5|e 5 6|e 6 7|e 7 8|",
        [2, 1, 1, 2, 1, 2, 1, 2],
        None,
    ),
    ("the triangle, with 1 barred at vertex 3", TRIANGLE + "b 3 1|", [1, 3, 2], None),
    ("an edge, with the next channel barred at each end", EDGE + "b 1 1|b 2 2|", [2, 1], None),
    (
        "the greatest span, with 1 free",
        STAR + "".join(f"b 1024 {channel}|" for channel in range(2, 1026)),
        [1] * 1023 + [1026],
        None,
    ),
]
# Words of forestplan, what is said of them, and the usage if it isn't that of the whole program.
USAGE = "forestplan plan [OPTIONS]"
WRONG_WORDS = (
    (
        ["plann"],
        "unrecognized subcommand 'plann'||  tip: some similar subcommands exist: 'plain', 'plan'",
        "",
    ),
    (
        ["--workers", "1", "plan"],
        "unexpected argument '--workers' found||  tip: 'plan --workers' exists",
        "",
    ),
    (["--version"], "unexpected argument '--version' found", ""),
    (["plan", "-w", "1"], "unexpected argument '-w' found", USAGE),
    (
        ["plan", "--worker", "1"],
        "unexpected argument '--worker' found||  tip: a similar argument exists: '--workers'",
        "forestplan plan --workers <N>",
    ),
    (
        ["plan", "--turns=1", "--turns=2"],
        "the argument '--turns <N>' cannot be used multiple times",
        USAGE,
    ),
)
# Of each option the name, the least and the greatest of its value.
OPTIONS = {
    "workers": ("N", 1, 64),
    "capacity": ("N", 1, 64),
    "turns": ("N", 0, 10**12),
    "edition": ("N", 1, 2),
    "root": ("V", 1, 20_000),
    "passes": ("N", 1, 64),
}


@needs("forestplan", "forestplay")
class BlackBox(Case):
    @needs("forestplan.by-rattle")
    def test_networks(self):
        """Of each network by hand, and of each example, all by the definitions, and these by hand; by the program as
        both compilers build it (the gate leaves that of Rattle's own beside the other). What a text may be besides is
        for test_hostile.py, each fault for test_codes.py."""
        networks = [(name, text(network), *wanted) for name, network, *wanted in NETWORKS]
        networks += [(f"example {name}", it, None, None) for name, it in examples().items()]
        for name, network, channels, forests in networks:
            net = network_in_bytes(network)
            plan, split = plan_text(net), forests_text(net)
            if channels is not None:
                wanted = "plan|" + "".join(
                    f"{v} {channel}|" for v, channel in enumerate(channels, 1)
                )
                self.same(f"the definition on {name}", plan, text(wanted))
            if forests is not None:
                self.same(f"the forests of {name} by the definition", split, text(forests))
            # On the greatest stars threads that have no processor would have the others wait for minutes, and the
            # rounds by the definition take long.
            is_large = len(network) > 9000
            alone = ["--workers", "1"] if is_large else []
            rows = [
                (PLAN, ["forests"], split),
                (PLAN, ["plain"], plan),
                (PLAN, ["plan", *alone], plan),
                (SECOND_PLAN, ["plan", *alone], plan),
            ]
            rows += [] if is_large else [(PLAY, ["rounds"], rounds_text(net))]
            for program, arguments, answer in rows:
                self.same(
                    f"{program} {' '.join(arguments)} of {name}",
                    called(program, *arguments, data=network),
                    (0, answer, b""),
                )
            verdict = f"proper {max(map(int, plan.split()[2::2]), default=0)}\n"
            done = called(PLAN, "check", data=network.rstrip() + b"\n" + plan)
            self.same(f"check of {name}", done, (0, verdict.encode(), b""))

    def test_limits(self):
        """20,000 vertices in blocks of 22, each joined to the next ones, and 400,000 different edges are read and
        planned; the edge after them is refused at its line, also after repeats."""
        pairs = [(v, v + d) for d in range(1, 22) for v in range(1, 20_001 - d)][:400_001]
        head, lines = b"p edge 20000 400000\n", [b"e %d %d\n" % pair for pair in pairs]
        body = b"".join(lines[:-1])
        # The same from the other end, and one more.
        more = b"".join(b"e %d %d\n" % (w, v) for v, w in pairs[:1000]) + lines[-1] + b"e 0 0\n"
        for data in (head + body, head + body + more):
            done = called(PLAN, "forests", data=data)
            self.same("400,000 edges by the definition", done, answer_to("forests", data))
        self.same("one more", done, (1, b"", b"forestplan: F7 line 401002\n"))

    def test_help(self):
        """Each help text whole, of both programs, as src/forestplan/help/ has it, but for the words on `-h`: at both
        options the scripts print the stored text."""
        for (program, *arguments), name in HELPS:
            wanted = contents("src", "forestplan", "help", f"{name}.txt")
            said = wanted.replace(b" Print help\n", b" Print help (see a summary with '-h')\n")
            done = called(PATHS[program], *arguments, "--help")
            self.same(f"help by {program} {arguments}", done, (0, said, b""))
            for option in ("--help", "-h"):
                done = called(os.path.join(TOP, "bin", program), *arguments, option)
                self.same(
                    f"help by the script {program} {arguments} {option}", done, (0, wanted, b"")
                )

    def test_refused_words(self):
        """Each text whole. The first line is the fault, then maybe a tip, the usage of what was named, and where help
        is; after a word that isn't known, which may be the name of a file, where the network is read from. Which
        options a command has is in its help."""
        rows: list[tuple[str, list, str, str]] = [
            *(("forestplan", *row) for row in WRONG_WORDS),
            *(
                (it.program, [it.name, "extra"], "unexpected argument 'extra' found", it.usage)
                for it in COMMANDS
            ),
        ]
        for name in PROGRAMS:
            names = ", ".join(command.name for command in commands_of(name))
            none = (
                f"'{name}' requires a subcommand but one was not provided|  [subcommands: {names}]"
            )
            rows.append((name, [], none, ""))
            rows += [
                (name, [word], f"unrecognized subcommand '{shown}'", "")
                for word, shown in (("net.col", "net.col"), (b"\xff", "\N{REPLACEMENT CHARACTER}"))
            ]
        for name, arguments, fault, usage in rows:
            is_unknown = fault.startswith(("unexpected argument", "unrecognized subcommand"))
            said = f"{fault}||Usage: {usage or f'{name} <COMMAND>'}"
            self.expect_refused(arguments, said, READS[name] * is_unknown, name)

    def test_refused_values(self):
        """Values of options that are refused. Each text whole; it has no usage."""
        too_large, no_digit = (
            "number too large to fit in target type",
            "invalid digit found in string",
        )
        for it, option in ((it, option) for it in COMMANDS for option in it.options):
            value, least, most = OPTIONS[option]
            outside = [max(0, least - 1), most + 1, 2**32 + 1, 2**64 - 1]
            outside = [number for number in outside if not least <= number <= most]
            rows = [
                *((number, f"{number} is not in {least}..={most}") for number in outside),
                (2**64, too_large),
                ("", "cannot parse integer from empty string"),
                *((number, no_digit) for number in (-1, "4.0", " 4", "0x4", "+")),
            ]
            for number, why in rows:
                fault = f"invalid value '{number}' for '--{option} <{value}>': {why}"
                self.expect_refused([it.name, f"--{option}={number}"], fault, program=it.program)
            self.expect_refused([it.name, f"--{option}", str(number)], fault, program=it.program)
            fault = f"a value is required for '--{option} <{value}>' but none was supplied"
            self.expect_refused([it.name, f"--{option}"], fault, program=it.program)

    def expect_refused(self, arguments, fault, hint="", program="forestplan"):
        wanted = f"error: {fault}||For more information, try '--help'.|{hint}".replace("|", "\n")
        done = called(PATHS[program], *arguments, data=text(TRIANGLE))
        self.same(f"refused words {arguments} of {program}", done, (2, b"", wanted.encode()))

    def test_streams(self):
        """A full device, and a pipe that nobody reads; tests/faults/test_streams.py breaks each write of each
        command."""
        for it in (it for it in COMMANDS if it.name in ("forests", "rounds")):
            for how in ('"$0" "$@" >/dev/full', 'exec > >(:); wait $!; exec "$0" "$@"'):
                done = called("bash", "-c", how, PATHS[it.program], *it.line, data=text(it.data))
                self.same(f"{it.name}: {how}", done, (4, b"", f"{it.program}: stream\n".encode()))
        done = called("bash", "-c", '"$0" forests 2>/dev/full', PLAN)
        self.same("a full device for errors changes no status", done[:2], (1, b""))
