"""The rounds of a network: by port what each node sends in each pulse, and so what comes to its neighbours in the next.
The right ones are those of `forestplay rounds`, and of the colouring also the plan of `forestplan plain`."""
from forestplan.fault_codes import Code
from forestplan.faults import Fault
from forestplan.network import Network
from forestplan.networks.texts import plain_text
from forestplan.proved_programs import called
from forestplan.workshop.protocol import COLOURING, SEQUELS


def program_option(program: str) -> list[str]:
    """The words by which a command learns what the nodes run."""
    return [] if program == COLOURING else ["--program", program]


def ask(name: str, command: str, text: str, program: str = COLOURING) -> tuple[int, str, str]:
    """(status, standard output, standard error) of a proved program on a text; `program` is what the nodes run."""
    done = called(name, [command, *program_option(program)], text.encode())
    return done.returncode, done.stdout.decode(), done.stderr.decode("utf-8", "replace").strip()


class PutsOfRounds:
    """`puts[p][v][port]`, the words that v sends in pulse p; `ports[v][w]`, v's port to w."""

    def __init__(self, network: Network) -> None:
        self.network = network
        self.puts: list[dict[int, dict[int, str]]] = []
        self.ports = {
            v: {w: port for port, w in enumerate(network.neighbours[v])}
            for v in network.node_numbers
        }

    def inbox(self, p: int, v: int) -> dict[int, str]:
        """What came to a node for a pulse, by port."""
        puts = self.puts[p - 1] if p else {}
        return {
            port: puts[w][self.ports[w][v]]
            for w, port in self.ports[v].items()
            if self.ports[w][v] in puts.get(w, ())
        }

    def came(self, p: int, v: int) -> str:
        """The same in words."""
        return (
            ", ".join(f"{payload} by port {port}" for port, payload in self.inbox(p, v).items())
            or "nothing"
        )


class RightRounds(PutsOfRounds):
    """The rounds that are right, once `work_out` was called.

    Of each pulse p: `phase[p]`, its words, which only the colouring has; `colours[p][v]`, v's colour in each forest
    after it, and `chose[p][v]`, where there are any. `last` is the number of the last pulse, and `results[v]` what v
    has found, in words. A whole run without a clock has `events` entries."""

    def __init__(self, network: Network, program: str = COLOURING) -> None:
        super().__init__(network)
        self.program = program
        self.last = 0
        self.events = 0
        self.phase: list[list[str]] = []
        self.colours: list[dict[int, list[int]]] = []
        self.chose: list[dict[int, int]] = []
        self.results: dict[int, str] = {}

    def work_out(self) -> "RightRounds":
        """Has the proved programs work the rounds out, in a process, or in two for the colouring; returns these rounds.

        A network that a program refuses is `Fault`."""
        head, *lines = self.asked("forestplay", "rounds", self.program).splitlines()
        self.last = int(head.split()[-1])
        for line in lines:
            self.read(line.split(" "))
        if self.program == COLOURING:
            plan = self.asked("forestplan", "plain").splitlines()[1:]
            self.results = {int(v): f"channel {channel}" for v, channel in map(str.split, plan)}
        payloads = sum(len(to) for by in self.puts for to in by.values())
        wires = 2 * payloads + 2 * len(self.network.edges) * (self.last + 1)
        self.events = self.network.nodes * self.last + 2 * wires
        return self

    @property
    def forests(self) -> int | None:
        """How many forests there are; None if the program doesn't use them."""
        return self.network.forest_count if self.program in (COLOURING, *SEQUELS) else None

    def asked(self, name: str, command: str, program: str = COLOURING) -> str:
        status, text, why = ask(name, command, plain_text(self.network), program)
        if status:
            raise Fault(
                Code.NETWORK_REFUSED, name=name, command=command, network=self.network.name, why=why
            )
        return text

    def read(self, fields: list[str]) -> None:
        """Adds a line of the rounds."""
        match fields:
            case ["pulse", _, *phase]:
                self.phase.append(phase)
                self.puts.append({})
                self.colours.append({})
                self.chose.append({})
            case [v, "put", w, "payload", _, *payload]:
                self.puts[-1].setdefault(int(v), {})[self.ports[int(v)][int(w)]] = " ".join(payload)
            case [v, "colour", _, colour]:
                self.colours[-1].setdefault(int(v), []).append(int(colour))
            case [v, "chose", colour]:
                self.chose[-1][int(v)] = int(colour)
            case [v, *result]:
                self.results[int(v)] = " ".join(result)

    @property
    def own_lines(self) -> dict[str, int | None]:
        """What each node learns of them before they begin."""
        return {"forests": self.forests, "last": self.last}
