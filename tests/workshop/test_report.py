"""The tables that the workshop prints of its runs: their cells, worked out by hand, whatever is between them."""
from random import Random

from forestplan.workshop.cases import Case, case_network
from forestplan.workshop.findings import Finding
from forestplan.workshop.report import league, report, policy_table
from tests.cases import Case as Rows


def case_of(
    name: str, policy: str, is_right: bool = True, took: dict[str, int] | None = None
) -> Case:
    finding = None if is_right else Finding("silent", 1, 0)
    return Case(0, case_network(name, Random("1")), policy, "1", finding=finding, league=took)


def cells(lines: list[str]) -> list[list[str]]:
    return [line.split() for line in lines]


class Tables(Rows):
    def test_right_runs(self):
        """By policy and network: how many of the runs were right; and nothing where there was none."""
        cases = [
            case_of("two", "random"),
            case_of("two", "random", is_right=False),
            case_of("path3", "random"),
            case_of("path3", "newest", is_right=False),
        ]
        wanted = [["two", "path3"], ["random", "1/2", "1/1"], ["newest", "0/1"]]
        self.assertEqual(cells(policy_table(cases)), wanted)

    def test_without_policies(self):
        self.assertEqual(cells(policy_table([case_of("two", "")])), [["two"], ["right", "1/1"]])

    def test_a_league(self):
        """On each network the most that a right run took, of each kind for itself."""
        first, second = (
            {"pulses": 9, "payloads": 20, "channels": 3},
            {"pulses": 11, "payloads": 4, "channels": 2},
        )
        cases = [
            case_of("two", "", took=first),
            case_of("path3", "", took=first),
            case_of("path3", "", took=second),
            case_of("ring5", ""),
        ]
        wanted = [
            ["pulses", "payloads", "channels"],
            ["two", "9", "20", "3"],
            ["path3", "11", "20", "3"],
        ]
        self.assertEqual(cells(league(cases)), wanted)
        self.assertEqual(league([case_of("ring5", "")]), [])

    def test_when_there_is_a_table(self):
        """Before the line of all runs, from two runs on."""
        cases = [case_of("two", "random"), case_of("two", "newest"), case_of("path3", "newest")]
        for count, lines in ((1, 0), (2, 3), (3, 3)):
            said = report(cases[:count], None, 1.0)
            before = next(at for at, line in enumerate(said) if "runs right" in line)
            self.same(f"{count} runs", before, lines)

    def test_which_is_shown(self):
        """Of several runs the smallest one that is wrong, and it says so."""
        wrong = case_of("two", "", is_right=False)
        for cases in ([wrong], [wrong, case_of("path3", "")]):
            said = [line for line in report(cases, wrong, 1.0) if line.endswith(": silent")]
            with self.subTest(len(cases)):
                self.assertEqual(["smallest" in line for line in said], [len(cases) > 1])
