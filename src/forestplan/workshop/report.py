"""What the workshop prints: a table of right runs, a league, the case that isn't right; or all of it for a program."""
from argparse import Namespace

from forestplan.wording import counted
from forestplan.workshop.cases import Case
from forestplan.workshop.findings import first_of

EDITION = 1


def policy_table(cases: list[Case]) -> list[str]:
    """Right runs of all, by policy and network."""
    names = list(dict.fromkeys(case.network.name for case in cases))
    rows = [["", *names]]
    for policy in dict.fromkeys(case.policy for case in cases):
        row = [policy or "right"]
        for name in names:
            some = [case for case in cases if (case.policy, case.network.name) == (policy, name)]
            row.append(f"{sum(case.finding is None for case in some)}/{len(some)}" if some else "")
        rows.append(row)
    return aligned(rows)


def league(cases: list[Case]) -> list[str]:
    """Of right runs of own algorithms: the most that one took on each network."""
    rows = [["", "pulses", "payloads", "channels"]]
    for name in dict.fromkeys(case.network.name for case in cases):
        some = [case.league for case in cases if case.network.name == name and case.league]
        if some:
            rows.append([name, *(str(max(took[what] for took in some)) for what in rows[0][1:])])
    return aligned(rows) if len(rows) > 1 else []


def aligned(rows: list[list[str]]) -> list[str]:
    """The first column to the left, the others to the right."""
    widths = [max(len(row[k]) for row in rows) for k in range(len(rows[0]))]
    return [
        "  ".join(
            [row[0].ljust(widths[0]), *(cell.rjust(w) for cell, w in zip(row[1:], widths[1:]))]
        ).rstrip()
        for row in rows
    ]


def described(case: Case) -> list[str]:
    """A case that isn't right: its network, and what was found."""
    network = case.network
    edges = ", ".join(first_of([f"{v}-{w}" for v, w in network.edges]))
    edges = f"edges {edges}" if edges else "no edges"
    policy = f", {case.policy}" if case.policy else ""
    name = f"a part of {network.name}" if case.is_part else network.name
    lines = [f"case   {case.number}: {name}{policy}; {counted(network.nodes, 'node')}, {edges}"]
    names = [
        f"node {v} is {network.identifiers[v]}"
        for v in network.node_numbers
        if network.identifiers[v] != v
    ]
    if names:
        lines.append(f"names  {', '.join(first_of(names))}")
    if network.bars:
        bars = [
            f"{' and '.join(map(str, channels))} at node {v}"
            for v, channels in network.bars.items()
        ]
        lines.append(f"bars   {', '.join(first_of(bars))}")
    return lines + case.wrong.text()


def report(cases: list[Case], shown: Case | None, seconds: float) -> list[str]:
    """For people."""
    right = sum(case.finding is None for case in cases)
    lines = [
        *(policy_table(cases) if len(cases) > 1 else []),
        f"{right} of {len(cases)} runs right, {seconds:.1f} seconds",
    ]
    rows = league(cases)
    lines += ["", *rows] if rows else []
    if shown:
        what = "smallest case that is wrong" if len(cases) > 1 else "wrong"
        lines += ["", f"{what}: {shown.wrong.kind}", *described(shown)]
    return lines


def case_as_json(case: Case, commands: list[list[str]]) -> dict[str, object]:
    """A run, as an autograder gets it."""
    found = case.finding
    row: dict[str, object] = {
        "case": case.number,
        "network": case.network.name,
        "nodes": case.network.nodes,
    }
    if case.policy:
        row["policy"] = case.policy
    row["verdict"] = found.kind if found else "right"
    if found:
        row |= {"node": found.node, "pulse": found.pulse}
        row |= {} if found.owner is None else {"command": commands[found.owner]}
    elif case.league:
        row |= case.league
    return row


def report_json(
    options: Namespace, cases: list[Case], shown: Case | None, seconds: float
) -> dict[str, object]:
    """For an autograder. `workshop` is the edition of this form."""
    program = {} if options.assignment == "open" else {"program": options.program}
    return {
        "workshop": EDITION,
        "assignment": options.assignment,
        **program,
        "commands": options.commands,
        "seed": options.seed,
        "runs": len(cases),
        "right": sum(case.finding is None for case in cases),
        "seconds": round(seconds, 2),
        "cases": [case_as_json(case, options.commands) for case in cases],
        "shown": described(shown) if shown else None,
    }
