"""Tries the wrong bodies of crates/NAME/wrong-bodies/ against the prover, and prints each that is proved all the same.

Without words all are tried. Each crates/CRATE/wrong-bodies/NAME.edit is a change of code that turns the meaning of a
function, in the form of the gate's own edits in crates/CRATE/must-fail/. The gate's command `rt ci` tries them, in a
repository of these crates and the crates below them, where they stand in the place of must-fail/ (gate.py). It proves
the crates first, tries as many edits in parallel as processors and memory allow, and says at the end what became of
each edit. With a kit that keeps what it has done, a crate that is proved already isn't proved again, and an edit isn't
tried again until it or its crate changes. The log is out/build/wrong-bodies.log.

With --since REV, the crates are those whose sources or wrong bodies differ from the commit REV, and those that list in
crates.txt a crate whose contracts or definitions (src/, specs/) differ from it.

An edit is to be refused by a goal of the contract. Two refusals say little of that; such an edit counts as refused,
and is printed as WEAK. A proof of the right body may name a value or a goal that the edit takes away: change the edit
so that it keeps the name. Or a proof that is written by hand doesn't fit the edited code, and another proof might:
read the contract. If it lets the edit through, make it stronger; if it doesn't, say in the edit's file which clause
refuses it, by a line `clause: NAME`, or `clause: NAME of WHAT` of another function, type or record.

The last line is 'N refused, W of them WEAK, M PROVED, K not run'. Status: 0 every edit was tried and refused, 1 one was
proved or not run, 2 the command line is refused, 3 all were refused, some of them WEAK. Once the crates are proved, it
takes about 20 seconds for each edit, so it is run by hand, with --since before each change is handed in; `./test`
doesn't call it.
"""
import os
import re
import subprocess
from collections.abc import Collection, Iterable, Mapping

from build import gate, kit
from build.crate_lists import TOP, listed
from forestplan.fault_codes import Code
from forestplan.faults import Fault
from forestplan.parsers import parser_of

# What the kit says of a refusal for a name alone.
NAME_ALONE = "only because a proof file names"
# A proof by hand that doesn't fit, and is no search that found nothing.
BY_HAND = re.compile(r"^[^:]*: (?:\./)?proofs/\S+ error: (?!.*(?:no proof of|did not prove))")
CLAUSE = re.compile(r"^clause: \S", re.M)
VERDICT = re.compile(
    r"^rt: must-fail (\w+/\S+\.edit): (refused|NOT REFUSED|BAD EDIT|NOT TRIED)(.*)$", re.M
)
COUNTED = {"refused": "refused", "NOT REFUSED": "PROVED"}


def edits_of(crate: str) -> list[str]:
    folder = os.path.join(TOP, "crates", crate, "wrong-bodies")
    return sorted(
        os.path.join(folder, name) for name in os.listdir(folder) if name.endswith(".edit")
    )


def is_weak(path: str, why: str) -> bool:
    """Whether a refusal says little of the contract."""
    if NAME_ALONE in why:
        return True
    with open(path, encoding="utf-8") as edit:
        names_clause = CLAUSE.search(edit.read())
    return bool(BY_HAND.match(why)) and not names_clause


def changed_since(rev: str, given: Mapping[str, list[str]], at_hand: list[str]) -> list[str]:
    """The crates with wrong bodies that a change since the commit `rev` may concern."""
    asked = ["git", "-C", TOP, "diff", "--name-only", "--no-renames", rev, "--", "crates"]
    done = subprocess.run(asked, capture_output=True, text=True)
    if done.returncode:
        raise Fault(Code.NO_COMMIT, rev=rev)
    parts = [line.split("/") for line in done.stdout.splitlines()]
    own = {part[1] for part in parts if part[2] in ("wrong-bodies", "src", "specs", "proofs")}
    said = {part[1] for part in parts if part[2] in ("src", "specs")}
    return [crate for crate in at_hand if crate in own or said.intersection(given.get(crate, ()))]


def chosen(names: Iterable[str], at_hand: Collection[str]) -> dict[str, list[str]]:
    """{crate: its edits} of crates, and of single edits, CRATE/NAME, with `.edit` after it or without."""
    edits: dict[str, list[str]] = {}
    for name in names:
        crate, _, edit = name.removesuffix(".edit").partition("/")
        there = edits_of(crate) if crate in at_hand else []
        found = [path for path in there if not edit or os.path.basename(path) == f"{edit}.edit"]
        if not found:
            raise Fault(Code.NO_WRONG_BODY, crate=crate, edit=edit)
        edits[crate] = list(dict.fromkeys(edits.get(crate, []) + found))
    return edits


def tell(said: str, edits: Mapping[str, list[str]]) -> int:
    """Prints each edit that `rt ci` doesn't say is refused, or refused for a proof alone, and returns the status."""
    found = {name: (verdict, why) for name, verdict, why in VERDICT.findall(said)}
    counts = dict.fromkeys(("refused", "WEAK", "PROVED", "not run"), 0)
    for path in (os.path.relpath(path, TOP) for crate in edits for path in edits[crate]):
        verdict, why = found.get(
            path.removeprefix("crates/").replace("/wrong-bodies/", "/"), ("NOT TRIED", "")
        )
        counts[COUNTED.get(verdict, "not run")] += 1
        if verdict == "refused" and is_weak(os.path.join(TOP, path), why):
            verdict = "WEAK"
            counts["WEAK"] += 1
        if verdict == "NOT REFUSED":
            verdict = "PROVED"
        if verdict != "refused":
            print(f"{verdict} {path}{why}", flush=True)
    print(
        f"{counts['refused']} refused, {counts['WEAK']} of them WEAK, {counts['PROVED']} PROVED, "
        f"{counts['not run']} not run"
    )
    if counts["PROVED"] + counts["not run"]:
        return 1
    return 3 if counts["WEAK"] else 0


def main() -> int:
    summary, _, more = (__doc__ or "").partition("\n\n")
    parser = parser_of(
        "wrong-bodies", "[--since REV | CRATE .. | CRATE/NAME ..]", summary, more, "python3 build"
    )
    parser.add_argument(
        "--since", metavar="REV", help="only what a change since the commit REV may concern"
    )
    parser.add_argument(
        "names", nargs="*", metavar="CRATE", help="a crate, or one edit of it, as CRATE/NAME"
    )
    asked = parser.parse_args()
    given = listed()
    at_hand = sorted(
        crate
        for crate in given
        if os.path.isdir(os.path.join(TOP, "crates", crate, "wrong-bodies"))
    )
    if asked.since and asked.names:
        parser.error("--since chooses the crates itself")
    names = changed_since(asked.since, given, at_hand) if asked.since else asked.names or at_hand
    edits = chosen(names, at_hand)
    if not kit.is_there("wrong-bodies"):
        return 1
    said = gate.run("wrong-bodies", list(edits), edits=edits) if edits else ""
    return tell(said or "", edits)
