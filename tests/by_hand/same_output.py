"""Compares what a user sees in two trees, command by command: python3 -m tests.by_hand.same_output OLD NEW.

The commands are those of this tree's pages, and each kind of picture, `simulate`, `explore`,
`channels`, `network` and `sheet` on networks of its examples. Both trees need their programs
built. Status, output and errors have to be the same bytes. What differs is printed, and last how
many did."""

import os
import subprocess
import sys
import tempfile
from concurrent.futures import ThreadPoolExecutor
from itertools import product

NETWORKS = "triangle path petersen drops barred chain6 four_cycle star queen5_5 two".split()
PICTURES = "map plan results rounds bits why player schedules".split()
OPTIONS = {"why": "--vertex 2"}
PROGRAMS = "leader layers matching independent-set recolouring".split()
POLICIES = "random slow-link slow-node fast-node bursts newest oldest".split()
RULES = "safes acks early fifo digit shift root children parent pair earlier".split()
MADE = (
    "path 7",
    "ring 8",
    "star 9",
    "complete 6",
    "grid 3 4",
    "queen 4 4",
    "random 12 20 --seed 4",
    "tree 12 --seed 3",
    "disk 20 --radius 0.3 --seed 2",
)
# Seconds for a command.
LIMIT = 120


def of_pages():
    """The commands of the pages of the tree in which this runs."""
    from tests.pages.test_pages import PAGES, lines_of
    from tests.programs.test_install import listed_commands, shown_commands

    for page in PAGES:
        lines = lines_of(page)
        yield from (command.removeprefix("./") for _, command, _ in shown_commands(lines))
        yield from (command.partition(" > ")[0] for _, command in listed_commands(lines))


def of_networks():
    for name in NETWORKS:
        file = f"examples/{name}.col"
        for kind in PICTURES:
            yield f"forestlab picture {kind} {file} {OPTIONS.get(kind, '')}".strip()
        yield f"forestlab simulate {file} --seed 5 | forestlab picture watch {file} -"
        made = f"forestplan transcript --workers 1 < {file}"
        # Two runs of several threads differ.
        yield f"{made} | forestlab picture run {file} --transcript -"
        yield f"forestlab network tell {file}"
        yield f"forestlab explore {file}"
        yield f"{made} | forestlab transcript check {file} -"
        yield f"forestlab simulate {file} --seed 5 | forestlab transcript check {file} -"
        yield f"forestplan plain < {file} | forestlab channels 1 6 11 36"
    for name, policy, seed in product(NETWORKS, POLICIES, (1, 2, 3)):
        yield f"forestlab simulate examples/{name}.col --policy {policy} --seed {seed}"


def others():
    for program, name in product(PROGRAMS, ("petersen", "path", "star", "drops")):
        command = f"examples/{name}.col --program {program}"
        for kind in ("results", "rounds", "player"):
            yield f"forestlab picture {kind} {command}"
        made = f"forestplay run --transcript --workers 1 --program {program} < examples/{name}.col"
        yield f"{made} | forestlab picture run {command} --transcript -"
    for rule in RULES:
        for name in ("triangle", "path", "two"):
            yield f"forestlab explore examples/{name}.col --without {rule}"
        yield f"forestlab picture broken --without {rule}"
    for command in MADE:
        yield f"forestlab network {command}"
    for seed, lesson in product((1, 2), range(1, 8)):
        yield f"forestlab sheet --seed {seed} --lesson {lesson} --answers"


def outcome(top, command, home):
    env = dict(os.environ, PATH=f"{top}/bin:{os.environ['PATH']}", HOME=home)
    arguments = ["bash", "-c", command]
    try:
        done = subprocess.run(
            arguments,
            cwd=top,
            env=env,
            timeout=LIMIT,
            stdin=subprocess.DEVNULL,
            capture_output=True,
        )
    except subprocess.TimeoutExpired:
        return None
    return done.returncode, done.stdout, done.stderr


def main():
    tops = [os.path.abspath(top) for top in sys.argv[1:]]
    if len(tops) != 2:
        raise SystemExit(__doc__)
    commands = [*dict.fromkeys([*of_pages(), *of_networks(), *others()])]
    differ = 0
    with tempfile.TemporaryDirectory() as home, ThreadPoolExecutor(2) as pool:

        def both(command):
            return [outcome(top, command, home) for top in tops]

        for command, (old, new) in zip(commands, pool.map(both, commands)):
            if old != new:
                differ += 1
                print(f"{command}\n  was {str(old)[:300]}\n  is  {str(new)[:300]}", flush=True)
    print(f"{len(commands)} commands, {differ} differ")
    sys.exit(bool(differ))


if __name__ == "__main__":
    main()
