"""Tests of what `forestlab network read` asks for: each refusal that names commands names some that work as printed."""
import os
import re
import shutil
import subprocess
from collections.abc import Iterator

from tests import TOP
from tests.cases import Case
from tests.programs.test_own_networks import by_names
from tests.tools import SYSTEM, need

# What a shell finds: the commands of the repository, and Debian's Python with its packages.
PATH = f"{TOP}/bin:/usr/bin:/bin"
EDGE = {"Ulm": {"Aue"}, "Aue": {"Ulm"}}
# Files, the words of a call, and how many of the commands that it prints have to read an edge between Ulm and Aue.
ASKED: tuple[tuple[dict, str, int], ...] = (
    ({"net": "source,target\nUlm,Aue\n"}, "net", 1),
    ({"my net.txt": "Ulm Aue\n"}, "'my net.txt'", 1),
    ({"$(x) 'y'.txt": "Ulm Aue\nAue\n"}, "\"\\$(x) 'y'.txt\"", 1),
    ({"-x": "Ulm Aue\n"}, "-- -x", 1),
    ({"a.csv": "Ulm;Aue\nAue;Ulm\n"}, "a.csv", 2),
    ({"a.csv": '"Site, A";;"Site B"\nUlm;;Aue\n'}, "a.csv", 1),
    ({"a.csv": '"",tx,rx\n1,Ulm,Aue\n'}, "a.csv", 1),
    ({"a.csv": "source,target,land\nUlm,Aue,K\xf6ln\n".encode("latin-1")}, "a.csv", 1),
    ({"a.txt": "source,target\nUlm,Aue\n", "s.csv": "Ort\nUlm\nAue\n"}, "a.txt --sites s.csv", 1),
    ({"s.csv": "Ort,x_m,y_m\nUlm,0,0\nAue,9,9\n"}, "--sites s.csv --reach 1", 1),
    (
        {"s.csv": "Name,x_km,y_km\nUlm,0,0\nAue,1,1\n", "b.csv": "Standort;Kanal\nUlm;3\n"},
        "--sites s.csv --reach 5 --bars b.csv",
        1,
    ),
    ({"a.csv": "source,target\nUlm,Aue\n", "b.csv": "Ort,Kanal\nUlm,3\n"}, "a.csv --bars b.csv", 1),
    (
        {"a.csv": "source,target\nUlm,Aue\n", "l.csv": "Kanal,Name\n6,x\n11,y\n"},
        "a.csv --channels l.csv",
        1,
    ),
    ({"a b.dot": "graph { Ulm -- Aue }"}, "'a b.dot'", 1),
    ({"a.gv": "graph { Ulm -- Aue; Ulm -- Aue }"}, "a.gv", 1),
    ({"a.gv": "graph { Ulm -- Aue }", "s.csv": "site\nUlm\nAue\n"}, "a.gv --sites s.csv", 1),
    ({"a.net": '*Vertices 2\n1 "Ulm"\n2 "Aue"\n*Edges\n1 2\n'}, "a.net", 1),
)
# What the commands call that a refusal of a file with such an ending names. Both make a form that networkx reads.
NETWORKX = f"networkx of {SYSTEM}"
BY_GRAPHVIZ = ("/usr/bin/gv2gml", NETWORKX)
NEEDED = {".dot": BY_GRAPHVIZ, ".gv": BY_GRAPHVIZ, ".net": (f"igraph of {SYSTEM}", NETWORKX)}
MATRIX = "%%MatrixMarket matrix coordinate pattern symmetric\n% of 3\n3 3 1\n3 1\n"


def commands_in(said):
    """What a refusal has to be typed, by the alternatives that it has: each is a list of lines."""
    lines = [line.strip() for line in said.split("\n")[1:] if re.match(" +[a-z0-9]+ .*[^:]$", line)]
    if any(line.startswith(("gv2gml", "python3")) for line in lines):
        return [lines]
    return [[line] for line in lines]


def joined(text):
    """The neighbours of each node, by names."""
    return {name: near for name, (*_, near) in by_names(text).items()}


def needed_by(names: dict) -> Iterator[str]:
    """The tools without which what is said of these files can't be typed."""
    for name in names:
        yield from NEEDED.get(os.path.splitext(name)[1], ())


class Stated(Case):
    def shell(self, command):
        """Status and both outputs of a command as a shell reads it, in the folder."""
        environment = dict(os.environ, PATH=PATH)
        done = subprocess.run(
            ["bash", "-c", command],
            cwd=self.folder,
            env=environment,
            capture_output=True,
            text=True,
        )
        return done.returncode, done.stdout, done.stderr

    def networks(self, arguments):
        """What the commands write that the refusal of these words names, and those that it names below them."""
        status, _, said = self.shell(f"forestlab network read {arguments}")
        self.note(f"{arguments} is refused", status == 1, said)
        found = []
        for lines in commands_in(said):
            done = self.shell(" && ".join(lines))
            if done[0] == 0:
                found.append(done[1].encode())
            elif "say what it is" in done[2]:
                found += self.networks(lines[-1].removeprefix("forestlab network read "))
        return found

    def test_commands(self):
        for files, arguments, count in ASKED:
            shutil.rmtree(self.folder)
            os.mkdir(self.folder)
            for name, data in files.items():
                self.file(name, data)
            with self.subTest(arguments):
                for tool in needed_by(files):
                    need(self, tool)
                found = self.networks(arguments)
                good = [text for text in found if joined(text) == EDGE]
                self.note(f"{files} {arguments}", len(good) == count, found)

    def test_matrix_market(self):
        """The matrix's rows by their numbers."""
        for tool in (f"scipy of {SYSTEM}", NETWORKX):
            need(self, tool)
        self.file("m.mtx", MATRIX)
        found = self.networks("m.mtx")
        self.same(
            "a matrix", [joined(text) for text in found], [{"0": {"2"}, "1": set(), "2": {"0"}}]
        )
