"""Installs a release in roots that have Debian's base packages, Python and git alone, and uses it there.

  python3 -m tests.by_hand.bare_release FOLDER RELEASE [RUN ..]

RELEASE is a folder that `python3 build release` has written. A RUN is one of `tarball`, which installs nothing else;
`package`, which installs the package by apt with what it recommends; and `wheel`, which installs Debian's pip and then
the wheel. Without a RUN each of them runs. In each the commands that the tutorial shows print what is under them, the
workshop grades a right node, the studio starts and answers, and `import forestplan` makes a plan. (Without bubblewrap
the workshop refuses to grade, and has to say so. The wheel has no pages; their commands run all the same.) With --all
the commands of all other pages run, too, which takes some ten minutes more.

It needs what `bare_root` needs, and makes the roots of FOLDER as that does; FOLDER keeps RUN.log. The kit isn't in the
roots.
"""
import argparse
import json
import os
import re
import shutil
import sys
from collections.abc import Iterable

from tests.by_hand.bare_root import WithoutKit
from tests.pages.test_pages import PAGES, lines_of
from tests.programs.test_install import shown_commands

# What a run does first; it ends in a folder that has the examples.
INSTALLS = {
    "tarball": "tar xzf *.tar.gz -C /root && cd /root/forestplan-*/ && PATH=$PWD/bin:$PATH",
    "package": (
        "apt-get -qq update && apt-get -qq install -y ./*.deb && "
        "cp -r /usr/lib/forestplan /root/place && cd /root/place"
    ),
    "wheel": (
        "apt-get -qq update && "
        "apt-get -qq install -y --no-install-recommends python3-pip bubblewrap libseccomp2 && "
        "pip3 install --quiet --no-index --break-system-packages --root-user-action=ignore ./*.whl && "
        'cp -r "$(python3 -c "import forestplan as it; print(it.home())")" /root/place && cd /root/place'
    ),
}
# What uses an installed release, in a folder with its examples. It is Python, and is called with the commands of the
# pages and with the word that says whether the workshop can grade.
USE = r"""
import json, os, re, shutil, subprocess, sys, time, urllib.request

commands, run = json.load(open("/tree/commands.json")), sys.argv[1]
wrong = []

def called(command):
    done = subprocess.run(["bash", "-c", command], capture_output=True, text=True, env=dict(os.environ, COLUMNS="80"))
    return done.returncode, done.stdout, done.stderr

def row(name, is_good, what):
    print("good" if is_good else "WRONG", name, "" if is_good else what, flush=True)
    if not is_good:
        wrong.append(name)

good = 0
for place, command, wanted in commands:
    status, out, errors = called(command)
    is_good = out == wanted and not errors or errors == wanted and not out and status
    good += bool(is_good)
    if not is_good:
        row(f"{place} {command}", False, (status, out, errors))
row(f"{good} of {len(commands)} commands of the pages", good == len(commands), "")
shutil.copytree("examples/workshop/python", "/root/class/ann")
done = called("forestlab workshop grade /root/class --runs 2 --seed 7")
is_contained = shutil.which("bwrap")
is_good = done[0] == 0 and "ann" in done[1] if is_contained else done[0] != 0 and "bubblewrap" in done[2]
print(*done[1:], sep="")
row("workshop grade " + ("" if is_contained else "is refused without bubblewrap"), is_good, done)
studio = subprocess.Popen(
    ["bash", "-c", "exec forestlab studio petersen --no-browser"],
    stdout=subprocess.PIPE, stderr=subprocess.STDOUT, text=True,
)
said = ""
while "http" not in said and studio.poll() is None:
    said += studio.stdout.readline()
address = re.search(r"http://\S+", said)
page = urllib.request.urlopen(address[0]).read().decode() if address else ""
row("the studio answers", "<title>" in page, (said, page[:200]))
studio.terminate()
studio.wait(20)
if run == "tarball":
    os.environ["PYTHONPATH"] = "src"
done = called("python3 -c 'import forestplan as it; print(dict(it.plan({1: [2, 3], 2: [1, 3], 3: [1, 2]})))'")
row("import forestplan", done[0] == 0 and sorted(eval(done[1]).values()) == [1, 2, 3], done)
print(called("forestplan --version")[1], end="")
print(f"{'rt is there' if shutil.which('rt') else 'no rt is there'}; {len(wrong)} wrong")
sys.exit(len(wrong) > 0)
"""


class Installed(WithoutKit):
    """Roots that have a release in place of this tree, and no kit."""

    def __init__(self, folder: str, release: str, pages: Iterable[str]) -> None:
        super().__init__(folder, None)
        self.release, self.pages = release, pages

    def clone(self) -> None:
        tree = self.fresh("tree")
        shutil.copytree(self.release, tree, dirs_exist_ok=True)
        with open(os.path.join(tree, "commands.json"), "w", encoding="utf-8") as to:
            json.dump(commands_of(self.pages), to)
        with open(os.path.join(tree, "use.py"), "w", encoding="utf-8") as to:
            to.write(USE)

    def try_out(self, name: str, arguments: str = "") -> bool:
        """Whether all is right in a run. Prints the lines that say so."""
        command = (
            f"sha256sum --quiet -c SHA256SUMS && {INSTALLS[name]} && python3 -B /tree/use.py {name}"
        )
        status = self.run(["base"], self.fresh("new"), command, f"{name}.log")
        lines = self.said(f"{name}.log").splitlines()
        print(f"{name}: status {status}")
        for line in [one for one in lines if one.startswith(("good ", "WRONG "))] + lines[-1:]:
            print(f"  {line}", flush=True)
        return status == 0


def commands_of(pages: Iterable[str]) -> list[tuple[str, str, str]]:
    """(place, command, what it prints) of each command that these pages show."""
    found = []
    for page in pages:
        for number, command, shown in shown_commands(lines_of(page)):
            wanted = "".join(line + "\n" for line in shown)
            found.append((f"{page}:{number}", command.removeprefix("./"), wanted))
    return found


def main() -> int:
    parser = argparse.ArgumentParser(
        prog="bare_release",
        description=__doc__,
        formatter_class=argparse.RawDescriptionHelpFormatter,
    )
    parser.add_argument("folder", metavar="FOLDER")
    parser.add_argument("release", metavar="RELEASE")
    parser.add_argument("runs", metavar="RUN", nargs="*", help=" or ".join(INSTALLS))
    parser.add_argument("--all", action="store_true", help="the commands of all pages")
    given = parser.parse_args()
    pages = [page for page in PAGES if given.all or re.search(r"learn/(TUTORIAL|LESSON_\d)", page)]
    roots = Installed(given.folder, os.path.abspath(given.release), pages)
    os.makedirs(roots.folder, exist_ok=True)
    roots.make_base()
    runs = given.runs or list(INSTALLS)
    wrong = [name for name in runs if not roots.try_out(name)]
    print(
        f"bare_release: {len(runs) - len(wrong)} runs are good, and {len(wrong)} aren't: {' '.join(wrong)}"
    )
    return 1 if wrong else 0


if __name__ == "__main__":
    sys.exit(main())
