"""Runs the tests in roots that have Debian's base packages, Python and git alone, and then one tool less than all.

  python3 -m tests.by_hand.bare_root FOLDER [RUN ..] [--built TREE | --gate] [--jobs N] [--only NAMES]

A RUN is `nothing`, where nothing else is installed; `all`, where .ci/run installs what it can; or a package of its
list, where all but this one is installed. Without a RUN each of them runs, in this order, and last `libseccomp2`. A run
is good if it ends with `0 failed`. What didn't run in it is printed, with what was missing. A RUN may also be
`unittest` or `pytest`, which runs the tests with this command, where nothing else is installed and no kit is there; it
is good if the command says so.

It needs root, mmdebstrap or debootstrap (Debian's packages of these names), Debian's mirror, and about 4 GB in FOLDER,
which keeps the roots for the next call, and of each run RUN.log. The tests run in a clean clone of this tree's HEAD.
With --built the programs that TREE has built are copied into it, and the gate is left out; with --gate the gate runs,
too, with this machine's kit, which keeps its proofs beside itself. With neither, the tests run without programs. With
--only, which has names of tests in one word, only these run."""

import argparse
import os
import re
import shutil
import subprocess
import sys
import time

from tests import TOP

MIRROR = "http://deb.debian.org/debian"
WITHOUT_KIT = "/usr/local/sbin:/usr/local/bin:/usr/sbin:/usr/bin:/sbin:/bin"
PATH = f"/opt/rattle/bin:{WITHOUT_KIT}"
# Where the kit is, and what it keeps.
KIT = ("/opt/rattle", "/opt/rattle-kept")
BUILT = (
    *(
        f"{name}/out/{name}{end}"
        for name in ("forestplan", "forestplay")
        for end in ("", ".by-rattle", ".made-from")
    ),
    "checks/out/checks_tests",
)
# The commands that run the tests without a kit.
RUNNERS = {
    "unittest": "python3 -m unittest",
    "pytest": "apt-get -qq update && apt-get -qq install --yes --no-install-recommends python3-pytest"
    " && python3 -m pytest --quiet -rf",
}
# apt needs it itself, and so removes it from no root; here its file is removed.
NEEDED = "libseccomp2"
# The layers of a root, lowest last; what is written goes to the folder `new`. $0 is the whole root, and $1 the command.
ENTER = """
set -e
mount --make-rprivate /
mount -t overlay overlay -o "lowerdir=$LAYERS,upperdir=$NEW,workdir=$WORK" "$0"
mount -t proc proc "$0/proc"
mount --rbind /dev "$0/dev"
mount --rbind /sys "$0/sys"
for folder in $BOUND; do
  mkdir -p "$0$folder"
  mount --bind "$folder" "$0$folder"
done
mkdir -p "$0/tree"
mount --bind "$TREE" "$0/tree"
cat /etc/resolv.conf >"$0/etc/resolv.conf"
cd "$0"
pivot_root . mnt
umount -l /mnt
cd /tree
exec env -i PATH="$INSIDE" HOME=/root LANG=C.UTF-8 bash -c "$1"
"""


class Roots:
    """The roots of a folder."""

    # Of this machine's folders, those that each root has, too.
    bound: tuple[str, ...] = KIT
    # Where a root looks for commands.
    path = PATH

    def __init__(self, folder: str, built: str | None) -> None:
        self.folder, self.built = os.path.abspath(folder), built

    def at(self, name: str) -> str:
        return os.path.join(self.folder, name)

    def fresh(self, name: str) -> str:
        """A folder with nothing in it."""
        shutil.rmtree(self.at(name), ignore_errors=True)
        os.makedirs(self.at(name))
        return self.at(name)

    def make_base(self) -> None:
        """Debian's essential packages and apt, Python and git."""
        if os.path.isdir(self.at("base")):
            return
        new = self.fresh("base.new")
        arguments = ["--variant=minbase", "--include=python3,git", "bookworm", new, MIRROR]
        tool = shutil.which("mmdebstrap") or shutil.which("debootstrap")
        if tool is None:
            sys.exit("bare_root: neither mmdebstrap nor debootstrap is installed")
        subprocess.run([tool, *arguments], check=True)
        os.rename(new, self.at("base"))

    def clone(self) -> None:
        """A clean clone, with the built programs, if there are to be any."""
        tree = self.fresh("tree")
        subprocess.run(["git", "clone", "--quiet", TOP, tree], check=True)
        for name in BUILT if self.built else ():
            source = os.path.join(self.built or "", "crates", name)
            if os.path.exists(source):
                os.makedirs(os.path.dirname(os.path.join(tree, "crates", name)), exist_ok=True)
                shutil.copy2(source, os.path.join(tree, "crates", name))

    def run(self, layers: list[str], new: str, command: str, log: str) -> int:
        """The status of a command in a root of these layers; what it says is in a file."""
        self.clone()
        settings = {
            "LAYERS": ":".join(map(self.at, layers)),
            "NEW": new,
            "WORK": self.fresh("work"),
            "TREE": self.at("tree"),
            "BOUND": " ".join(filter(os.path.isdir, self.bound)),
            "INSIDE": self.path,
        }
        arguments = [
            "unshare",
            "--mount",
            "--pid",
            "--fork",
            "--kill-child",
            "--ipc",
            "--uts",
            "bash",
            "-c",
            ENTER,
        ]
        with open(self.at(log), "wb") as file:
            return subprocess.run(
                [*arguments, self.fresh("root"), command],
                env=os.environ | settings,
                stdin=subprocess.DEVNULL,
                stdout=file,
                stderr=subprocess.STDOUT,
            ).returncode

    def said(self, log: str) -> str:
        with open(self.at(log), encoding="utf-8", errors="replace") as file:
            return file.read()

    def packages(self) -> list[str]:
        """What .ci/run would install in the bare root."""
        self.run(["base"], self.fresh("new"), "CI_APT_LIMIT=0 .ci/run --list", "packages.log")
        return re.findall(r"^ci: .* don't run: (.*)$", self.said("packages.log"), re.M)[0].split()

    def try_out(self, name: str, arguments: str) -> bool:
        """Whether the tests pass in a run. Prints what didn't run, and the last line."""
        begin, layers, new = time.monotonic(), ["all", "base"], self.fresh("new")
        command = f"apt-get -qq purge -y --auto-remove {name} && ./test {arguments}"
        if name == NEEDED:
            command = f"rm /usr/lib/*/libseccomp.so.2* && ./test {arguments}"
        elif name == "nothing":
            layers, command = ["base"], f"./test {arguments}"
        elif name == "all":
            layers, command = ["base"], f".ci/run {arguments}"
            new = self.fresh("all")
        status = self.run(layers, new, command, f"{name}.log")
        said = self.said(f"{name}.log")
        print(f"{name}: {time.monotonic() - begin:.0f} seconds, status {status}")
        for lack, tests in re.findall(r"^(.+), and these tests didn't run: (.*)$", said, re.M):
            print(f"  {lack}: {len(tests.split(', '))} tests didn't run")
        last = (said.splitlines() or [""])[-1]
        print(f"  {last}", flush=True)
        return status == 0 and last.endswith(" passed, 0 failed")


class WithoutKit(Roots):
    """Roots where this machine's kit isn't."""

    bound = ()
    path = WITHOUT_KIT

    def try_out(self, name: str, arguments: str = "") -> bool:
        """Whether the tests pass with another runner. Prints its last lines."""
        begin = time.monotonic()
        status = self.run(["base"], self.fresh("new"), RUNNERS[name], f"{name}.log")
        print(f"{name}: {time.monotonic() - begin:.0f} seconds, status {status}")
        for line in self.said(f"{name}.log").splitlines()[-3:]:
            print(f"  {line}", flush=True)
        return status == 0


def options() -> argparse.Namespace:
    parser = argparse.ArgumentParser(
        prog="bare_root", description=__doc__, formatter_class=argparse.RawDescriptionHelpFormatter
    )
    parser.add_argument("folder", metavar="FOLDER")
    parser.add_argument("runs", metavar="RUN", nargs="*")
    parser.add_argument("--built", metavar="TREE")
    parser.add_argument("--gate", action="store_true")
    parser.add_argument("--jobs", metavar="N", type=int, default=len(os.sched_getaffinity(0)))
    parser.add_argument(
        "--only", metavar="NAMES", default="", help="the names of tests, in one word"
    )
    return parser.parse_args()


def main() -> int:
    given = options()
    roots = Roots(given.folder, given.built)
    os.makedirs(roots.folder, exist_ok=True)
    roots.make_base()
    runs = given.runs or ["nothing", "all", *roots.packages(), NEEDED]
    arguments = "" if given.gate else f"--jobs {given.jobs} {given.only}"
    without = WithoutKit(given.folder, None)
    wrong = [
        name
        for name in runs
        if not (without if name in RUNNERS else roots).try_out(name, arguments)
    ]
    print(
        f"bare_root: {len(runs) - len(wrong)} runs are good, and {len(wrong)} aren't: {' '.join(wrong)}"
    )
    return 1 if wrong else 0


if __name__ == "__main__":
    sys.exit(main())
