"""Tests of .ci/run: whatever apt does, it ends as ./test ends, and it says what isn't installed."""

import os
import shutil
import stat

from tests.cases import Case, called, copied, tool_at

# What the script itself calls.
TOOLS = ("bash", "dirname", "env", "grep", "sleep", "timeout", "tr")
TEST = "#!/bin/sh\necho said by the test\necho 3 passed, 1 failed\nexit 1\n"
# Packages whose command is called as they are, and all others.
BY_NAME = "black flake8 mypy zsh groff eslint ruby chromium"
ALL = (
    "black flake8 mypy bubblewrap zsh graphviz groff binutils default-jdk-headless nodejs "
    "node-typescript eslint gcc libc6-dev python3-pip ruby chromium libseccomp2 python3-networkx "
    "python3-scipy python3-igraph python3-pandas python3-matplotlib python3-hypothesis"
)

# Its `apt-get` ends like this; $LOG has its words, and $HERE is the folder of all programs.
FAILS = "exit 100"
HANGS = "trap '' TERM; sleep 60"
INSTALLS = 'for name; do :; done; [ "$name" = chromium ] || { echo > "$HERE/$name"; chmod +x "$HERE/$name"; }'


class Ci(Case):
    def run_with(self, apt, user=0, there=(), limit=60):
        """Status and both outputs of .ci/run, with so many seconds for apt-get, and the words of each call of it."""
        here, log = os.path.join(self.folder, "bin"), os.path.join(self.folder, "log")
        tree = os.path.join(self.folder, "tree")
        for folder in (here, tree):
            shutil.rmtree(folder, ignore_errors=True)
        copied(tree, ".ci")
        os.makedirs(here)
        for tool in TOOLS:
            os.symlink(tool_at(tool), os.path.join(here, tool))
        self.program(os.path.join(tree, "test"), TEST)
        self.program(os.path.join(here, "id"), f"#!/bin/sh\necho {user}\n")
        self.program(os.path.join(here, "python3"), "#!/bin/sh\nexit 1\n")
        self.program(os.path.join(here, "apt-get"), f'#!/bin/sh\necho "$@" >> "$LOG"\n{apt}\n')
        for name in there:
            self.program(os.path.join(here, name), "#!/bin/sh\n")
        self.file(log, "")
        env = {"PATH": here, "LOG": log, "HERE": here, "CI_APT_LIMIT": str(limit)}
        env["CI_PYTHON"] = os.path.join(here, "python3")
        done = called(os.path.join(tree, ".ci", "run"), env=env, limit=300)
        with open(log, encoding="utf-8") as file:
            return done, [line.split()[-1] for line in file]

    def program(self, path, text):
        self.file(path, text)
        os.chmod(path, stat.S_IRWXU)

    def check(self, name, done, missing):
        status, out, errors = done
        self.same(f"{name}: as the test ends", (status, out.decode()), (1, TEST_SAYS))
        said = errors.decode().splitlines()[-1:]
        self.note(f"{name}: what is missing", said and said[0].endswith(f": {missing}"), errors)

    def test_apt(self):
        done, calls = self.run_with(FAILS)
        self.check("apt fails", done, ALL)
        self.same("apt fails: each is tried", calls, ["update", *ALL.split()])
        done, _ = self.run_with(HANGS, limit=2)
        self.check("apt hangs", done, ALL)
        done, _ = self.run_with(INSTALLS)
        left = [name for name in ALL.split() if name not in BY_NAME.split() or name == "chromium"]
        self.check("apt installs all but one", done, " ".join(left))
        done, calls = self.run_with(FAILS, user=1000)
        self.check("not root", done, ALL)
        self.same("not root: apt isn't called", calls, [])


TEST_SAYS = "said by the test\n3 passed, 1 failed\n"
