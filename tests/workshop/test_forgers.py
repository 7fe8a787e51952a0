"""Programs that attack the workshop where it doesn't grade, as its user: its verdict is its own, and nothing of them is
left. Each tries things, and says on standard error what it got; the verdict shows that. What grading keeps from them:
sandbox.py."""
import json
import os
import signal
import subprocess
import unittest

from forestplan.workshop.sandbox import USERS
from tests.cases import wait_until
from tests.tools import needs
from tests.workshop.base import DOOR, LIMIT, call
from tests.workshop.contained import got, program
from tests.workshop.test_misbehaving import MARK, left, left_at_last

PYTHON = "--", "python3", "-S", "-c"
FORGED = json.dumps({"workshop": 1, "runs": 1, "right": 1, "cases": [{"verdict": "right"}]})
# What reaches the workshop, as anybody: each has to be refused.
REACHING = {
    "writes": f"open(f'/proc/{{WORKSHOP}}/fd/1', 'w').write({FORGED!r})",
    "memory": "open(f'/proc/{WORKSHOP}/mem', 'r+b')",
    "secrets": "open(f'/proc/{WORKSHOP}/environ').read()[:9]",
    "traces": "call(SYSTEM.ptrace(0x4206, WORKSHOP, None, None))",
}


def as_a_user():
    """What a command is called with, so that it isn't root's."""
    # A number that no other module takes, since the processes of one number are counted together.
    own = USERS[-1]
    user = {"user": own, "group": own, "extra_groups": []} if os.geteuid() == 0 else {}
    return {"cwd": "/", **user}


class Forgers(unittest.TestCase):
    def tearDown(self):
        self.assertEqual(left_at_last(), [])

    @needs("bin/forestplan", "bin/forestplay")
    def test_nothing_reaches_the_workshop(self):
        """And nothing stays: children of sessions of their own, whose parents have ended. The environment is small, and
        no signal is blocked, though signals wait while a program is started."""
        more = (
            f"for _ in range(60):\n    away({MARK})\nsaid.append('names=' + '+'.join(sorted(os.environ)))\n"
            "said.append(f'blocked={len(signal.pthread_sigmask(signal.SIG_BLOCK, ()))}')\n"
        )
        given = {"SECRET": "x", "PYTHONUNBUFFERED": "1", "HOME": "/", "LANG": "C.UTF-8"}
        arguments = ["rounds", "two", "--json", "--", *program(REACHING, more)]
        done = call(*arguments, env={**os.environ, **given}, **as_a_user())
        self.assertEqual(done.returncode, 1, done)
        result = json.loads(done.stdout)
        self.assertEqual([case["verdict"] for case in result["cases"]], ["ended"])
        found = got(" ".join(result["shown"]))
        names = set(found.pop("names").split("+"))
        self.assertLessEqual(names, {"HOME", "LANG", "PATH", "TMPDIR", "LC_CTYPE"})
        self.assertLessEqual({"HOME", "LANG", "PATH"}, names)
        self.assertEqual((found.pop("blocked"), found.keys()), ("0", REACHING.keys()))
        self.assertLessEqual(set(found.values()), {"PermissionError", "OSError"}, found)

    def test_nor_if_the_workshop_is_killed(self):
        """The nodes themselves end with it."""
        arguments = [*DOOR, "rounds", "two", *PYTHON, f"import time; time.sleep({MARK})", MARK]
        workshop = subprocess.Popen(arguments, stdout=subprocess.PIPE)
        wait_until(
            lambda: len(left()) > 2, LIMIT, 0.001
        )  # the workshop's own words have the mark, too
        workshop.send_signal(signal.SIGKILL)
        workshop.communicate(timeout=LIMIT)
        self.assertEqual(left_at_last(), [])

    @needs("bin/forestplan", "bin/forestplay")
    def test_how_many_there_may_be(self):
        """Of an ordinary user; of root the system counts none. It forks until it may not, and no longer."""
        more = (
            "n = 0\ntry:\n    while n < 4000:\n        if os.fork() == 0:\n            time.sleep(%s)\n"
            "        n += 1\nexcept OSError:\n    pass\n"
        ) % MARK
        arguments = [
            "rounds",
            "path1",
            "--timeout",
            "20",
            # So much that hundreds of processes aren't too much: each counts with what it shares.
            "--memory",
            "16384",
            "--",
            *program({"started": "n < 1000"}, more),
        ]
        done = call(*arguments, **as_a_user())
        self.assertEqual((done.returncode, got(done.stdout)), (1, {"started": "True"}), done)
