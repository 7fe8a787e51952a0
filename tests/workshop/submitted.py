"""What the tests of grading share: a folder of submissions, and its table."""
import json
import os
import re

from tests.cases import Case
from tests.workshop.base import EXAMPLES, call
from tests.workshop.test_misbehaving import left_at_last

RIGHT = os.path.join(EXAMPLES, "python")
# Nodes that answer at each message, with a channel or without flushing.
ANSWER = "import sys\nfor line in sys.stdin:\n    if line == 'end\\n':\n        "
ZERO = f"{ANSWER}print('channel 0\\nend ', flush=True)\n"
MUTE = f"{ANSWER}print('end')\n"


class Submitted(Case):
    def setUp(self):
        os.chmod(self.folder, 0o755)
        self.subs = os.path.join(self.folder, "home", "submissions")

    def tearDown(self):
        self.assertEqual(left_at_last(), [])

    def submit(self, student, **files):
        """A submission: files by name, with `_py` for `.py`."""
        folder = os.path.join(self.subs, student)
        os.makedirs(folder, exist_ok=True)
        for name, text in files.items():
            self.file(os.path.join(folder, re.sub("_(py|js|c|java)$", r".\1", name)), text)
        return folder

    def graded(self, *arguments, runs="2", timeout="30", **more):
        """By student, of `grade --json` with few runs."""
        few = ["--seed", "7", "--json", "--timeout", timeout, "--runs", runs]
        done = call("grade", self.subs, *few, *arguments, **more)
        self.assertIn(done.returncode, (0, 1), done)
        return {one["student"]: one for one in json.loads(done.stdout)["submissions"]}
