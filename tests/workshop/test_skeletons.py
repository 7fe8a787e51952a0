"""The skeletons talk, hand on what comes, and keep the nodes of one process apart (docs/learn/WORKSHOP.md)."""
import os
import subprocess
import sys

from forestplan.workshop.player import APART
from tests.cases import Case, text_in
from tests.sentences import ACK
from tests.tools import needs
from tests.workshop.base import EXAMPLES, call, compiled

FOLDER = os.path.join(EXAMPLES, "skeletons")
# Two nodes in one process: after both have started, each is asked for its own identifier.
OWN = "to {0}\nworkshop 1 {1}\nidentifier {2}\ndegree 1\nnodes 2\ndelta 1\nbars 0\nforests 1\nlast 18\nbarred 0\nend\n"
PULSE, TAKE = (f"# Yours: `put PORT {what}" for what in ("WORD", "WIRE"))
PYTHON = "return [f\"put 0 {'.'.join(%s)} {self.own['identifier']}\"]  #"
LABEL = ["label {}"] * 2
# A skeleton, its kind, what stands in it in one place, what is put there, and what it then says twice. In Python what
# comes is printed whole, and in one in C, a field that a wire hasn't as nothing; in one in Java what is in the inbox of
# port 0.
ROWS = (
    *(
        ("node.py", kind, PULSE, PYTHON % "inbox.get(0, ['none'])", ["hops.12 {}", "none {}"])
        for kind in ("rounds", "open")
    ),
    ("node.py", "alpha", TAKE, PYTHON % "wire", ["payload.3.hops.12 {}", "safe.4 {}"]),
    (
        "rounds_node.c",
        "rounds",
        "/* yours:",
        'if (pulse > 0) printf("put 0 label %s\\n", me->identifier); /*',
        LABEL,
    ),
    (
        "alpha_node.c",
        "alpha",
        "/* yours:",
        'printf("put 0 %d %s %d %s.%s. %d %s\\n", port, wire->kind, wire->pulse, wire->word, wire->number, me->last, '
        "me->identifier); /*",
        ["0 payload 3 hops.12. 18 {}", "0 safe 4 .. 18 {}"],
    ),
    (
        "RoundsNode.java",
        "rounds",
        "// yours:",
        'if (pulse > 0) put(0, (inbox.containsKey(0) ? String.join(".", inbox.get(0)) : "none") + " " + '
        'own.get("last") + " " + identifier); //',
        ["hops.12 18 {}", "none 18 {}"],
    ),
    ("AlphaNode.java", "alpha", "// yours:", 'put(0, "label " + identifier); //', LABEL),
)
# They greet in pulse 0, so what is wrong is what comes after it.
WRONG = {
    "rounds": "node 1, pulse 1 (orient)",
    "open": "nodes 1, 2 and 3 said no",
    "alpha": f"doesn't put 0 ack 0\nwhy    {ACK}\n",
}


class Skeletons(Case):
    def command(self, path):
        return [sys.executable, path] if path.endswith(".py") else compiled(path)

    @needs("bin/forestplan", "bin/forestplay")
    def test_they_talk(self):
        """In one process it is the same."""
        for name, kind, *_ in ROWS:
            with self.subTest(f"{kind} {name}"):
                several, one = (
                    call(
                        kind, "path3", *more, "--", *self.command(os.path.join(FOLDER, name))
                    ).stdout.splitlines()[1:]
                    for more in ((), ("--one-process",))
                )
                self.assertIn(WRONG[kind], "\n".join(several))
                self.assertEqual([*several, *[f"note   {APART}"] * (kind != "open")], one)

    def test_they_keep_the_nodes_of_one_process_apart(self):
        """And they hand on what comes, and nothing of what came before."""
        for name, kind, yours, mine, saids in ROWS:
            with self.subTest(f"{kind} {name}"):
                text = text_in(FOLDER, name)
                self.assertEqual(text.count(yours), 1)
                command = self.command(self.file(name, text.replace(yours, mine)))
                messages = (
                    ["take 0 payload 3 hops 12\nend\n", "take 0 safe 4\nend\n"]
                    if kind == "alpha"
                    else ["pulse 1\ntake 0 hops 12\nend\n", "pulse 2\nend\n"]
                )
                hello = "payload 0 hello {}" if kind == "alpha" else "hello {}"
                asked = OWN.format(5, kind, 70) + OWN.format(6, kind, 80)
                asked += "".join(f"to {at}\n{message}" for message in messages for at in (5, 6))
                done = subprocess.run(
                    command, input=asked, capture_output=True, text=True, timeout=60
                )
                self.assertEqual(
                    done.stdout,
                    "".join(
                        f"put 0 {said.format(number)}\nend\n"
                        for said in (hello, *saids)
                        for number in (70, 80)
                    ),
                )
