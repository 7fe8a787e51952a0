"""Words of a command line whose bytes are no UTF-8: each command takes such a word or refuses it, and none ends by a
fault of its own."""
import os
import shutil
import tempfile

from tests.cases import Case, forestlab

# Bytes that are no UTF-8, as a word or the end of one.
BAD = b"x\xff\xfe"
NETWORK = b"p edge 3 2\ne 1 2\ne 2 3\n"
# Commands with such a word. `{net}` and `{program}` are files with such a name.
COMMANDS = """\
network {bad}
network tell {bad}
network tell C8:{bad}
network read {bad}
network read --as {bad} -
network read --as pairs --columns source={bad},target=b -
network random 5 5 --seed {bad}
network number --seed {bad} -
network number {net}
network describe {net}
network names {bad}
channels {bad}
explore {bad}
explore {net}
explore two --without {bad}
explore two --program {program}
explore two --program {program} --lots {bad}
explore --program {program} --networks 2 --seed {bad}
simulate two --seed {bad}
simulate two --policy {bad}
simulate two --events {bad}
simulate {net}
simulate two --program {program} --lots {bad}
transcript check two {bad}
picture map {net}
picture map two --title {bad}
picture plan two {bad}
picture film {net}
picture player two --title {bad}
picture player two --program {program}
picture run two --transcript {bad}
picture schedules two --without {bad}
sheet --seed {bad}
sheet --seed {bad} --answers
studio --links {bad}
workshop rounds --seed {bad} -- true
workshop grade {bad}
"""


class ArgumentBytes(Case):
    def test_each_command(self):
        with tempfile.TemporaryDirectory() as folder:
            net, program = (
                os.path.join(os.fsencode(folder), BAD + end) for end in (b".col", b".py")
            )
            with open(net, "wb") as file:
                file.write(NETWORK)
            shutil.copy(b"examples/algorithms/independent_set.py", program)
            for line in COMMANDS.splitlines():
                parts = {b"{bad}": BAD, b"{net}": net, b"{program}": program}
                arguments = [replaced(word.encode(), parts) for word in line.split()]
                status, _, errors = forestlab(*arguments, data=NETWORK)
                is_own_fault = status == 70 or b"a fault of this command itself" in errors
                self.note(line, not is_own_fault, errors.decode(errors="replace"))

    def test_a_seed_stays_itself(self):
        """Such a seed is the one that its printed text is, so that what was made can be made again."""
        made = [
            forestlab("network", "random", "5", "5", "--seed", seed)
            for seed in (BAD, rb"x\udcff\udcfe")
        ]
        self.same("both", made[0], made[1])
        self.note("it is in the first line", rb"--seed x\udcff\udcfe" in made[0][1], made[0])


def replaced(word: bytes, parts: dict[bytes, bytes]) -> bytes:
    for name, part in parts.items():
        word = word.replace(name, part)
    return word
