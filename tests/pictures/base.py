"""What the tests of pictures share: how a picture is drawn, and the networks and texts that it is drawn from, by the
definitions."""

from forestplan.definitions.colours import plan_text
from forestplan.networks.network_text import network_in_bytes
from forestplan.pictures import picture
from forestplan.pictures.picture import FORM
from forestplan.schedules.simulate import played, text_of_run
from tests.cases import Case, example, in_process

SEED = 2026
APART = b"p edge 5 3\ne 1 2\ne 2 3\ne 1 3\n"
# Barred channels of ten nodes: one, four, five, and fourteen at a node, of one to four digits.
BARRED = (
    example("petersen")
    + b"b 1 2\n"
    + b"".join(
        b"b %d %d\n" % (v, channel)
        for v, bars in ((3, (1, 2048, 77, 500)), (7, (4, 3, 2, 1, 1024)), (10, range(1, 15)))
        for channel in bars
    )
)


def painter(*arguments, data=b""):
    """What `picture` makes of these words and this standard input; in this process, since there are many."""
    return in_process("picture", picture.main, *arguments, data=data)


def transcript(network, seed):
    """The text of a run, of edition 2."""
    net = network_in_bytes(network)
    return text_of_run(net, played(net, seed=f"{SEED} {seed}")).encode()


class PictureCase(Case):
    def called(self, kind, network, *options, text=None):
        """What `picture KIND` makes of a network, if there is one, and a text, given as bytes."""
        arguments = [] if network is None else [self.file("net.col", network)]
        if text is None and FORM.get(kind) == "plan":
            text = plan_text(network_in_bytes(network))
        if text is not None:
            arguments += [f"--{FORM[kind]}", self.file("text", text)]
        return painter(kind, *arguments, *options)

    def drawn(self, kind, *given, **more):
        """The picture that such a call draws."""
        status, drawn, fault = self.called(kind, *given, **more)
        if status:
            raise AssertionError(f"{kind} is refused: {fault.decode()}")
        return drawn.decode()

    def rows_of(self, name):
        """What makes the rows of a picture: `row(what, shown, wanted)`."""
        return lambda what, shown, wanted: self.same(f"{name}: {what}", shown, wanted)
