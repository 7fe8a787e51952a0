"""Tests that what starts a proved program's worker threads for a page, a picture or a class asks for no more of them
than this process may use processors: next to other work, more are slower."""
import os
from unittest import mock

from forestplan import processors, proved_programs
from forestplan.definitions.nodes import COLOURING
from forestplan.definitions.programs import PROGRAMS
from forestplan.network import Network
from forestplan.pictures import picture
from forestplan.studio.messages import RunCall
from tests import TOP
from tests.cases import Case

EDGE = Network(2, [(1, 2)])
HELP = os.path.join(TOP, "src", "forestplan", "help")
USABLE = ((1, 1), (2, 2), (3, 3), (4, 4), (16, 4))


class Tests(Case):
    def test_pictures(self):
        """`forestlab picture run` and `watch` ask for the default of the programs, or for fewer."""
        for program, first in ((COLOURING, ["transcript"]), (PROGRAMS["leader"], ["run"])):
            for usable, wanted in USABLE:
                with (
                    mock.patch("os.sched_getaffinity", return_value=range(usable)),
                    mock.patch.object(proved_programs, "output_of") as called,
                ):
                    picture.run_text("run", EDGE, b"p edge 2 1\ne 1 2\n", program)
                arguments = called.call_args.args[1]
                self.same(f"{program.name}, {usable} processors", arguments[:1], first)
                asked = [it for it in arguments if it.startswith("--workers")]
                self.same(f"{program.name}, {usable} processors", asked, [f"--workers={wanted}"])

    def test_default(self):
        """The number is the programs' own: their help says it, and the studio begins with it."""
        for name in ("forestplan-plan", "forestplan-transcript", "forestplay-run"):
            with open(os.path.join(HELP, f"{name}.txt")) as file:
                option = file.read().split("--workers <N>")[1].split("--")[0]
            self.same(name, f"[default: {processors.DEFAULT_WORKERS}]" in option, True)
        self.same("the studio", RunCall(network="").workers, processors.DEFAULT_WORKERS)
