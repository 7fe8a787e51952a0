"""What the proved machine says of a transcript: `forestplay replay`."""
from dataclasses import replace

from forestplan.fault_codes import Code
from forestplan.faults import Fault
from forestplan.networks.verdicts import Verdict, parsed_verdict
from forestplan.proved_programs import called


def verdict_on_run(network: str, transcript: str, arguments: list[str]) -> Verdict:
    """The verdict on a transcript, given as texts, of nodes that run the proved program of these options; refused if
    there is none. It names an entry in place of a line."""
    done = called("forestplay", ["replay", *arguments], (network + transcript).encode())
    if done.returncode == 0:
        return Verdict()
    line = done.stderr.decode("utf-8", "replace").strip()
    found = parsed_verdict(line)
    if done.returncode != 1 or found is None or found.of != "line":
        raise Fault(Code.REPLAY_ENDS, status=done.returncode, line=line)
    entry = found.numbers[0] - network.count("\n") - 2
    return replace(found, of="entry", numbers=(entry,))
