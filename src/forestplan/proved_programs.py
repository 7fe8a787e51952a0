"""The two proved programs as they were last built, called without the scripts of their names: those look at all sources
first, which takes ten times as long as a small call, and prove and build what isn't built, which is for a person to
ask for."""
import os
import subprocess
import sys
from collections.abc import Iterable

from forestplan.build_hint import how_to_build
from forestplan.fault_codes import Code
from forestplan.faults import Fault
from forestplan.folders import built

# What the C library is asked for, unless the caller says something else: large pages for what is allocated.
TUNABLES = "glibc.malloc.hugetlb=1"

# The script bin/NAME of an installed folder.
SCRIPT = """\
#!/usr/bin/env bash
# Runs the program of this name, which is in lib/, with the arguments given.
self=${BASH_SOURCE[0]}
[[ $self == */* && ! -L $self ]] || self=$(readlink -f "$self") || exit 4
top=${self%/*}/.. name=${self##*/}
source "$top/src/forestplan/launcher.sh" || exit 4
say_known "$name" "$@"
run_program "$top/lib/$name" "$name" "$@"
"""


class ProgramRefused(Exception):
    """A program refused: `status` is its own, and `message` is what it wrote to standard error."""

    def __init__(self, status: int, message: str) -> None:
        super().__init__(status, message)
        self.status = status
        self.message = message


def program_file(name: str) -> str:
    """The program's file; refused if it isn't built."""
    path = built(name)
    if path is None:
        raise Fault(Code.NOT_BUILT, name=name, how=how_to_build(name))
    return path


def called(name: str, arguments: Iterable[str], data: bytes) -> subprocess.CompletedProcess[bytes]:
    """What a program did with a text: its status, and the bytes of both outputs."""
    try:
        return subprocess.run(
            [program_file(name), *arguments],
            input=data,
            capture_output=True,
            env={"GLIBC_TUNABLES": TUNABLES, **os.environ},
        )
    except OSError as why:
        raise Fault(Code.CANT_BE_RUN, name=name, why=why.strerror) from None


def output_of(name: str, arguments: Iterable[str], data: bytes) -> str:
    """What a program writes of a text; what it says besides goes on to standard error, or into `ProgramRefused`."""
    done = called(name, arguments, data)
    said = done.stderr.decode("utf-8", "replace")
    if done.returncode:
        raise ProgramRefused(done.returncode, said)
    sys.stderr.write(said)
    return done.stdout.decode()
