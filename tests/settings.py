"""What the tests run with: settings with a default, which an environment variable `TESTS_NAME` changes."""
import os

from tests import TOP

MORE_HELP = """\
Status: 0 all passed, 1 a row failed, 2 the command line is refused.

Settings are variables, here with their defaults:
  TESTS_PLAN         the program forestplan: crates/forestplan/out/forestplan
  TESTS_PLAY         the program forestplay: crates/forestplay/out/forestplay
  TESTS_SECOND_PLAN, TESTS_SECOND_PLAY
                     both as the second compiler builds them: the same with .by-rattle
  TESTS_CRATE_TESTS  the tests of crates/checks: crates/checks/out/checks_tests
  TESTS_LIMIT        1200: how many seconds a test may take; one that takes longer is
                     ended, and has failed
  TESTS_TEXTS        10000: how many random texts programs.test_hostile makes
  TESTS_SEED         2026: the seed of these random texts
  TESTS_GRAPHS       33: how many random graphs programs.test_in_python plans
  TESTS_LARGE        4: how many large networks programs.test_own_networks numbers
  TESTS_FILES        8: how many files of each form programs.test_written has read
  TESTS_RUNS         40: how many runs of threads programs.test_transcripts checks
  TESTS_SEQUELS      12: how many networks by chance programs.test_sequel_runs plays
"""
DEFAULTS = {
    "limit": "1200",
    "texts": "10000",
    "seed": "2026",
    "graphs": "33",
    "large": "4",
    "files": "8",
    "runs": "40",
    "sequels": "12",
}


def built(name):
    return os.path.join(TOP, "crates", name, "out", name)


def setting(name, default=None):
    return os.environ.get(f"TESTS_{name.upper()}", default or DEFAULTS[name])


PLAN = os.path.abspath(setting("plan", built("forestplan")))
PLAY = os.path.abspath(setting("play", built("forestplay")))
SECOND_PLAN = os.path.abspath(setting("second_plan", built("forestplan") + ".by-rattle"))
SECOND_PLAY = os.path.abspath(setting("second_play", built("forestplay") + ".by-rattle"))
CRATE_TESTS = setting("crate_tests", f"{TOP}/crates/checks/out/checks_tests")
PATHS = {"forestplan": PLAN, "forestplay": PLAY}
# All that is built, by its name.
BUILT = PATHS | {
    "forestplan.by-rattle": SECOND_PLAN,
    "forestplay.by-rattle": SECOND_PLAY,
    "checks_tests": CRATE_TESTS,
}
# One that a variable names is tested as it is, from whatever sources it was built.
NAMED = {"forestplan": "TESTS_PLAN" in os.environ, "forestplay": "TESTS_PLAY" in os.environ}
