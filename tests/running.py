"""Runs tests of one module in this process, by unittest; tests/__main__.py calls it for each module.

  python3 -m tests.running NAME ..

A NAME is MODULE, MODULE.CLASS or MODULE.CLASS.test_x. What failed or was skipped is printed after each test, and last
'N passed, M failed'. A test that takes longer than the limit ends the process, with the place where it waits."""
import faulthandler
import sys
import unittest

from tests.settings import setting


class Rows(unittest.TextTestResult):
    """Counts rows: a test's, or the test itself if it has no rows. Prints a test's failures when it ends."""

    def __init__(self) -> None:
        # What unittest writes to, which its hints leave out.
        super().__init__(getattr(unittest.TextTestRunner(sys.stdout), "stream"), False, 0)
        self.passed, self.failed, self.rows = 0, 0, 0

    def startTest(self, test):
        super().startTest(test)
        self.rows = 0
        # Whatever a test waits for, it has an end.
        faulthandler.dump_traceback_later(float(setting("limit")), exit=True)

    def addSubTest(self, test, subtest, err):
        super().addSubTest(test, subtest, err)
        self.rows += 1
        self.passed += err is None

    def addSuccess(self, test):
        super().addSuccess(test)
        self.passed += self.rows == 0

    def addSkip(self, test, reason):
        super().addSkip(test, reason)
        # Of a row the test is said, and of a class that is skipped `setUpClass (..)`.
        *_, kind, name = getattr(test, "test_case", test).id().split(".")
        print(f"skipped {kind}.{name}: {reason}", flush=True)

    def stopTest(self, test):
        super().stopTest(test)
        self.tell()

    def tell(self) -> None:
        """Prints what failed since the last call, and counts it."""
        self.failed += len(self.failures) + len(self.errors) + len(self.unexpectedSuccesses)
        self.printErrors()
        self.failures.clear()
        self.errors.clear()
        self.unexpectedSuccesses.clear()


def main() -> int:
    faulthandler.dump_traceback_later(float(setting("limit")), exit=True)
    names, result = [f"tests.{name}" for name in sys.argv[1:]], Rows()
    unittest.defaultTestLoader.loadTestsFromNames(names).run(result)
    result.tell()
    if result.passed + result.failed + len(result.skipped) == 0:
        result.failed = 1
        print("FAIL: nothing was run")
    print(f"{result.passed} passed, {result.failed} failed")
    return 1 if result.failed else 0


if __name__ == "__main__":
    sys.exit(main())
