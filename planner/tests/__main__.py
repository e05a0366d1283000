"""Runs all tests, or those of the modules named, a line each; the last line is `N passed, M failed`."""
import sys
import time
import unittest


class Lines(unittest.TestResult):
    """A line for each test; what is passed over on this machine is said and not counted."""

    passed = 0

    def startTest(self, test):
        super().startTest(test)
        self.began = time.monotonic()

    def told(self, test, how):
        """One line."""
        print(f"planner: {test.id().removeprefix('planner.tests.')}: {how}", flush=True)

    def addSuccess(self, test):
        self.passed += 1
        self.told(test, f"passed ({time.monotonic() - self.began:.1f} s)")

    def addSkip(self, test, reason):
        super().addSkip(test, reason)
        self.told(test, f"passed over: {reason}")

    def addFailure(self, test, err):
        super().addFailure(test, err)
        self.told(test, "FAILED\n" + self.failures[-1][1])

    def addError(self, test, err):
        super().addError(test, err)
        self.told(test, "FAILED\n" + self.errors[-1][1])


names = [f"planner.tests.test_{name}" for name in sys.argv[1:] or ("forms", "faults", "run", "commands", "usage", "page")]
result = Lines()
unittest.defaultTestLoader.loadTestsFromNames(names).run(result)
failed = len(result.failures) + len(result.errors)
print(f"{result.passed} passed, {failed} failed")
sys.exit(1 if failed else 0)
