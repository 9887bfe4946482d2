"""Runs all tests of the package: python3 python/tests [NAME..]. A NAME is a test file's, a class's or a test's, as test_module.Threads.
The last line is 'N passed, M failed', with ', K skipped' where tests were skipped; the exit status is 1 if one failed."""
import os
import sys
import unittest
from collections import Counter

sys.dont_write_bytecode = True
HERE = os.path.dirname(os.path.realpath(__file__))
if HERE not in sys.path:
    sys.path.insert(0, HERE)


class Result(unittest.TextTestResult):
    """Counts each test once: failed if it or a part of it failed, else skipped if it or a part of it was, else passed."""

    def __init__(self, *passed, **named):
        super().__init__(*passed, **named)
        self.outcomes = {}
        self.reasons = Counter()

    def _count(self, test, outcome):
        worst = ("passed", "skipped", "failed")
        name = getattr(test, "test_case", test).id()
        self.outcomes[name] = max(outcome, self.outcomes.get(name, "passed"), key=worst.index)

    def addSuccess(self, test):
        super().addSuccess(test)
        self._count(test, "passed")

    def addExpectedFailure(self, test, err):
        super().addExpectedFailure(test, err)
        self._count(test, "passed")

    def addFailure(self, test, err):
        super().addFailure(test, err)
        self._count(test, "failed")

    def addError(self, test, err):
        super().addError(test, err)
        self._count(test, "failed")

    def addSubTest(self, test, subtest, err):
        super().addSubTest(test, subtest, err)
        if err is not None:
            self._count(test, "failed")

    def addUnexpectedSuccess(self, test):
        super().addUnexpectedSuccess(test)
        self._count(test, "failed")

    def addSkip(self, test, reason):
        super().addSkip(test, reason)
        self._count(test, "skipped")
        self.reasons[reason] += 1

    def summary(self):
        """The last line, and the exit status. No test at all is a failure."""
        count = Counter(self.outcomes.values())
        if not self.outcomes:
            count["failed"] = 1
        line = f"{count['passed']} passed, {count['failed']} failed"
        if count["skipped"]:
            line += f", {count['skipped']} skipped"
        return line, 1 if count["failed"] else 0


def main(names):
    loader = unittest.TestLoader()
    suite = loader.loadTestsFromNames(names) if names else loader.discover(HERE, pattern="test_*.py", top_level_dir=HERE)
    runner = unittest.TextTestRunner(stream=sys.stdout, resultclass=Result, verbosity=1)
    result = runner.run(suite)
    for reason, times in sorted(result.reasons.items()):
        print(f"skipped {times}: {reason}")
    line, status = result.summary()
    print(line, flush=True)
    return status


if __name__ == "__main__":
    sys.exit(main(sys.argv[1:]))
