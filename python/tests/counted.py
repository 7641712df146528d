"""Runs the tests beside it, and counts them: the last line is `N passed, M failed`. Where the extension is used, those that take no long time run again without it."""
import os
import pathlib
import re
import subprocess
import sys
import unittest

HERE = pathlib.Path(__file__).resolve()
# What takes most of the time is of problems whose answers don't depend on the way that they go.
LONG = ("test_fuzz.", "test_exact.Random.", "test_pages.")


def tests_of(suite):
    for test in suite:
        yield from tests_of(test) if isinstance(test, unittest.TestSuite) else [test]


def run(tests):
    """How many tests passed and failed."""
    result = unittest.TextTestRunner(verbosity=0).run(unittest.TestSuite(tests))
    for test, reason in result.skipped:
        print(f"skipped: {test.id()}: {reason}")
    # A test with several faults, one for each of its inputs, has failed once.
    failed = len({getattr(test, "test_case", test).id() for test, _ in result.failures + result.errors})
    return result.testsRun - len(result.skipped) - failed, failed


def run_plain():
    """How many tests passed and failed without the extension."""
    done = subprocess.run([sys.executable, "-B", HERE, "quick"], env=os.environ | {"SIGDORF_PLAIN": "1"}, stdout=subprocess.PIPE, text=True)
    told = re.fullmatch(r"(\d+) passed, (\d+) failed", (done.stdout.splitlines() or [""])[-1])
    return (int(told[1]), int(told[2])) if told else (0, 1)


def main():
    tests = list(tests_of(unittest.defaultTestLoader.discover(str(HERE.parent))))
    if sys.argv[1:] == ["quick"]:
        counts = [run([test for test in tests if not test.id().startswith(LONG)])]
    else:
        counts = [run(tests)]
        from limited import sigdorf

        if sigdorf and sigdorf.fast.is_there():
            counts.append(run_plain())
            print(f"without the extension: {counts[1][0]} passed, {counts[1][1]} failed")
        else:
            print("skipped: the extension isn't built (python/extension), or the library has no sigdorf_solve_dense")
    passed, failed = map(sum, zip(*counts))
    print(f"{passed} passed, {failed} failed")
    return failed > 0


sys.exit(main())
