"""What the suites in Python share: the program's path, running it, the tests of a folder, and a last line that
tests/run can read."""

import os
import re
import subprocess
import sys
import unittest
from pathlib import Path

ROOT = Path(os.environ.get("WOT_ROOT") or Path(__file__).resolve().parent.parent)
PROGRAM = os.environ.get("WOT_PROGRAM") or str(ROOT / "crates/wot_cli/out/wot_cli")

# A suite in which more tests failed is broken, and a second try would only hide how.
MOST_TRIED_AGAIN = 3
# The name under which unittest reports that a class or a module could not be set up.
FIXTURE = re.compile(r"(?:setUp|tearDown)(?:Class|Module) \((.*)\)")


def run_program(script, *words, **options):
    """Runs the program on a script; gives its status and what it wrote. It must write nothing to standard error."""
    ended = subprocess.run([PROGRAM, *(words or ("run",))], input=script, capture_output=True, check=False, **options)
    if ended.stderr:
        raise AssertionError(f"standard error: {ended.stderr[:300]!r}")
    return ended.returncode, ended.stdout


def main():
    """Runs the tests of the calling script, or those that its words name; ends with 'N passed, N failed, N skipped'."""
    runner = unittest.TextTestRunner(stream=sys.stdout, verbosity=2)
    sys.exit(tally(unittest.main("__main__", testRunner=runner, exit=False).result))


def run_files(folder, end=lambda: None, again=False):
    """Runs the tests of a folder's files test_*.py, or those that the script's words name, and then calls `end`. Prints
    'N passed, N failed, N skipped' at last, and gives the exit status. `again` is for suites over real clusters,
    browsers and clocks: what failed is tried once more, and that it was is said."""
    names = sys.argv[1:] or [file.stem for file in sorted(folder.glob("test_*.py"))]
    try:
        result = run_names(names)
        if again:
            try_again(result)
    finally:
        end()
    return tally(result)


def run_names(names):
    """Runs the tests of these names; gives unittest's result."""
    tests = unittest.defaultTestLoader.loadTestsFromNames(names)
    return unittest.TextTestRunner(stream=sys.stdout, verbosity=2).run(tests)


def try_again(result):
    """Runs each failed test once more, alone, unless more than MOST_TRIED_AGAIN failed. What passes then has failed no
    longer, and a line says so; tests/run repeats it under its table."""
    failed = sorted({id_of(test) for test, _ in result.failures + result.errors})
    if len(failed) > MOST_TRIED_AGAIN:
        return
    for name in failed:
        second = run_names([FIXTURE.sub(r"\1", name)])
        if second.wasSuccessful():
            result.failures = [(test, text) for test, text in result.failures if id_of(test) != name]
            result.errors = [(test, text) for test, text in result.errors if id_of(test) != name]
            if FIXTURE.fullmatch(name):  # its tests didn't run at the first try
                result.testsRun += second.testsRun
                result.skipped += second.skipped
            print(f"passed at the second try: {name}")


def tally(result):
    """Prints 'N passed, N failed, N skipped', and gives the exit status. A test with several failed parts is one."""
    skipped = len(result.skipped)
    failed = len({id_of(test) for test, _ in result.failures + result.errors}) + len(result.unexpectedSuccesses)
    print(f"{max(0, result.testsRun - failed - skipped)} passed, {failed} failed, {skipped} skipped")
    return 1 if failed else 0


def skip_all(why):
    """Says that a suite can't run here, and why; gives the exit status."""
    print(f"skipped: {why}")
    print("0 passed, 0 failed, 1 skipped")
    return 0


def id_of(test):
    """A test's name; that of the whole test for one of its parts."""
    return getattr(test, "test_case", test).id()
