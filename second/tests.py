"""Runs all tests of the second program. The last line tells how many passed and failed."""

import sys
import traceback

import test_brute_force
import test_cases
import test_checker
import test_lines
import test_programs
import test_scheduler
import test_slips

MODULES = (
    test_scheduler, test_checker, test_brute_force, test_lines, test_programs, test_slips,
    test_cases)


def outcomes(test):
    """For each thing a test tries, whether it passed; prints what did not."""
    try:
        for name, got, expected in test():
            if got != expected:
                print(f"{test.__name__}, {name}:\n  got      {got!r:.300}"
                      f"\n  expected {expected!r:.300}")
            yield got == expected
    except Exception:
        print(f"{test.__name__}:\n{traceback.format_exc()}")
        yield False


def main():
    passed = failed = 0
    for module in MODULES:
        for test in module.TESTS:
            for good in outcomes(test):
                passed += good
                failed += not good
    print(f"{passed} passed, {failed} failed")
    return 1 if failed or not passed else 0


if __name__ == "__main__":
    sys.exit(main())
