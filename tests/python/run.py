"""Runs the tests of the Python module, python/tests: run.py [NAME]... A name is a file, as test_table, a class, as test_table.Names, or
one test. The last line says how many passed and how many failed."""
import os
import sys
import unittest

ROOT = os.path.dirname(os.path.dirname(os.path.dirname(os.path.abspath(__file__))))
sys.path.insert(0, os.path.join(ROOT, "tests"))
from tally import check, choose, chosen, end


def flat(tests):
    """The tests of a suite and of those in it."""
    for test in tests:
        if isinstance(test, unittest.TestSuite):
            yield from flat(test)
        else:
            yield test


def faults(test):
    """How many faults a test has; they are shown."""
    result = unittest.TestResult()
    unittest.TestSuite([test]).run(result)
    said = [text for _, text in result.failures + result.errors + result.skipped]
    print("".join("%s\n" % text for text in said), end="")
    return len(said)


def main():
    choose(sys.argv[1:])
    package = os.path.join(ROOT, "python")
    for test in flat(unittest.defaultTestLoader.discover(os.path.join(package, "tests"), top_level_dir=package)):
        file, *path = test.id().split(".")[1:]
        name = ".".join([file, *path])
        if chosen(name, file, ".".join([file, *path[:1]])):
            check(name, faults(test), 0)
    end()


main()
