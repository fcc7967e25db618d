"""Tests the tools, ./zygos, the scripts of bench, and what the repository keeps of itself; nothing is proved.

usage: tools/test [-v] [--times] [--jobs N] [-k PATTERN] .. [--program FILE] [--oldest] [NAME ..]

    tools/test -k uniques -k orders
    tools/test --times test_compare test_record

NAME            modules of tests/ (if left out, all), or tests of one, as test_compare.Tests.test_steps
-k PATTERN      tests that have this in their names; with a *, those whose names it matches. It may be given several times,
                for tests of which any of the patterns is right
--jobs N        carries out N tests at a time (if left out, as many as there are processors)
-v              names each test as it ends
--times         at the end names the tests with the seconds that they took, slowest first
--program FILE  a built program (if left out, crates/zygos/out/zygos); what needs one is left out where there is none
--oldest        tests with the oldest Python that is found here, from 3.9 on: python3.9 and later ones, and those of pyenv

Each test is carried out in a process of its own. The last lines name what was left out, with the reason, and count what
passed, failed and was left out. The status is 1 if something failed.
"""
import os
import unittest

import pythons
import side_by_side
from zygos_tools.cli import ends

OPTIONS = {"-v": None, "--times": None, "--jobs": ends.number(1, 256), "-k": ("a part of a name", lambda word: word or None),
           "--program": ends.FILE, "--oldest": None}


def main(words):
    given, names = ends.options(words, OPTIONS, several=("-k",))
    if "--oldest" in given:
        python = pythons.oldest()
        print(f"tools/test: with {python}", flush=True)
        ends.end(pythons.run_with(python, [os.path.realpath(__file__), *[word for word in words if word != "--oldest"]]))
    if "--program" in given:
        os.environ["ZYGOS_PROGRAM"] = os.path.realpath(given["--program"])
    loader = unittest.TestLoader()
    if "-k" in given:
        loader.testNamePatterns = [pattern if "*" in pattern else f"*{pattern}*" for pattern in given["-k"]]
    here = os.path.dirname(os.path.realpath(__file__))
    found = loader.loadTestsFromNames(names) if names else loader.discover(here)
    jobs = given.get("--jobs") or len(os.sched_getaffinity(0))
    ends.end(int(not side_by_side.run(found, jobs, "-v" in given, "--times" in given)))


if __name__ == "__main__":
    ends.run(main, __doc__, "tools/test")
