"""What the tests share: cases of unittest made of functions, how a tool is run, and how what it prints is compared.

Each difference that a test finds is a failure of its own, and the test goes on. What is left out on a machine, for want
of a memcached or of the program, is a skip with a reason: it is counted, and the last lines name it.
"""
import contextlib
import os
import signal
import subprocess
import sys
import tempfile
import threading
import unittest

import forked
from forked import LONGEST
from zygos_tools.cli import ends
from zygos_tools.repository import TOP


class Case(unittest.TestCase):
    """A test whose differences are told by functions; `running` is the one that runs now."""

    running, late = None, []

    def run(self, result=None):
        Case.running, Case.late = self, []
        return super().run(result)

    def carry_out(self, part, has_folder):
        """Carries out a function, in an empty folder if it needs one."""
        with tempfile.TemporaryDirectory() if has_folder else contextlib.nullcontext() as folder:
            before = os.getcwd()
            os.chdir(folder or before)
            try:
                part()
            finally:
                os.chdir(before)
        for name, why in Case.late:
            fail(name, why)


def cases(*parts, has_folder=False):
    """A class with a test for each of these functions; with `has_folder` each is in an empty folder."""
    tests = {f"test_{part.__name__}": lambda self, part=part: self.carry_out(part, has_folder) for part in parts}
    return type("Tests", (Case,), {"__module__": parts[0].__module__, **tests})


def fail(name, why):
    """Tells a difference; the test goes on."""
    if threading.current_thread() is not threading.main_thread():
        Case.late.append((name, why))
        return
    if Case.running is None:
        raise AssertionError(f"{name}: {why}")
    with Case.running.subTest(name):
        raise AssertionError(why)


def skip(why):
    """Leaves out the rest of a test."""
    raise unittest.SkipTest(why)


def left_out(name, why):
    """Leaves out a part of a test, which goes on."""
    with Case.running.subTest(name):
        skip(why)


def brief(value):
    text = repr(value)
    return text if len(text) < 600 else f"{text[:300]} .. {text[-200:]}"


def same(name, wanted, got):
    if wanted != got:
        fail(name, f"wanted {brief(wanted)}, got {brief(got)}")


# ---- how tests are run


def counts_of(result):
    """How many tests passed, failed and were left out, wholly or in part."""
    failed = {str(getattr(test, "test_case", test)) for test, _ in [*result.failures, *result.errors]}
    skipped = {str(test) for test, _ in result.skipped if not hasattr(test, "test_case")}
    passed = result.testsRun - len(failed) - len(skipped - failed)
    return passed, len(failed), len(result.skipped)


def run_suite(suite, verbosity=1):
    """Runs tests; prints what was left out, and the counts in a last line. Gives whether none failed."""
    result = unittest.TextTestRunner(sys.stdout, verbosity=verbosity).run(suite)
    for test, why in result.skipped:
        print(f"left out: {test}: {why}")
    print("{} passed, {} failed, {} skipped".format(*counts_of(result)), flush=True)
    return not counts_of(result)[1]


def count(passed, failed, left_out=()):
    """Ends a script that is no unittest: names what it left out, and counts its tests in a last line, which the gate reads.
    Gives its status."""
    for why in left_out:
        print(f"left out: {why}")
    print(f"{passed} passed, {failed} failed, {len(left_out)} skipped", flush=True)
    return int(failed > 0)


def script(main, page):
    """Carries out a script of tests with its words, and ends the process with the status that it gives. A program may end
    before it has read all that a script writes to it."""
    def carried_out(words):
        signal.signal(signal.SIGPIPE, signal.SIG_IGN)
        ends.end(main(words) or 0)

    ends.run(carried_out, page, f"tests/{os.path.basename(sys.argv[0])}")


def help_if_asked():
    """Prints the first lines of the script as its page of help, and ends, if a word asks for that."""
    if {"-h", "--help"} & set(sys.argv[1:]):
        signal.signal(signal.SIGPIPE, signal.SIG_DFL)
        print((sys.modules["__main__"].__doc__ or "").strip())
        sys.exit()


def carry_out(*parts):
    """Runs functions as tests, and ends."""
    help_if_asked()
    suite = unittest.defaultTestLoader.loadTestsFromTestCase(cases(*parts))
    sys.exit(not run_suite(suite))


# ---- tools


def path_of(tool):
    return os.path.join(TOP, "tools", tool)


def program_path():
    """Where the built program is."""
    return os.path.realpath(os.environ.get("ZYGOS_PROGRAM") or os.path.join(TOP, "crates/zygos/out/zygos"))


def built_program():
    """Where the built program is; without one, the rest of a test is left out."""
    if not os.access(program_path(), os.X_OK):
        skip(f"{os.path.relpath(program_path(), TOP)} is not built")
    return program_path()


def run(tool, *words, given=b"", environment=None):
    """Carries out a tool: in a fork of this process if that can be, else as a command."""
    if forked.can_be_forked(tool):
        return forked.run(tool, words, given, environment)
    return started(tool, *words, given=given, environment=environment)


def started(tool, *words, given=b"", environment=None):
    """Carries out a tool as a command."""
    return subprocess.run([path_of(tool), *words], input=given, capture_output=True, timeout=LONGEST, check=False,
                          env={**os.environ, **(environment or {})})


def prints(name, wanted, tool, *words, given=b"", status=0):
    """The tool prints this, says nothing else, and ends with the status."""
    ran = run(tool, *words, given=given)
    same(name, (status, wanted, b""), (ran.returncode, ran.stdout, ran.stderr))


def says(name, line, tool, *words, given=b"", status=1):
    """The tool ends with a line on standard error, and the status."""
    ran = run(tool, *words, given=given)
    same(name, (status, f"tools/{tool}: {line}\n".encode()), (ran.returncode, ran.stderr))


def written(folder, **files):
    """Writes files into a folder, and gives their paths."""
    paths = {name: os.path.join(folder, name) for name in files}
    for name, text in files.items():
        with open(paths[name], "wb") as file:
            file.write(text)
    return paths


# Starts a tool and prints its status, and the most KiB that it had resident. A process counts what the one that started it
# has, so a tool whose memory is measured is started by a small one.
MEASURING = """
import os, sys
_, status, used = os.wait4(os.spawnv(os.P_NOWAIT, sys.argv[1], sys.argv[1:]), 0)
print(os.waitstatus_to_exitcode(status), used.ru_maxrss, file=sys.stderr)
"""


def most_memory(tool, *words, source):
    """The most bytes that a tool has resident, in MiB, as it reads a file; and its status."""
    with open(source, "rb") as given, tempfile.TemporaryFile() as taken:
        ran = subprocess.run([sys.executable, "-c", MEASURING, path_of(tool), *words], stdin=given, stdout=taken,
                             stderr=subprocess.PIPE, check=True)
    status, most = ran.stderr.split()[-2:]
    return int(most) / 1024, int(status)
