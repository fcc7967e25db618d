"""The built program, run on what it is given; what it answers is compared with what is wanted."""
import os
import subprocess
import sys

from zygos_tools.repository import TOP

ONE = ["run", "--cores", "1", "--threads", "1"]
BOTH = ["--out", "both"]
# seconds after which a program hangs
LONGEST = 3600
failures = []


def path_of(name):
    """Where the program of this name is, if the words of the script name none."""
    return os.path.realpath(sys.argv[1]) if len(sys.argv) > 1 else os.path.join(TOP, "crates", name, "out", name)


PATH = path_of("zygos")


def path():
    """Where the program is."""
    return PATH


def run(words, given, output=subprocess.PIPE, **how):
    given = {} if given is None else {"input": given}
    return subprocess.run([path(), *words], stdout=output, stderr=subprocess.PIPE, timeout=LONGEST, check=False, **given, **how)


def answer(words, given):
    """The status, standard output and standard error of a run."""
    ran = run(words, given)
    return ran.returncode, ran.stdout, ran.stderr


def same(name, wanted, got):
    """Tells where an answer is not the wanted one."""
    if got != wanted:
        failures.append(name)
        told = [f"{status} {written[:80]!r} {said!r}" for status, written, said in (wanted, got)]
        print(f"tests/examples: {name}: wanted {told[0]}, got {told[1]}")


def check(name, words, given, status, written, said=b""):
    same(name, (status, written, said), answer(words, given))


def carry_out(name, part, fail):
    """Carries out a part of a test and returns its answer. A part that hangs or ends early fails in a line of its own, so
    that the later parts are carried out too."""
    try:
        return part()
    except subprocess.TimeoutExpired as hung:
        return fail(f"{name}: a program does not end in {hung.timeout:.0f} seconds")
    except Exception as ended:  # pylint: disable=broad-exception-caught
        return fail(f"{name}: ended early: {type(ended).__name__}: {ended}")
