"""Checks what can be checked in a minute, without a build: for before each commit or push.

usage: tools/check [--since COMMIT] [--jobs N]
       tools/check --hook

    tools/check --since HEAD~3

Checked are the layout of changed crates (with rt), links and quoted figures of pages, names that two crates define,
lemmas without a use, names that docs/PROOF.md cites, pyflakes (if it is installed), the grammar of Python sources, and
the tests of the tools that changed. Nothing is proved: that is `rt check` in a crate, and .ci/run is the whole gate.

--since COMMIT  changed is what differs from COMMIT, and files that git does not know (if left out, from the commit that
                this branch shares with origin/main)
--jobs N        carries out N checks at a time (if left out, as many as there are processors)
--hook          makes git run tools/check before each push from this checkout; `git push --no-verify` does without

A check that fails prints what it found. The last line counts what passed, failed and was left out, and the status is 1
if something failed.
"""
from __future__ import annotations

import os
import re
import shutil
import subprocess
import sys
import tempfile
import time
from collections.abc import Callable
from concurrent.futures import ThreadPoolExecutor
from typing import NamedTuple

from zygos_tools.cli import ends
from zygos_tools.repository import TOP

OPTIONS = {"--since": ("a commit", lambda word: word or None), "--jobs": ends.number(1, 256), "--hook": None}
SHARED = "origin/main"
# git tells its hooks where the repository is, which tests with repositories of their own must not hear
HOOK = "#!/bin/sh\n# Made by tools/check --hook.\nunset $(git rev-parse --local-env-vars)\nexec tools/check\n"
# the modules of tests that show what a changed file does, by patterns of its path
TESTS = (
    (r"tools/zygos_tools/judging/", "test_judging test_orders"),
    (r"tools/zygos_tools/comparing/", "test_compare test_shared"),
    (r"tools/zygos_tools/recording/packets/", "test_packets"),
    (r"tools/zygos_tools/recording/\w+\.py", "test_record"),
    (r"tools/zygos_tools/playing/", "test_play"),
    (r"tools/zygos_tools/showing/", "test_show test_top test_picture"),
    (r"tools/zygos_tools/(cli|files|protocol)/", "test_tools test_show"),
    (r"tools/zygos_tools/trying/", "test_trying"),
    (r"tools/(build|release)|tools/repo/|zygos$", "test_build test_wrapper"),
    (r"tools/(build|release)|tools/repo/.*\.sh|zygos$|Makefile$|VERSION$|dist/", "test_dist"),
    (r"bench/figures\.json|bench/\w+\.py", "test_figures"),
)
# what the lines of a crate can break in the whole repository
PARTS = ("src", "specs", "proofs")


class Check(NamedTuple):
    """A check: its name, and what it finds, or None if it is left out for the reason that its name gives."""

    name: str
    find: Callable[[], str | None]


def output_of(*words: str, folder: str = TOP) -> str:
    """What a command prints, if it fails or is to print nothing; its status is told too if it is not 0."""
    ran = subprocess.run(words, cwd=folder, stdin=subprocess.DEVNULL, stdout=subprocess.PIPE, stderr=subprocess.STDOUT, check=False)
    text = ran.stdout.decode(errors="backslashreplace")
    return text + (f"status {ran.returncode}\n" if ran.returncode and not text else "") if ran.returncode else ""


def git(*words: str) -> list[str]:
    ran = subprocess.run(["git", *words], cwd=TOP, stdout=subprocess.PIPE, stderr=subprocess.DEVNULL, text=True, check=False)
    if ran.returncode:
        ends.stop(f"git {' '.join(words)} ended with status {ran.returncode}")
    return ran.stdout.split("\n")[:-1]


def changed(since: str | None) -> list[str]:
    """The files that differ from a commit, or that git does not know."""
    commit = since or git("merge-base", "HEAD", SHARED)[0]
    return sorted({*git("diff", "--name-only", commit), *git("ls-files", "--others", "--exclude-standard")})


# ---- checks


def unformatted(crate: str) -> str:
    """The files of a crate that `rt fmt` would change, found in a copy."""
    with tempfile.TemporaryDirectory() as room:
        folder, copy = os.path.join(TOP, "crates", crate), os.path.join(room, "crates", crate)
        for part in PARTS:
            if os.path.isdir(os.path.join(folder, part)):
                shutil.copytree(os.path.join(folder, part), os.path.join(copy, part))
        shutil.copy(os.path.join(TOP, "crates.txt"), room)
        fault = output_of("rt", "fmt", folder=copy)
        parts = [part for part in PARTS if os.path.isdir(os.path.join(copy, part))]
        return fault + "".join(differing(os.path.join(folder, part), os.path.join(copy, part)) for part in parts)


def differing(folder: str, other: str) -> str:
    """A line for each file that two folders have differently."""
    ran = subprocess.run(["diff", "-rq", folder, other], stdout=subprocess.PIPE, text=True, check=False)
    return "".join(f"{os.path.relpath(name, TOP)}: rt fmt changes it\n" for name in re.findall(r"^Files (\S+) and ", ran.stdout, re.M))


def fails(*words: str) -> Callable[[], str]:
    return lambda: output_of(*words)


def is_python(path: str) -> bool:
    """Whether a file of the repository is a source of Python."""
    if path.endswith(".py"):
        return True
    with open(os.path.join(TOP, path), "rb") as file:
        return file.read(30).startswith((b"#!/usr/bin/env python3", b"#!/bin/sh\n''':'"))


def pyflakes() -> str | None:
    """What pyflakes finds in all sources of Python."""
    checker = shutil.which("pyflakes3") or shutil.which("pyflakes")
    sources = [path for path in git("ls-files", "-co", "--exclude-standard", "tools", "tests", "bench")
               if os.path.isfile(os.path.join(TOP, path)) and is_python(path)]
    return output_of(checker, *sources) if checker else None


def crates_of(paths: list[str]) -> list[str]:
    """The crates in which something that rt formats has changed."""
    found = {path.split("/")[1] for path in paths if re.match(rf"crates/\w+/({'|'.join(PARTS)})/", path)}
    return sorted(crate for crate in found if os.path.isdir(os.path.join(TOP, "crates", crate)))


def tests_of(paths: list[str]) -> list[str]:
    """The modules of tests of what has changed, and those that have changed themselves."""
    found = {name for path in paths for pattern, names in TESTS if re.match(pattern, path) for name in names.split()}
    found |= {path[6:-3] for path in paths if re.fullmatch(r"tests/test_\w+\.py", path)}
    return sorted(name for name in found if os.path.exists(os.path.join(TOP, "tests", f"{name}.py")))


def checks(paths: list[str], jobs: int) -> list[Check]:
    """The checks of what has changed, those first that take longest."""
    tool = sys.executable, os.path.join(TOP, "tests/all.py"), "--jobs", str(jobs)
    tests, has_rt = tests_of(paths), bool(shutil.which("rt"))
    found = [Check("lemmas and laws have uses", fails("tools/repo/dead", "--check"))]
    if tests:
        found.append(Check(f"tests of {' '.join(name[5:] for name in tests)}", fails(*tool, *tests)))
    found += [Check(f"layout of {crate}", lambda crate=crate: unformatted(crate) if has_rt else None) for crate in crates_of(paths)]
    return [*found, Check("what docs/PROOF.md names", fails("tools/repo/indexes")), Check("pyflakes", pyflakes),
            Check("names that two crates define", fails("tools/repo/names", "--check")),
            Check("links and figures of pages", fails("tests/documents", "--links")),
            Check("grammar of Python", fails(*tool, "test_repository.Tests.test_old_pythons"))]


# ---- what is printed


def carried_out(check: Check) -> tuple[int, int, int]:
    """Carries out a check and says what it found. Gives its counts."""
    begun = time.monotonic()
    found = check.find()
    word = "left out" if found is None else "FAILED" if found else "ok"
    print(f"{word:8} {check.name} ({time.monotonic() - begun:.0f} s)\n{found or ''}", end="", flush=True)
    return int(found == ""), int(bool(found)), int(found is None)


def install() -> None:
    """Makes git run this before each push."""
    path = os.path.join(TOP, git("rev-parse", "--git-path", "hooks/pre-push")[0])
    if os.path.exists(path):
        with open(path, encoding="utf-8") as file:
            if file.read() != HOOK:
                ends.stop(f"{path} is there already, and is not from here")
    os.makedirs(os.path.dirname(path), exist_ok=True)
    with open(path, "w", encoding="utf-8") as file:
        file.write(HOOK)
    os.chmod(path, 0o755)
    print(f"{os.path.relpath(path)} runs tools/check before each push")


def main(words: list[str]) -> None:
    given, others = ends.options(words, OPTIONS)
    if others:
        ends.stop("it takes no file; --help says more", 2)
    if "--hook" in given:
        install()
        return
    jobs = given.get("--jobs") or len(os.sched_getaffinity(0))
    with ThreadPoolExecutor(jobs) as pool:
        counts = list(pool.map(carried_out, checks(changed(given.get("--since")), jobs)))
    passed, failed, skipped = map(sum, zip(*counts))
    print(f"{passed} passed, {failed} failed, {skipped} skipped")
    ends.end(int(failed > 0))


if __name__ == "__main__":
    ends.run(main, __doc__, "tools/check")
