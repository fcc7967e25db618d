"""Tests what the repository keeps of itself: crates.txt, lists in pages, names, lemmas, laws, examples, and the tools' own
source by pyflakes and mypy."""
import ast
import glob
import os
import re
import shutil
import subprocess
import tempfile
import unittest

from checks import LONGEST, TOP, built_program, cases, fail, run, same, skip, written
from zygos_tools.repository import matching
from zygos_tools.starting import LEAST

# the packages of the tools: each imports only those before it
PACKAGES = ("files", "protocol", "cli", "recording", "judging", "comparing", "showing", "playing", "trying")


def read(name):
    with open(os.path.join(TOP, name), encoding="utf-8") as file:
        return file.read()


def crates():
    """The crates of crates.txt, each with those that its line lists."""
    lines = [line for line in read("crates.txt").split("\n") if line and not line.startswith("#")]
    return {re.match(r"\w+", line)[0]: line.partition(":")[2].split() for line in lines}


def says_nothing(name, tool, *words):
    ran = run(tool, *words)
    same(name, "", (ran.stdout + ran.stderr).decode())


def pages():
    """The pages list the crates in the order of crates.txt; in PROOF a law is with what it is about."""
    listed = [name for name in re.findall(r"^\| .* \| `([a-z_]*)` \| ", read("docs/PROOF.md"), re.M)
              if not name.endswith("_laws")]
    listed = [name for at, name in enumerate(listed) if not at or listed[at - 1] != name]
    same("docs/PROOF.md lists the crates in the order of crates.txt", [name for name in crates() if name in listed], listed)
    layers = read("docs/MAP.md").partition("\n## Layers")[2].partition("\n## The way")[0]
    listed = re.findall(r"^\| [a-z ]* \| `([a-z_]*)`", layers, re.M)
    same("docs/MAP.md lists the crates in the order of crates.txt", [name for name in crates() if name in listed], listed)


def listed_crates():
    """Each crate that a line of crates.txt lists is named by a file of the line's crate."""
    for name, needs in crates().items():
        text = "".join(read(path) for kind in ("rt", "antt") for part in ("src", "specs", "proofs")
                       for path in matching(f"crates/{name}/{part}/**/*.{kind}"))
        for listed in needs:
            if not re.search(rf"\b{listed}(::|\.)", text):
                fail("crates.txt", f"no file of {name} names {listed}")


def upkeep():
    """What tools of the repository find."""
    says_nothing("no new name is defined in two crates", "repo/names", "--check")
    says_nothing("no lemma is without a use", "repo/dead", "--check")
    says_nothing("no law is in the way of the program", "repo/dead", "--laws")
    says_nothing("no public call is without a caller and a row", "repo/dead", "--calls")
    says_nothing("the crates have what docs/PROOF.md names", "repo/indexes")
    ran = subprocess.run([os.path.join(TOP, "tests/answers"), "--check"], capture_output=True, check=False, timeout=LONGEST)
    same("examples/answers.jsonl is what the tests say", (0, b"", b""), (ran.returncode, ran.stdout, ran.stderr))


def english():
    """What a native reader stumbles over is counted: of a page its prose, of a source its comments."""
    page = f"It is told where it is cut, and says where it is.\n\n```\ntold\n```\n{'one ' * 36}.\n".encode()
    with tempfile.TemporaryDirectory() as folder:
        written(folder, **{"page.md": page, "source.rt": b"// A further `further` place.\nlet further = place;\n"})
        counted = run("repo/english", "--in", folder, "page.md", "source.rt").stdout.decode().splitlines()[1:-1]
        same("words are counted in prose and comments", [["52", "1", "1", "0", "1", "page.md"],
             ["9", "0", "1", "1", "0", "source.rt"]], [line.split() for line in counted])
        listed = run("repo/english", "--in", folder, "--list", "source.rt").stdout.decode().splitlines()
        same("a word is listed with what to write", "source.rt:1: further: another, more", listed[0])


def instructions():
    """A command takes no more instructions, misses of a cache and memory than its bounds, of each kind of traffic and each
    work, if they can be counted here. Programs that are not built are left out."""
    program = built_program()
    if not shutil.which("valgrind"):
        skip("valgrind is not installed")
    ran = subprocess.run([os.path.join(TOP, "bench/run"), "instructions", "--check", program], capture_output=True,
                         check=False, timeout=LONGEST)
    counted = [line.partition(":")[0] for line in ran.stdout.decode().splitlines()]
    wanted = [f"{kind} {work}" for kind in ("generated", "cache")
              for work in ("run", "run misses", "both", "check", "run memory", "check memory")]
    wanted += [f"recorded {name}" for name in ("linear", "judge") if f": {name} is not built".encode() not in ran.stderr]
    same("the instructions of a command", (0, wanted), (ran.returncode, counted))


def sources():
    """The Python sources of the repository."""
    named = [path for folder in ("tools", "tests", "bench") for path in glob.glob(f"{TOP}/{folder}/**/*", recursive=True)
             if os.path.isfile(path) and not os.path.islink(path)]
    return [path for path in named if path.endswith(".py") or is_script(path)]


def is_script(path):
    with open(path, "rb") as file:
        return file.read(30).startswith((b"#!/usr/bin/env python3", b"#!/bin/sh\n''':'"))


def flakes():
    """pyflakes finds nothing in any Python source."""
    checker = shutil.which("pyflakes3") or shutil.which("pyflakes")
    if not checker:
        skip("pyflakes is not installed (Debian: pyflakes3)")
    ran = subprocess.run([checker, *sources()], capture_output=True, check=False, timeout=LONGEST, cwd=TOP)
    same("what pyflakes finds", (0, ""), (ran.returncode, (ran.stdout + ran.stderr).decode()))


def old_pythons():
    """Each Python source has the grammar of the oldest Python, which reads no annotation when it runs."""
    for path in sources():
        with open(path, encoding="utf-8") as file:
            text = file.read()
        try:
            tree = ast.parse(text, feature_version=LEAST)
        except SyntaxError as error:
            fail(path, str(error))
            continue
        same(f"{path}: with annotations, it has `from __future__ import annotations`", True,
             "\nfrom __future__ import annotations\n" in text or not any(map(is_annotated, ast.walk(tree))))


def is_annotated(node):
    is_argument = isinstance(node, ast.arg) and node.annotation
    return isinstance(node, ast.AnnAssign) or is_argument or bool(getattr(node, "returns", None))


def packages():
    """Packages are imported one way only: none imports one that comes after it."""
    same("all packages are listed", sorted(PACKAGES), sorted(
        os.path.basename(os.path.dirname(path)) for path in glob.glob(f"{TOP}/tools/zygos_tools/*/__init__.py")))
    for at, name in enumerate(PACKAGES):
        for path in glob.glob(f"{TOP}/tools/zygos_tools/{name}/**/*.py", recursive=True):
            imported = re.findall(r"^ *(?:from|import) zygos_tools(?:\.| import )(\w+)", read(path), re.M)
            same(f"{path}: imports of later packages", set(), set(imported) & set(PACKAGES[at + 1 :]))


def types():
    """mypy finds nothing in any package, in its strict mode."""
    if not shutil.which("mypy"):
        skip("mypy is not installed (Debian: mypy)")
    words = [word for name in PACKAGES for word in ("-p", f"zygos_tools.{name}")]
    ran = subprocess.run(["mypy", "--strict", "--python-version", "%d.%d" % LEAST, "--no-error-summary", "--cache-dir", "/dev/null", *words], check=False,
                         capture_output=True, timeout=LONGEST, cwd=os.path.join(TOP, "tools"))
    places = tuple(f"zygos_tools/{name}/" for name in PACKAGES)
    found = [line for line in (ran.stdout + ran.stderr).decode().splitlines() if line.startswith(places)]
    same("what mypy finds", [], found)


# scripts of a gate, with what they count and what is said of them
SCRIPTS = (
    ("echo left out: one; echo 3 passed, 0 failed, 1 skipped", (3, 0, 1), ""),
    ("echo 2 passed, 1 failed, 0 skipped; exit 1", (2, 1, 0), ""),
    ("echo half", (0, 1, 0), "ended early, without its counts, with status 0"),
    ("kill -9 $$", (0, 1, 0), "ended early, without its counts, with status -9"),
    ("echo 9 passed, 0 failed, 0 skipped; exit 3", (9, 1, 0), "ended with status 3, after its counts"),
    ("sleep 100000 & echo 1 passed, 0 failed, 0 skipped", (1, 0, 0), ""),
)


def gates():
    """The gate's last line counts all, whatever its scripts do; none of what these start is left."""
    gate = os.path.join(TOP, "tests/gate")
    with tempfile.TemporaryDirectory() as folder:
        paths = [written(folder, **{f"script{at}": b"#!/bin/sh\n%s\n" % text.encode()})[f"script{at}"]
                 for at, (text, _, _) in enumerate([*SCRIPTS, ("sleep 100000", (), "")])]
        for path in paths:
            os.chmod(path, 0o755)
        for path, (_, counts, why) in zip(paths, SCRIPTS):
            ran = subprocess.run([gate, path], capture_output=True, check=False, timeout=LONGEST)
            lines = ran.stdout.decode().splitlines()
            wanted = [*([f"tests/gate: {path}: {why}"] if why else []), "{} passed, {} failed, {} skipped".format(*counts)]
            same("the last line", (int(counts[1] > 0), wanted), (ran.returncode, lines[-len(wanted) :]))
        ok, hung, none = paths[0], paths[-1], os.path.join(folder, "none")
        same("a script that does not end, and one that is not there", "0 passed, 2 failed, 0 skipped",
             subprocess.run([gate, "--seconds", "1", hung, none], capture_output=True, check=False,
                            timeout=LONGEST).stdout.decode().splitlines()[-1])
        with subprocess.Popen([gate, ok, hung, ok], stdout=subprocess.PIPE, text=True) as process:
            for line in process.stdout:
                if line == f"== {hung}\n":
                    break
            process.terminate()
            same("the last line of a gate that a signal ends", "3 passed, 2 failed, 1 skipped",
                 process.stdout.read().splitlines()[-1])


Tests = cases(pages, listed_crates, upkeep, english, instructions, flakes, old_pythons, packages, types, gates)

if __name__ == "__main__":
    unittest.main()
