"""Tests how dist/ is taken, compared, made and renewed, in a small repository whose kit is a stand-in: its programs are a few
instructions, and its compiler, assembler and linker are those of cc."""
import os
import re
import shutil
import subprocess
import tempfile
import unittest

from traffic import until
from zygos_tools.repository import TOP

# a program whose status is 0 if it has no words, and else 1; with other instructions it is another program
PROGRAM = """\t.text
\t.globl main
main:
\tcmpl $1, %edi
\tjne .Lmore
\txorl %eax, %eax
\tret
.Lmore:
\tmovl $1, %eax
\tret
\t.section .note.GNU-stack,"",@progbits
"""
# rt, as a command and as the module that tools/release reads; `ci` compiles what stands in main.rt, if that is a program's
RT = """#!/usr/bin/env python3
import glob, os, subprocess, sys

KIT = os.path.dirname(os.path.dirname(os.path.realpath(__file__)))


class Crate:
    def __init__(self, name):
        self.name = name

    def words(self, flags, keeps):
        return ["--crate-name", self.name, f"src/main.rt"]


def handles_of(root):
    return ()


def crates_of(root):
    return [Crate(name) for name in os.listdir(f"{root}/crates")]


def build(folder):
    os.makedirs(f"{folder}/out", exist_ok=True)
    name, source = os.path.basename(folder), f"{KIT}/source.s"
    with open(source, "w") as file:
        file.write(open(f"{folder}/src/main.rt").read())
    for words in (["toolchain/bin/clang", "-c", source, "-o", f"{KIT}/source.o"],
                  ["bin/rattle-link", "-o", f"{folder}/out/{name}", f"{KIT}/source.o"]):
        subprocess.run([f"{KIT}/{words[0]}", *words[1:]], check=True)


if __name__ == "__main__":
    if sys.argv[1] == "version":
        print("kit-1 logic 2")
    elif sys.argv[1] == "ci":
        for main in glob.glob("crates/*/src/main.rt"):
            build(os.path.dirname(os.path.dirname(os.path.abspath(main))))
        print("== low\\nlogic=proved functions=1\\nrt: low proved")
"""
TOOLS = {
    "bin/rattle": """#!/usr/bin/env bash
for one in "$@"; do
    [ "${before:-}" != --toolchain ] || clang=$one/bin/clang
    [ "${before:-}" != -o ] || object=$one
    before=$one
done
[ ! -e "$made/slow" ] || { echo $$ >"$made/started"; exec sleep 1000; }
exec "$clang" -O3 -c src/main.rt -o "$object" -fPIE
""",
    "bin/rattle-link": """#!/usr/bin/env bash
for one in "$@"; do
    [ "${before:-}" != -o ] || program=$one
    case $one in *.o) object=$one ;; esac
    before=$one
done
exec cc -o "$program" "$object"
""",
    # as clang, it writes assembly with -S, and assembles with -c
    "toolchain/bin/clang": """#!/usr/bin/env bash
for one in "$@"; do
    case ${before:-} in -o) output=$one one= ;; esac
    case $one in -S) copies=1 ;; *.s | *.rt) source=$one ;; esac
    before=$one
done
[ -z "${copies:-}" ] || exec cp "$source" "$output"
exec cc -x assembler -c "$source" -o "$output"
""",
    "toolchain/bin/ld.lld": "",
    "toolchain/lib/libc.so.6": "",
}
# a compiler whose assembler reads no name in quotes in an instruction
OLD = """#!/bin/sh
for one in "$@"; do
    case $one in *.s) ! grep -qE '(jne|callq).*"' "$one" || exit 1 ;; esac
done
exec cc "$@"
"""


@unittest.skipUnless(shutil.which("cc"), "there is no C compiler")
class Dist(unittest.TestCase):
    """A small repository under git, with the program zygos and the crate low, and its dist/."""

    def setUp(self):
        self.room = tempfile.mkdtemp()
        self.addCleanup(shutil.rmtree, self.room)
        self.made = f"{self.room}/repository"
        shutil.copytree(f"{TOP}/tools", f"{self.made}/tools")
        for name in ("zygos", "HANDLES", ".gitignore", "VERSION", "Makefile", "dist/rt.c"):
            self.write(name, self.read(f"{TOP}/{name}"), 0o755)
        self.write("crates.txt", "# base\nlow: std\n# program\nzygos: low\n# laws\nlow_laws: low\n")
        self.write("crates/zygos/src/main.rt", PROGRAM)
        self.write("crates/low/src/lib.rt", "// low\n")
        self.write("tools/repo/shares.txt", "low 30\nzygos 30\n")
        self.write("../kit/bin/rt", RT, 0o755)
        for name, text in TOOLS.items():
            self.write(f"../kit/{name}", text, 0o755)
        os.makedirs(f"{self.room}/path")
        os.symlink(f"{self.room}/kit/bin/rt", f"{self.room}/path/rt")
        self.assertEqual((0, "tools/release: dist/zygos.s is of this source\n"), self.run_it("tools/release", skipped=2))
        self.git("init", "-q", ".")
        self.commit()

    @staticmethod
    def read(path):
        with open(path, encoding="utf-8") as file:
            return file.read()

    def write(self, name, text, mode=0o644):
        path = f"{self.made}/{name}"
        os.makedirs(os.path.dirname(path), exist_ok=True)
        with open(path, "w", encoding="utf-8") as file:
            file.write(text)
        os.chmod(path, mode)

    def git(self, *words):
        subprocess.run(["git", "-c", "user.name=a", "-c", "user.email=a@a", *words], cwd=self.made, check=True,
                       stdout=subprocess.DEVNULL)

    def commit(self):
        self.git("add", "-A")
        self.git("commit", "-q", "-m", "all")

    def run_it(self, *words, has_rt=True, skipped=0, **environment):
        """Runs a script of the repository. Returns its status and what it said, without the first lines."""
        ran = subprocess.run([f"{self.made}/{words[0]}", *words[1:]], cwd=self.made, stdin=subprocess.DEVNULL, check=False,
                             stdout=subprocess.PIPE, stderr=subprocess.STDOUT, text=True,
                             env={**self.environment(has_rt), **environment})
        return ran.returncode, "".join(ran.stdout.splitlines(True)[skipped:])

    def environment(self, has_rt=True):
        folders = [folder for folder in os.environ["PATH"].split(":") if not os.path.exists(f"{folder}/rt")]
        path = ":".join([f"{self.room}/path"] * has_rt + [*folders, "/usr/bin", "/bin"])
        return {**os.environ, "PATH": path, "TMPDIR": self.room, "made": self.made}

    def mend(self, old, new):
        """Changes the assembly of dist/, and its sum to what it is then."""
        text = self.read(f"{self.made}/dist/zygos.s")
        self.assertEqual(1, text.count(old))
        self.write("dist/zygos.s", text.replace(old, new))
        ran = subprocess.run(["sha256sum", "dist/zygos.s"], cwd=self.made, stdout=subprocess.PIPE, text=True, check=True)
        sums = self.read(f"{self.made}/dist/zygos.built")
        self.write("dist/zygos.built", re.sub(r"assembly \w+", f"assembly {ran.stdout.split()[0]}", sums))

    def prove(self):
        """Has the program built as the gate does it."""
        self.write("out/gate", "")
        os.utime(f"{self.made}/out/gate")
        ran = subprocess.run([f"{self.room}/path/rt", "ci"], cwd=self.made, stdout=subprocess.DEVNULL, check=True)
        self.assertEqual(0, ran.returncode)


class Taken(Dist):
    """./zygos without rt."""

    def test_the_program_is_assembled_once(self):
        line = ("zygos: proved elsewhere, by kit-1: assembled from dist/zygos.s, which is of this source; ./zygos build proves it"
                " here\n")
        self.assertEqual((1, line), self.run_it("zygos", "run", has_rt=False))
        self.assertEqual((1, ""), self.run_it("zygos", "check", has_rt=False))
        self.assertEqual(0, self.run_it("tools/build", "zygos", "--ask", has_rt=False)[0])

    def test_what_is_not_of_this_source_is_not_taken(self):
        no_rt = 'zygos: rt is not on PATH, so nothing can be proved here; README.md, "What is proved", says where it comes from\n'
        for name, text, why in (
            ("crates/low/src/lib.rt", "// another\n", "dist/ is not of this source: crates/low/src/lib.rt has changed since"),
            ("crates/low/src/new.rt", "", "dist/ is not of this source: crates/low/src/new.rt has changed since"),
            ("crates.txt", "low:\n# program\nzygos: low\n", "dist/ is not of this source: crates.txt has changed since"),
            ("dist/zygos.s", PROGRAM + "\n", "dist/zygos.s is not the file of which dist/zygos.built has the sum"),
        ):
            with self.subTest(name):
                self.write(name, text)
                self.assertEqual((70, f"zygos: {why}\n{no_rt}"), self.run_it("zygos", "run", has_rt=False))
                self.git("clean", "-qfd")
                self.git("checkout", "-q", ".")
        shutil.rmtree(f"{self.made}/.git")
        self.write("crates/low/src/lib.rt", "// another\n")
        self.assertEqual((70, f"zygos: dist/ is not of this source\n{no_rt}"), self.run_it("zygos", "run", has_rt=False))

    def test_a_file_of_no_program_changes_nothing(self):
        self.write("crates/low_laws/src/lib.rt", "// another\n")
        self.write("crates.txt", "# base\nlow: std\n# program\nzygos: low\n# laws\nlow_laws: low\nmore_laws: low\n")
        self.assertEqual(1, self.run_it("zygos", "run", has_rt=False)[0])

    def test_a_compiler_is_needed(self):
        said = self.run_it("zygos", "check", has_rt=False, CC="no-such-compiler")[1]
        self.assertEqual("zygos: dist/zygos.s needs a C compiler, and there is no no-such-compiler: apt-get install gcc, or set CC",
                         said.splitlines()[0])

    def test_an_older_c_library_gets_what_it_lacks(self):
        """The assembler finds out what the library has by a program of its own: without it, a second file is compiled."""
        self.write("../kit/older", "#!/bin/sh\ncase \"$*\" in *probe.c*) exit 1 ;; esac\necho \"$*\" >>\"$made/words\"\nexec cc \"$@\"\n",
                   0o755)
        self.assertEqual(1, self.run_it("zygos", "check", has_rt=False, CC=f"{self.room}/kit/older")[0])
        self.assertIn(" -pthread ", self.read(f"{self.made}/words"))
        self.assertIn(f"{self.made}/dist/rt.c {self.made}/tools/repo/older.c\n", self.read(f"{self.made}/words"))

    def test_a_compiler_that_fails_is_named(self):
        self.write("../kit/failing", "#!/bin/sh\necho it fails >&2\nexit 1\n", 0o755)
        said = self.run_it("zygos", "check", has_rt=False, CC=f"{self.room}/kit/failing")[1]
        self.assertEqual(["it fails", f"zygos: {self.room}/kit/failing does not make a program of dist/zygos.s and dist/rt.c"],
                         said.splitlines()[:2])

    def test_missing_headers_are_named(self):
        self.write("../kit/bare", "#!/bin/sh\ncase \"$*\" in -E*) ! grep -q errno ;; *) exit 1 ;; esac\n", 0o755)
        said = self.run_it("zygos", "check", has_rt=False, CC=f"{self.room}/kit/bare")[1]
        self.assertEqual("zygos: the headers of the C library are missing: apt-get install libc6-dev", said.splitlines()[1])

    def test_an_old_assembler_is_given_numbers_for_names_in_quotes(self):
        self.write("crates/zygos/src/main.rt", PROGRAM.replace(".Lmore", '"more::<#1>"'))
        self.assertEqual((0, "tools/release: dist/zygos.s is of this source\n"), self.run_it("tools/release", skipped=2))
        self.assertIn('jne "more::<#1>"', self.read(f"{self.made}/dist/zygos.s"))
        self.write("../kit/old", OLD, 0o755)
        self.assertEqual(1, self.run_it("zygos", "check", has_rt=False, CC=f"{self.room}/kit/old")[0])
        self.assertIn("origin dist\n", self.read(f"{self.made}/out/zygos.built"))

    def test_only_build_proves(self):
        self.run_it("zygos", "check")
        self.assertIn("origin dist\n", self.read(f"{self.made}/out/zygos.built"))
        self.assertEqual(0, self.run_it("zygos", "build")[0])
        self.assertNotIn("origin", self.read(f"{self.made}/out/zygos.built"))
        self.assertEqual((1, ""), self.run_it("zygos", "check"))


class Compared(Dist):
    """tools/build --confirm, and the script of the gate."""

    def confirm(self, *more):
        return self.run_it("tools/build", "zygos", "--confirm", *more)

    def test_the_program_is_the_one_that_was_proved(self):
        self.prove()
        self.assertEqual((0, ""), self.confirm())
        self.assertEqual(0, self.run_it("tools/build", "zygos", "--ask")[0])

    def test_a_changed_instruction_is_found(self):
        self.prove()
        self.mend("jne", "je")
        line = "zygos: dist/zygos.s does not give the program that rt makes of this source\n"
        self.assertEqual((1, line), self.confirm())
        # the gate counts it; the assembled program fails its test too
        shutil.copytree(f"{TOP}/tests", f"{self.made}/tests")
        self.write("tests/examples", "#!/bin/sh\nexec \"$1\"\n", 0o755)
        status, said = self.run_it("tests/gate", "tests/dist")
        self.assertEqual((1, "1 passed, 2 failed, 0 skipped"), (status, said.splitlines()[-1]))
        self.git("checkout", "-q", "dist")
        self.assertEqual("3 passed, 0 failed, 0 skipped", self.run_it("tests/gate", "tests/dist")[1].splitlines()[-1])
        self.mend("jne", "jne .Lmore\n\tje .Lless\n.Lless:\n\tjne")
        self.assertEqual("2 passed, 1 failed, 0 skipped", self.run_it("tests/gate", "tests/dist")[1].splitlines()[-1])

    def test_another_source_fails(self):
        self.write("crates/low/src/lib.rt", "// another\n")
        self.prove()
        status, said = self.confirm()
        self.assertEqual((1, "zygos: dist/ is not of this source: crates/low/src/lib.rt has changed since"), (status, said.split(";")[0]))

    def test_a_program_of_dist_is_not_compared_with_itself(self):
        self.run_it("zygos", "check", has_rt=False)
        self.assertEqual((3, "zygos: not compared with what dist/ gives, as it was itself taken from there; ./zygos build proves it\n"),
                         self.confirm())

    def test_another_kit_is_left_out(self):
        sums = self.read(f"{self.made}/dist/zygos.built")
        self.write("dist/zygos.built", sums.replace("kit-1", "kit-0"))
        self.prove()
        self.assertEqual((3, "zygos: not compared with what dist/ gives, which kit-0 logic 2 made: rt is of another kit, or not"
                             " here\n"), self.confirm())
        shutil.rmtree(f"{self.made}/dist")
        self.assertEqual((3, "zygos: dist/ does not have it; tools/release makes it\n"), self.confirm())


class Renewed(Dist):
    """tools/release."""

    def test_the_sums_are_renewed_if_the_program_is_the_same(self):
        self.write("crates/low/src/lib.rt", "// another comment\n")
        refused = ("tools/release: zygos: dist/ has not the program that is built here from this source: ./zygos build, if none"
                   " is, and then tools/release\n")
        self.assertEqual((1, refused), self.run_it("tools/release", "--sums"))
        self.prove()
        self.confirm()
        line = "tools/release: dist/zygos.built: the program is the same, and its sums are of this source\n"
        self.assertEqual((0, line), self.run_it("tools/release", "--sums"))
        self.assertEqual((0, ""), self.confirm())
        self.assertEqual((0, line), self.run_it("tools/release"))

    def confirm(self):
        return self.run_it("tools/build", "zygos", "--confirm")

    def test_another_program_is_made_anew(self):
        self.write("crates/zygos/src/main.rt", PROGRAM.replace("$1, %eax", "$2, %eax"))
        self.prove()
        self.confirm()
        before = self.read(f"{self.made}/dist/zygos.built")
        self.assertEqual(1, self.run_it("tools/release", "--sums")[0])
        self.assertEqual(before, self.read(f"{self.made}/dist/zygos.built"))
        self.assertEqual((0, "tools/release: dist/zygos.s is of this source\n"), self.run_it("tools/release", skipped=2))
        self.assertIn("$2, %eax", self.read(f"{self.made}/dist/zygos.s"))
        self.assertEqual((0, ""), self.confirm())

    def test_one_of_dist_is_no_reason_to_renew(self):
        self.run_it("zygos", "check", has_rt=False)
        self.assertEqual(1, self.run_it("tools/release", "--sums")[0])

    def test_a_signal_ends_what_it_started(self):
        self.write("crates/zygos/src/main.rt", PROGRAM.replace("$1, %eax", "$2, %eax"))
        self.write("slow", "")
        with subprocess.Popen([f"{self.made}/tools/release"], env=self.environment(), stdout=subprocess.DEVNULL,
                              stderr=subprocess.DEVNULL) as ran:
            until("rattle has started", lambda: os.path.exists(f"{self.made}/started") and self.read(f"{self.made}/started"))
            ran.terminate()
        self.assertEqual(130, ran.returncode)
        started = self.read(f"{self.made}/started").strip()
        until("rattle has ended", lambda: not os.path.exists(f"/proc/{started}"))
        self.assertEqual([], [name for name in os.listdir(self.room) if name.startswith("release.")])

    def test_a_program_that_is_not_built_leaves_dist(self):
        self.write("crates/zygos/src/main.rt", "\tno such instruction\n")
        before = self.read(f"{self.made}/dist/zygos.s")
        status, said = self.run_it("tools/release", skipped=2)
        self.assertEqual((1, "tools/release: zygos is not built"), (status, said.splitlines()[0]))
        self.assertEqual(before, self.read(f"{self.made}/dist/zygos.s"))
        self.assertEqual([], [name for name in os.listdir(self.room) if name.startswith("release.")])


class Versions(Dist):
    """--version, in the repository."""

    def test_it_says_where_the_program_was_proved(self):
        version = self.read(f"{TOP}/VERSION").strip()
        source = self.read(f"{self.made}/dist/zygos.built")[8:24]
        for command, place in (("", "elsewhere"), ("check", "elsewhere"), ("build", "here")):
            if command:
                self.run_it("zygos", command)
            line = f"zygos: source {source}, kit-1, proved {place}\n"
            self.assertEqual((0, f"zygos {version}\n{line}"), self.run_it("zygos", "--version"))
            self.assertEqual((0, f"tools/show of zygos {version}\n{line}"), self.run_it("tools/show", "--version"))
        self.write("crates/low/src/lib.rt", "// another\n")
        self.assertEqual((0, f"zygos {version}\nzygos: not built from this source\n"), self.run_it("zygos", "--version"))
        for tool in ("build", "release"):
            self.assertEqual((0, f"tools/{tool} of zygos {version}\n"), self.run_it(f"tools/{tool}", "--version"))


@unittest.skipUnless(shutil.which("make"), "make is not installed")
class Installed(Dist):
    """make, and the archive of tools/release."""

    def command(self, at, *words):
        ran = subprocess.run([f"{at}/bin/{words[0]}", *words[1:]], stdin=subprocess.DEVNULL, stdout=subprocess.PIPE, check=False,
                             stderr=subprocess.STDOUT, text=True)
        return ran.returncode, ran.stdout

    def check_copy(self, at):
        """An installed copy has the program, the tools and their pages, and names them as they are called there."""
        version, sums = self.read(f"{TOP}/VERSION").strip(), self.read(f"{self.made}/dist/zygos.built")
        line = f"zygos: source {sums[8:24]}, kit-1, proved elsewhere\n"
        self.assertEqual((0, f"zygos {version}\n{line}"), self.command(at, "zygos", "--version"))
        self.assertEqual((0, f"zygos-top of zygos {version}\n{line}"), self.command(at, "zygos-top", "--version"))
        self.assertEqual((1, ""), self.command(at, "zygos", "check"))
        self.assertEqual("zygos-top: no such option: --x; --help lists them\n", self.command(at, "zygos-top", "--x")[1])
        self.assertEqual("zygos: top: no such command, but a tool: zygos-top --help", self.command(at, "zygos", "top")[1].split("\n")[0])
        self.assertEqual("zygos: build: this copy is installed, and has no source to prove or to try",
                         self.command(at, "zygos", "build")[1].split("\n")[0])
        self.assertNotRegex(self.command(at, "zygos-judge", "--help")[1], r"(?<!/)tools/[a-z]+\b(?!/)|\./zygos")
        self.assertIn("usage: zygos run", self.command(at, "zygos", "help")[1])
        self.assertRegex(self.read(f"{at}/share/man/man1/zygos-judge.1"), r'(?m)^\.TH ZYGOS-JUDGE 1 "" "zygos .*"\n\.SH NAME\n')

    def test_make_installs_below_its_prefix(self):
        ran = subprocess.run(["make", "-s", "install", f"DESTDIR={self.room}", "PREFIX=/usr", "PAGES=Makefile"], cwd=self.made, check=False,
                             stdout=subprocess.PIPE, stderr=subprocess.STDOUT, text=True)
        self.assertEqual((0, ""), (ran.returncode, ran.stdout))
        self.check_copy(f"{self.room}/usr")
        self.write("crates/low/src/lib.rt", "// another\n")
        os.utime(f"{self.made}/dist/zygos.s")
        ran = subprocess.run(["make"], cwd=self.made, check=False, stdout=subprocess.PIPE, stderr=subprocess.STDOUT, text=True)
        self.assertEqual("zygos: dist/ is not of this source: crates/low/src/lib.rt has changed since", ran.stdout.splitlines()[0])

    def test_the_archive_runs_where_it_is_unpacked(self):
        for name in ("README.md", "LICENSE", "NOTICE", "docs/PAGE.md", "examples/one"):
            self.write(name, "text\n")
        status, said = self.run_it("tools/release", "--tar")
        self.assertEqual((0, "is made"), (status, said.strip()[-7:]))
        name = f"zygos-{self.read(f'{TOP}/VERSION').strip()}-x86_64-linux"
        kind = "xz" if shutil.which("xz") else "gz"
        subprocess.run(["tar", "-C", self.room, "-xf", f"{self.made}/out/{name}.tar.{kind}"], check=True)
        self.assertIn("bin/zygos-judge --check", self.read(f"{self.room}/{name}/README"))
        # what Python compiles depends on the times of files, and changes when a tool is first run
        self.assertNotIn("__pycache__", self.read(f"{self.room}/{name}/SHA256SUMS"))
        self.check_copy(f"{self.room}/{name}")
        subprocess.run(["sha256sum", "--quiet", "-c", "SHA256SUMS"], cwd=f"{self.room}/{name}", check=True)

    def test_it_installs_the_tools_that_are_for_people(self):
        table = self.read(f"{TOP}/tools/README.md").partition("## For the repository")[0]
        listed = sorted(re.findall(r"(?m)^\| `([a-z]+)` \|", table))
        installed = re.search(r"(?m)^TOOLS := (.*)$", self.read(f"{TOP}/Makefile"))[1].split()
        self.assertEqual(listed, sorted(installed))


if __name__ == "__main__":
    unittest.main()
