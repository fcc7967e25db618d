"""Tests ./zygos, tools/build, tools/repo/cost and tools/repo/chain in a small repository whose rt is a stand-in, and that words
which ./zygos and the scripts of bench do not know start no proof."""
import os
import shutil
import subprocess
import tempfile
import unittest

from checks import LONGEST, TOP, cases, run, same
from traffic import until

# a stand-in of rt, which notes what it is called for; the proofs of `ci` go on while there is a file `hold`, until somebody
# has heard the answer, or the tests have ended
RT = """#!/usr/bin/env bash
[ "$1" != version ] || { echo kit; exit; }
make() { mkdir -p "$1/out"; printf '#!/bin/sh\\necho "$@"\\ncat\\n' >"$1/out/${1##*/}"; chmod +x "$1/out/${1##*/}"; }
printf '%s in %s\\n' "$*" "${PWD##*/}" | sed 's/[a-z]*[.].*/a copy/' >>"$made/order"
[ "$1" != ci ] || printf 'crates: %s\\n' "$(paste -s -d ' ' crates.txt)" >>"$made/order"
[ "$1" != ci ] || for main in crates/*/src/main.rt; do make "${main%/src/*}"; done
[ "$1" != all ] || mkdir -p out/incremental
[ "$1" != run ] || make "$PWD"
[ "$1" != ci ] || { printf '== low\\nlogic=proved functions=1\\nrt: low proved\\n'; }
while [ "$1" = ci ] && [ -e "$made/hold" ] && [ ! -e "$made/heard" ] && kill -0 "$tests" 2>/dev/null; do
    sleep 0.1
done
if [ "$1" = try ]; then
    echo "${@:3}"
    cat
    printf 'said\\nchecked: ended 0\\nrun=ended status=0\\n' >&2
fi
"""
# one whose proofs fail, and one that only notes what it is called for
FAILING = """#!/usr/bin/env bash
[ "$1" != version ] || { echo kit; exit; }
[ "$1" != try ] || { echo "run=ended 0" >&2; exit; }
printf '%s\\n' '== low' 'logic=proved functions=1' 'rt: low proved' '== high' 'src/lib.rt:7:5: error: value' \\
    'logic=not-proved' 'rt: high NOT PROVED'
exec sleep 600
"""
NOTING = """#!/usr/bin/env bash
printf '%s %s\\n' "$*" "${PWD##*/}" >>"$made/order"
"""
# one that rejects each wrong body, unless there is a file `accepts`
REJECTING = """#!/usr/bin/env bash
echo "$*: $(find . -name '*.edit') beside $(paste -s -d ' ' crates.txt)"
[ ! -e "$made/accepts" ]
"""
SUM = """#!/usr/bin/env bash
[ $# = 0 ] || echo summed >>"$made/order"
PATH=${PATH#*:} exec sha256sum "$@"
"""
# zygos WORD ..: what it prints, then what it has started, line by line; and the same with a text on standard input
SHELL = """
PATH=$made/bin:$PATH
zygos() {
    rm -f "$made/order"
    "$made/zygos" "$@" 2>&1 </dev/null | sed '/: proving and/d; s/: [0-9]*:.. elapsed, .*/: elapsed/'
    sed 's/ --jobs [0-9]*//' "$made/order" 2>/dev/null
}
zygos_on() {
    rm -f "$made/order"
    printf '%s' "$1" | "$made/zygos" "${@:2}" 2>&1 | sed '/: proving and/d; s/: [0-9]*:.. elapsed, .*/: elapsed/' | tr '\\n' '|'
    sort "$made/order" | tr '\\n' '|'
}
"""
COPIED = "ci in a copy|crates: zygos: high low high: low low: std|"
LOW = "zygos: low is proved, 1 of 3: elapsed|"
USAGE = "zygos: usage: zygos run|check|gen|self|pcap|report [options]; ./zygos help says more"


class Repository:
    """A small repository in a folder: the crates low, high, other and zygos."""

    def __init__(self, folder):
        self.folder = folder
        self.kept = os.path.join(folder, "crates/low/out/incremental/kept")
        for name in (self.kept, *(os.path.join(folder, name) for name in ("out", "bin", "crates/high", "crates/other", "crates/zygos"))):
            os.makedirs(name)
        self.write("crates.txt", "low: std\nhigh: low\nother: low\nzygos: high low\n")

    def path(self, name):
        return os.path.join(self.folder, name)

    def write(self, name, text, mode=0o644):
        os.makedirs(os.path.dirname(self.path(name)), exist_ok=True)
        with open(self.path(name), "w", encoding="utf-8") as file:
            file.write(text)
        os.chmod(self.path(name), mode)

    def shell(self, script, begin=SHELL):
        """What a script prints, which has the folder as $made; without the ends of the last lines."""
        ran = subprocess.run(["bash", "-c", begin + script], cwd=TOP, stdin=subprocess.DEVNULL, stdout=subprocess.PIPE,
                             env=self.environment(), timeout=LONGEST, check=False)
        return ran.stdout.decode().rstrip("\n")

    def environment(self):
        return dict(os.environ, made=self.folder, tests=str(os.getpid()))

    def says(self, name, wanted, script):
        same(name, wanted, self.shell(script))

    def furnish(self):
        """Puts in what ./zygos and tools/build need, and the stand-in of rt."""
        self.write("crates.txt", "low: std\nhigh: low\n# program\nzygos: high low\n")
        for name in ("crates/low", "crates/high", "crates/zygos/src"):
            os.makedirs(self.path(name), exist_ok=True)
        self.write("crates/zygos/src/main.rt", "")
        for name in ("zygos", "HANDLES"):
            shutil.copy2(os.path.join(TOP, name), self.path(name))
        os.makedirs(self.path("tools"), exist_ok=True)
        shutil.copy2(os.path.join(TOP, "tools/build"), self.path("tools/build"))
        for name in ("repo", "zygos_tools"):
            shutil.copytree(os.path.join(TOP, "tools", name), self.path(f"tools/{name}"))
        self.write("tools/repo/shares.txt", "low 30\nhigh 30\nzygos 30\n")
        self.write("bin/rt", RT, 0o755)
        self.write("bin/sha256sum", SUM, 0o755)


def in_repository(part):
    """A part of a test that has a small repository."""
    def carried_out():
        with tempfile.TemporaryDirectory() as folder:
            part(Repository(folder))

    carried_out.__name__ = part.__name__
    carried_out.__module__ = part.__module__
    return carried_out


# ---- wrong bodies


@in_repository
def wrong_bodies(one):
    """tests/try-wrong tries the edits of crates that changed, in a copy with the crates below; --verify names such crates."""
    one.furnish()
    for name in ("try-wrong", "checks.py", "forked.py", "zygos_tools.py"):
        os.makedirs(one.path("tests"), exist_ok=True)
        shutil.copy2(os.path.join(TOP, "tests", name), one.path(f"tests/{name}"))
    one.write("bin/rt", REJECTING, 0o755)
    one.write("crates/low/src/lib.rt", "low\n")
    one.write("crates/high/src/lib.rt", "one + 1\n")
    one.write("tests/wrong/high/adds_two.edit", "file: src/lib.rt\nold: + 1\nnew: + 2\n")
    changed = "tests/try-wrong: high changed since its wrong bodies were tried: tests/try-wrong high"
    tried = "== high: 1|must-fail high: ./crates/high/must-fail/adds_two.edit beside low: std high: low"

    def says(name, wanted, words=""):
        script = f"PATH=$made/bin:$PATH; \"$made/tests/try-wrong\" {words} 2>&1"
        same(name, wanted, one.shell(script, "").replace("\n", "|"))

    says("a crate that was never tried", f"{changed}|0 passed, 1 failed, 0 skipped", "--verify")
    one.write("accepts", "")
    says("a wrong body that is accepted", f"{tried}|0 passed, 1 failed, 0 skipped")
    os.remove(one.path("accepts"))
    says("one that is rejected", f"{tried}|1 passed, 0 failed, 0 skipped")
    says("it was tried", "1 passed, 0 failed, 0 skipped", "--verify")
    says("no crate changed", "0 passed, 0 failed, 0 skipped")
    says("all are tried again", f"{tried}|1 passed, 0 failed, 0 skipped", "--all high")
    one.write("crates/low/src/lib.rt", "lower\n")
    says("a crate below does not count", "1 passed, 0 failed, 0 skipped", "--verify")
    one.write("crates/high/src/lib.rt", "one\n")
    says("a changed crate, and an edit that does not fit",
         f"tests/try-wrong: tests/wrong/high/adds_two.edit: src/lib.rt has not once: + 1|{changed}|0 passed, 1 failed, 0 skipped", "--verify")
    says("a crate without wrong bodies", "tests/try-wrong: low has no wrong body in tests/wrong", "low")


# ---- what proofs cost


@in_repository
def costs(one):
    """tools/repo/cost ranks functions, and tools/repo/chain finds the longest way through crates.txt."""
    one.write("crates/low/out/incremental/kept/Rattle-low-proofs.part.small.Lts.oantt", "std_alloc::vec::Vec::drop " * 8)
    one.write("crates/low/out/incremental/kept/Rattle-low-proofs.part.large.Lts.oantt", "\0" * 20000)
    one.write("out/cost", "low 2026-01-02 10 4 6.5\n")
    one.says("functions are ranked by what was made of them", " 0.02 0 low part.large| 0.00 2 low part.small|",
             "tools/repo/cost --in \"$made\" | sed -n 2,3p | tr -s ' ' | tr '\\n' '|'")
    one.says("the gate proves a library with tests twice", " 0.0 10 4 6 30 low 2026-01-02| 0.0 10 4 6 30 all|",
             "tools/repo/cost --in \"$made\" | tail -n 2 | tr -s ' ' | tr '\\n' '|'")
    one.says("a reader may go away", "", "{ tools/repo/cost --in \"$made\" | true; } 2>&1")
    for name in ("high", "other", "zygos"):
        os.makedirs(one.path(f"crates/{name}/out/incremental"))
    one.write("crates/zygos/out/built.times", "low 10\nhigh 20\nother 8\nzygos 2\n")
    one.write("crates.txt", "low: std\nhigh: low\n#other: low\nzygos: high low\n")
    one.says("the chain is the longest way through crates.txt",
             " 10 31.2% low over a 12th| 20 62.5% high over a 12th| 2 6.2% zygos| 32 100.0% the chain, of 32 seconds||",
             "tools/repo/chain --in \"$made\" | sed -n 2,6p | tr -s ' ' | tr '\\n' '|'")
    one.write("crates.txt", "low: std\nhigh: low\nother: low\nzygos: high low other\n")
    one.says("a crate beside the chain has time to spare", " 8 noted 0.0 18 12 other; low|",
             "tools/repo/chain --in \"$made\" | grep 'other; low' | tr -s ' ' | tr '\\n' '|'")
    one.says("what is not noted is 2 seconds a megabyte", " 0 size 0.0 0 0 low; -|",
             "tools/repo/chain --by size --in \"$made\" | grep ' low; -' | tr -s ' ' | tr '\\n' '|'")
    one.says("names that no file has are found",
             "needless words of crates.txt: low: std, high: low, other: low, zygos: high, zygos: low, zygos: other",
             "tools/repo/chain --in \"$made\" | tail -n 1")


@in_repository
def watched(one):
    """What a check takes is noted while it runs."""
    noted = one.path("crates/zygos/out/built.times")
    busy = subprocess.Popen(["bash", "-c", "exec -a rattle bash -c 'while :; do :; done' it --crate-name low"],
                            cwd=one.path("crates/low"))
    watching = subprocess.Popen([os.path.join(TOP, "tools/repo/chain"), "--in", one.folder, "--watch"])
    try:
        def is_noted():
            if not os.path.exists(noted):
                return False
            with open(noted, encoding="utf-8") as file:
                return file.read().startswith("low ")

        until("what a check takes is noted", is_noted)
    finally:
        for process in (busy, watching):
            process.kill()
            process.wait()


@in_repository
def measured(one):
    """A crate is measured above its libraries, in three parts."""
    one.furnish()
    one.write("bin/rt", NOTING, 0o755)
    for name in ("src", "must-fail", "out/incremental"):
        os.makedirs(one.path(f"crates/high/{name}"))
    one.write("crates/high/src/tests.rt", "#[test]\n")
    one.write("crates/low/out/incremental/kept/Rattle-low-proofs.part.large.Lts.oantt", "\0" * 20000)
    one.write("out/cost", "low 2026-01-02 10 4 6.5\n")
    one.says("a crate is measured above its libraries, in three parts",
             "high|lib low|check high|check --jobs 1 high|check --test --jobs 1 high|must-fail --anew high top|",
             "{ tools/repo/cost --in \"$made\" --measure high | cut -d : -f 1 && cat \"$made/order\"; } |"
             " sed \"s/ ${made##*/}\\$/ top/\" | tr '\\n' '|'")
    one.says("what was measured is kept, and so is the work of checks", "low high|Rattle-low-proofs.part.large.Lts.oantt",
             "echo \"$(cut -d ' ' -f 1 \"$made/out/cost\" | paste -s -d ' ')|$(cd \"$made/crates/low/out/incremental/kept\" &&"
             " echo *large*)\"")


# ---- words that prove nothing


@in_repository
def wrong_words(one):
    """What ./zygos says of words that it does not know, and its page of help."""
    one.furnish()
    for words, line in (
        ("rnu", "rnu: no such command"), ("run --core 4", "run: unknown option --core; did you mean --cores?"),
        ("run --sharding=4", "run: unknown option --sharding"), ("gen --commandss 4", "gen: unknown option --commandss; did you mean --commands?"),
        ("gen -x", "gen: unknown option -x"),
        ("check --shards", "check: --shards has no value"), ("try rnu", "rnu: no such command"), ("try", "no such command"),
        ("build all", "build: all: it takes --keep or --sum, or no word"), ("linear --cores 2", "linear: unknown option --cores"),
        ("linear my.cap", "linear: my.cap: files come on standard input, as in ./zygos linear < FILE"),
        ("run --cores 1 my.cap", "run: my.cap: files come on standard input, as in ./zygos run < FILE"),
        ("run --cores 65", "run: --cores is a number from 1 to 64, not 65"),
        ("run --threads=abc", "run: --threads is a number from 1 to 64, not abc"),
        ("check --shards 00000000016", "check: --shards is a number from 1 to 256, not 00000000016"),
        ("run --rest=", "run: --rest is a number from 0 to 1000000, not nothing"),
        ("run --out journal", "run: --out is replies or both, not journal"),
        ("run --cores 1 --cores 2", "run: --cores is given twice"),
        ("run --threads 8 --order 5", "run: --order is for one thread, as with --threads 1"),
        ("gen --conns 4096 --commands 245", "gen: --conns times --commands is at most 1000000, not 1003520"),
    ):
        one.says(f"words that prove nothing: {words}", f"zygos: {line}|{USAGE}|", f"zygos {words} | tr '\\n' '|'")
    page = one.shell("./zygos help")
    for words in ("help", "--help", "run --help", "check --shards 2 -h", "build --help", "try run --help"):
        one.says(f"a page of help and no proof: {words}", page, f"zygos {words}")


# what each script of bench measures
SCRIPTS = ("check crowd instructions pairs report scale serve simulate tail shard frames parse capture journal pcap store"
           " shuffle hold home").split()


def says(name, ran, status, line):
    """A command has ended with this status, and a line that begins like this."""
    same(name, (status, line.encode()), (ran.returncode, ran.stderr[: len(line)]))


@in_repository
def benches(one):
    """Words of the scripts of bench prove nothing: rt is not started."""
    one.furnish()
    def bench(*words):
        return run("../bench/run", *words, environment={**one.environment(), "PATH": f"{one.path('bin')}:{os.environ['PATH']}"})

    for what in SCRIPTS:
        ran = bench(what, "--help")
        same(f"bench/run {what} --help", (0, True), (ran.returncode, f"usage: bench/run {what}\n".encode() in ran.stdout or
                                                    f"usage: bench/run {what} ".encode() in ran.stdout))
        says(f"an unknown word of bench/run {what}", bench(what, "--what"), 2,
             f"bench/run {what}: unrecognized arguments: --what; --help says more\n")
    for what in ("shard", "scale"):
        says(f"a program of bench/run {what} that isn't there", bench(what, "/no/program"), 1,
             f"bench/run {what}: /no/program: no program\n")
    says("what bench/run does not know", bench("rnu"), 2, "bench/run: rnu: not known, but one of:")
    same("the scripts of bench proved nothing", False, os.path.exists(one.path("order")))


# ---- ./zygos and tools/build


@in_repository
def builds(one):
    """When ./zygos builds, and when it does not."""
    one.furnish()
    one.says("the program is proved with all that it uses in a copy, and built", f"{LOW}check|summed|{COPIED}",
             "zygos check | tr '\\n' '|'")
    one.says("a program that is built starts at once", "check --shards=2|", "zygos check --shards=2 | tr '\\n' '|'")
    for words, given in (
        ("run --cores=2", "run --cores=2 --rest 1"), ("run --rest 7", "run --rest 7"), ("self --rest=0", "self --rest=0"),
        ("gen", "gen"), ("self --threads 4", "self --threads 4 --rest 1"), ("run --cores 05", "run --cores 05 --rest 100"),
        ("run --cores 8 --threads 2", "run --cores 8 --threads 2 --rest 1"),
    ):
        one.says(f"idle cores sleep unless the words say otherwise: {words}", given, f"zygos {words}")
    os.makedirs(one.path("crates/low/src"))
    one.says("a newer file is summed", "check|summed|", "zygos check | tr '\\n' '|'")
    one.says("and once only", "check|", "zygos check | tr '\\n' '|'")
    one.shell("touch -d yesterday \"$made/crates/low/src/lib.rt\"")
    one.says("a changed source is proved, whatever time it has", f"{LOW}check|summed|summed|summed|{COPIED}",
             "zygos check | tr '\\n' '|'")
    one.says("a program is confirmed by its sum", "zygos: dist/ does not have it; tools/release makes it",
             "\"$made/tools/build\" zygos --confirm 2>&1")
    one.shell("echo >>\"$made/crates/zygos/out/zygos\"")
    one.says("and another program of the same sources is not", "another program",
             "\"$made/tools/build\" zygos --confirm 2>&1 | grep -o 'another program'")
    one.says("another program in its place is proved again", f"{LOW}check|summed|{COPIED}", "zygos check | tr '\\n' '|'")
    one.says("the sums of what is built are printed", "sources|rt kit|program",
             "zygos build --sum | sed 's/ [0-9a-f]\\{64\\}$//' | paste -s -d '|'")
    os.unlink(one.path("crates/low/src/lib.rt"))
    answers_before_proofs(one)
    one.says("with --keep it is proved in its folder", "summed|all check in zygos|run in zygos|",
             "zygos build --keep | tr '\\n' '|'")
    one.shell("touch \"$made/crates/low/src/lib.rt\"")
    one.says("and then so again", "check|summed|summed|summed|all check in zygos|run in zygos|", "zygos check | tr '\\n' '|'")
    shutil.rmtree(one.path("crates/zygos/out/incremental"))
    failing(one)


def answers_before_proofs(one):
    """What is not built answers without proofs first; both answers are compared."""
    one.says("what is not built answers without proofs, and once more",
             "said|run --rest 1|abc|zygos: this answer is not proved yet: it is given again when all is proved, and compared|"
             f"{LOW}zygos: all is proved, and the proved program's answer is the same, 17 bytes|{COPIED}",
             "zygos_on 'abc\n' run | sed 's/try -- run --rest 1 in zygos|//; s/summed|//g'")
    os.unlink(one.path("out/zygos.built"))
    os.unlink(one.path("crates/zygos/out/zygos"))
    one.write("hold", "")
    with tempfile.TemporaryFile() as given:
        given.write(b"abc\n")
        given.seek(0)
        environment = one.environment()
        environment["PATH"] = one.path("bin") + ":" + environment["PATH"]
        with subprocess.Popen([one.path("zygos"), "run"], stdin=given, stdout=subprocess.PIPE, stderr=subprocess.DEVNULL,
                              env=environment) as process:
            said = process.stdout.read()
            same("that answer ends before the proofs do", (b"run --rest 1\nabc\n", False),
                 (said, os.path.exists(one.path("crates/zygos/out/zygos"))))
            one.write("heard", "")
    os.unlink(one.path("hold"))


@in_repository
def two_programs(one):
    """./zygos builds zygos or linear, with the crates that it needs, and no other."""
    one.furnish()
    for name in ("times", "linear"):
        one.write(f"crates/{name}/src/{'main' if name == 'linear' else 'lib'}.rt", "")
    one.write("crates.txt", "low: std\nhigh: low\ntimes: low\n# program\nzygos: high low\nlinear: times low\n# laws\nhigh_laws: high\n")
    one.write("tools/repo/shares.txt", "low 30\nhigh 30\ntimes 30\nlinear 30\nzygos 30\n")
    linear, zygos = "linear: times low times: low", "zygos: high low high: low low: std"
    alone = "linear: low is proved, 1 of 3: elapsed|"
    copied = f"ci in a copy|crates: {linear} low: std|"
    one.says("linear is proved with its crates", f"{alone}--shards=2|summed|{copied}", "zygos linear --shards=2 | tr '\\n' '|'")
    one.says("zygos with its own", f"{LOW}report|summed|ci in a copy|crates: {zygos}|", "zygos report | tr '\\n' '|'")
    one.says("then both start at once", "report|--shards=3|", "{ zygos report; zygos linear --shards=3; } | tr '\\n' '|'")
    one.shell('rm "$made"/out/*.built')
    one.says("a build proves one after the other", f"{LOW}{alone}summed|ci in a copy|crates: {zygos}|summed|{copied}",
             "zygos build | tr '\\n' '|'")
    one.says("both start at once again", "report|--shards=3|", "{ zygos report; zygos linear --shards=3; } | tr '\\n' '|'")
    one.write("crates/times/src/new.rt", "")
    one.says("a crate that only linear uses is no cause to prove zygos", "check|summed|", "zygos check | tr '\\n' '|'")
    one.says("but to prove linear", f"{alone}--shards=2|summed|summed|summed|{copied}", "zygos linear --shards=2 | tr '\\n' '|'")
    one.says("with --keep each is proved in its folder", "all check in zygos|run in zygos|all check in linear|run in linear|",
             "zygos build --keep | sed '/summed/d' | tr '\\n' '|'")
    one.write("crates/times/src/new.rt", "//! another")
    one.says("and then so again", "all check in linear|run in linear|", "zygos build | sed '/summed/d' | tr '\\n' '|'")
    one.says("without a proof, in its own folder", "zygos: running the program without any proof|said|--shards 5|try -- --shards 5 in linear|",
             "zygos try linear --shards 5 | sed '/summed/d' | tr '\\n' '|'")


def failing(one):
    """Where a proof fails, its faults are printed, and no other proof is awaited."""
    one.write("bin/rt", FAILING, 0o755)
    one.shell("touch \"$made/crates/low/src/new.rt\"")
    one.says("where a proof fails, its faults are printed",
             f"{LOW}zygos: high is not proved:|src/lib.rt:7:5: error: value|zygos: not built; built.log has all that rt printed,"
             " and README.md the version of rt that proves this source|summed|summed|",
             "zygos build | sed 's|; /.*/|; |' | tr '\\n' '|'")
    one.says("and an answer without proofs is marked",
             "zygos: NOT PROVED: do not use the answer above, as a proof of the program that gave it failed",
             "zygos_on '' run | tr '|' '\\n' | grep 'NOT PROVED:'")


Tests = cases(wrong_bodies, costs, watched, measured, wrong_words, benches, builds, two_programs)

if __name__ == "__main__":
    unittest.main()
