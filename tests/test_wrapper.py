"""Tests ./zygos and tools/build with a stand-in of rt: without rt, when they are stopped, what they say to a person at a
terminal, and the time that a build says is left."""
import contextlib
import os
import pty
import random
import shutil
import signal
import subprocess
import sys
import tempfile
import time
import unittest
from unittest import mock

from zygos_tools.repository import TOP

sys.path.append(os.path.join(TOP, "tools", "repo"))
import advising
import crates
import proving

# what stands for rt: it proves nothing, and ends when it is told to, after all that it has started
HANGING = """#!/bin/bash
[ "$1" != version ] || { echo kit; exit; }
echo "$$" >>"${0%/*}/../started"
echo '== low'
trap 'echo "rt: low NOT PROVED"; exit 1' TERM
sleep 1000 &
echo "$!" >>"${0%/*}/../started"
wait
"""
# and one that makes the program: it prints one line for each command, on the stream and with the status that zygos has
MAKING = """#!/bin/bash
[ "$1" != version ] || { echo kit; exit; }
mkdir -p crates/zygos/out
cat >crates/zygos/out/zygos <<'ZYGOS'
#!/bin/bash
case $1 in
check) echo 'no not-next entry 3'; exit 1 ;;
pcap) printf 'ZYGCAP2\\n\\0\\0\\0\\0E' ;;
report) echo 'zygos: journal: form at 0' >&2; exit 3 ;;
gen) printf '%70000s' made ;;
self) kill -TERM $$ ;;
*) cat >/dev/null; echo 'zygos: capture: bad-magic at 0' >&2; exit 3 ;;
esac
ZYGOS
chmod +x crates/zygos/out/zygos
if [ -d crates/linear ]; then
    mkdir -p crates/linear/out
    printf '#!/bin/bash\\necho "no early-end record $# $*"; exit 1\\n' >crates/linear/out/linear
    chmod +x crates/linear/out/linear
fi
printf '== low\\nlogic=proved functions=1\\nrt: low proved\\n'
"""
PROGRAM, TOOLS = ("zygos", "HANDLES"), ("build",)
LONG = 3600


def is_running(process):
    """Whether a process is there, and is more than an entry of one that has ended."""
    try:
        with open(f"/proc/{process}/stat", encoding="utf-8") as file:
            return file.read().rpartition(")")[2].split()[0] != "Z"
    except OSError:
        return False


def wait_for(condition):
    """Waits until a condition holds; a test fails that waits for an hour."""
    end = time.monotonic() + LONG
    while not condition():
        if time.monotonic() > end:
            raise AssertionError(f"nothing came in {LONG} seconds")
        time.sleep(0.02)


class Wrapper(unittest.TestCase):
    """A small repository, with a stand-in of rt."""

    def setUp(self):
        self.room = tempfile.mkdtemp()
        self.addCleanup(shutil.rmtree, self.room)
        self.made, self.temporary = f"{self.room}/repository", f"{self.room}/tmp"
        for folder in ("crates/zygos/src", "crates/low/src", "tools"):
            os.makedirs(f"{self.made}/{folder}")
        for folder in (self.temporary, f"{self.room}/bin"):
            os.makedirs(folder)
        for name in PROGRAM:
            shutil.copy(f"{TOP}/{name}", self.made)
        for name in TOOLS:
            shutil.copy(f"{TOP}/tools/{name}", f"{self.made}/tools")
        for name in ("repo", "zygos_tools"):
            shutil.copytree(f"{TOP}/tools/{name}", f"{self.made}/tools/{name}")
        self.write("repository/crates.txt", "low: std\n# program\nzygos: low\n")
        self.write("repository/crates/zygos/src/main.rt", "")
        self.write("repository/tools/repo/shares.txt", "low 30\nzygos 30\n")

    def write(self, name, text):
        with open(f"{self.room}/{name}", "w", encoding="utf-8") as file:
            file.write(text)

    def stand_in(self, text):
        self.write("bin/rt", text)
        os.chmod(f"{self.room}/bin/rt", 0o755)

    def path(self):
        """A PATH with the stand-in, and without any other rt."""
        folders = [folder for folder in os.environ["PATH"].split(":") if not os.path.exists(f"{folder}/rt")]
        return ":".join([f"{self.room}/bin", *folders, "/usr/bin", "/bin"])

    def begin(self, *words, wants="", **more):
        environment = dict(os.environ, PATH=self.path(), TMPDIR=self.temporary, ZYGOS_ADVICE=wants)
        more = {"stdin": subprocess.DEVNULL, "stdout": subprocess.PIPE, "stderr": subprocess.PIPE, **more}
        return subprocess.Popen([f"{self.made}/{words[0]}", *words[1:]], env=environment, start_new_session=True, **more)

    def run_it(self, *words, **more):
        """The status, the output and what was said."""
        with self.begin(*words, **more) as ran:
            output, said = ran.communicate(timeout=LONG)
        return ran.returncode, output, (said or b"").decode()

    def at_terminal(self, *words, **more):
        """The same with a terminal as standard error."""
        ours, theirs = pty.openpty()
        with self.begin(*words, stderr=theirs, **more) as ran:
            os.close(theirs)
            output, said = ran.stdout.read(), b""
            with contextlib.suppress(OSError):
                while piece := os.read(ours, 4096):
                    said += piece
            ran.wait(LONG)
        os.close(ours)
        return ran.returncode, output, said.decode().replace("\r\n", "\n")

    def started(self):
        try:
            with open(f"{self.room}/started", encoding="utf-8") as file:
                return file.read().split()
        except OSError:
            return []


class WithoutRt(Wrapper):
    def test_it_says_where_rt_comes_from_before_anything(self):
        wanted = (70, b"", 'zygos: rt is not on PATH, so nothing can be proved here; README.md, "What is proved", says where it comes from\n')
        for words in (("zygos", "run"), ("zygos", "check"), ("zygos", "build"), ("zygos", "try", "run"),
                      ("tools/build", "zygos")):
            with self.subTest(words):
                self.assertEqual(wanted, self.run_it(*words))
        self.assertEqual([], os.listdir(self.temporary))


class Stopped(Wrapper):
    def stop(self, number, *words):
        """Stops a build when it runs, and gives what was said after its first line."""
        self.stand_in(HANGING)
        self.write("started", "")
        with self.begin(*words) as ran:
            wait_for(lambda: len(self.started()) >= 2)
            os.killpg(ran.pid, number)
            _, said = ran.communicate(timeout=LONG)
        self.assertEqual(130, ran.returncode)
        first, _, rest = said.decode().partition("\n")
        self.assertRegex(first, "^zygos: proving and building ")
        return rest

    def test_nothing_is_left_and_one_line_says_so(self):
        for number in (signal.SIGINT, signal.SIGTERM, signal.SIGHUP):
            for words in (("zygos", "check"), ("zygos", "build"), ("tools/build", "zygos")):
                with self.subTest(number=number, words=words):
                    self.assertEqual("zygos: stopped\n", self.stop(number, *words))
                    wait_for(lambda: not any(map(is_running, self.started())))
                    self.assertEqual([], os.listdir(self.temporary))

    def test_a_watch_ends_whose_parent_is_gone(self):
        gone = subprocess.Popen(["true"])
        gone.wait()
        status, _, said = self.run_it("tools/repo/chain", "--watch", "--until", str(gone.pid))
        self.assertEqual((0, ""), (status, said))


class Said(Wrapper):
    """What is said of commands, at a terminal and elsewhere."""

    def test_a_tool_is_no_command(self):
        shutil.copy(f"{TOP}/tools/show", f"{self.made}/tools")
        status, _, said = self.run_it("zygos", "show")
        self.assertEqual((2, "zygos: show: no such command, but a tool: tools/show --help"), (status, said.split("\n")[0]))
        for word in ("zygos_tools", "repo", "nothing"):
            self.assertEqual(f"zygos: {word}: no such command", self.run_it("zygos", word)[2].split("\n")[0])

    def test_help_that_cannot_be_written_fails(self):
        with open("/dev/full", "wb") as full:
            self.assertEqual((5, None, "zygos: writing failed\n"), self.run_it("zygos", "help", stdout=full))

    def test_a_terminal_gets_advice_after_the_line_of_the_program(self):
        self.stand_in(MAKING)
        self.assertEqual(0, self.run_it("zygos", "build")[0])
        for words, status, output, line, advice in (
            (("run",), 3, b"", "zygos: capture: bad-magic at 0\n", "zygos: this is no capture; "),
            (("check",), 1, b"no not-next entry 3\n", "", "zygos: give the capture that was served, and the --shards"),
            (("report",), 3, b"", "zygos: journal: form at 0\n", "zygos: give only a journal, "),
            (("pcap", "--port", "7"), 0, advising.NOTHING, "", "zygos: no packet goes to port 7; --port names another\n"),
            (("pcap",), 0, advising.NOTHING, "", "zygos: no packet goes to port 11211; "),
            (("gen",), 0, b"%70000s" % b"made", "", ""),
        ):
            with self.subTest(words):
                self.assertEqual((status, output, line), self.run_it("zygos", *words))
                self.assertEqual(line + advice, self.run_it("zygos", *words, wants="1")[2][: len(line + advice)])
                told, got, said = self.at_terminal("zygos", *words)
                self.assertEqual((status, output), (told, got))
                self.assertEqual(line + advice, said[: len(line + advice)])
                self.assertEqual(bool(advice) + bool(line), said.count("\n"))

    def test_the_advice_says_what_a_file_is_that_was_given(self):
        self.stand_in(MAKING)
        self.assertEqual(0, self.run_it("zygos", "build")[0])
        nothing, packets = "zygos: no packet goes to port 7, but ", f"{TOP}/examples/lost.pcap"
        for words, path, line, advice in (
            (("run",), f"{TOP}/README.md", "zygos: capture: bad-magic at 0\n", "zygos: this is no capture but text; "),
            (("run",), packets, "zygos: capture: bad-magic at 0\n", "zygos: this is no capture but recorded packets; "),
            (("run",), f"{TOP}/examples/first.replies", "zygos: capture: bad-magic at 0\n", "zygos: this is no capture but a"
             " replies file; "),
            (("pcap", "--port", "7"), packets, "", nothing + "commands go to 11211 (7 packets); --port names another\n"),
        ):
            with self.subTest(words), open(path, "rb") as given:
                said = self.at_terminal("zygos", *words, stdin=given)[2]
                self.assertEqual(line + advice, said[: len(line + advice)])

    def test_another_program_gets_its_words_and_advice(self):
        self.stand_in(MAKING)
        os.makedirs(f"{self.made}/crates/linear/src")
        self.write("repository/crates/linear/src/main.rt", "")
        self.write("repository/crates.txt", "low: std\n# program\nzygos: low\nlinear: low\n")
        self.assertEqual(0, self.run_it("zygos", "build")[0])
        for words, line in ((("linear",), b"no early-end record 0 \n"), (("linear", "--shards", "7"), b"no early-end record 2 --shards 7\n")):
            with self.subTest(words):
                self.assertEqual((1, line, ""), self.run_it("zygos", *words))
                status, output, said = self.at_terminal("zygos", *words)
                self.assertEqual((1, line, "zygos: was the capture recorded"), (status, output, said[:31]))

    def test_a_signal_that_ends_the_program_ends_the_script(self):
        self.stand_in(MAKING)
        self.assertEqual(0, self.run_it("zygos", "build")[0])
        self.assertEqual(-signal.SIGTERM, self.at_terminal("zygos", "self")[0])

    def test_ctrl_c_ends_the_script_without_a_trace_while_python_starts_for_its_advice(self):
        self.stand_in(MAKING)
        self.assertEqual(0, self.run_it("zygos", "build")[0])
        self.write("bin/python3", f"#!{sys.executable} -IS\nimport os, signal, sys\nos.kill(os.getpid(), signal.SIGINT)\n"
                   "os.execv(sys.executable, [sys.executable, *sys.argv[1:]])\n")
        os.chmod(f"{self.room}/bin/python3", 0o755)
        status, _, said = self.run_it("zygos", "report", wants="1")
        self.assertIn(status, (-signal.SIGINT, 3))  # an env that cannot let it wait has it ignored
        self.assertNotIn("Traceback", said)

    def test_an_output_that_is_full_fails_at_a_terminal_too(self):
        self.stand_in(MAKING)
        self.assertEqual(0, self.run_it("zygos", "build")[0])
        program = f"{self.made}/crates/zygos/out/zygos"
        with open("/dev/full", "wb") as full:
            ran = subprocess.run([sys.executable, f"{TOP}/tools/repo/advising.py", program, "pcap"], stdout=full,
                                 stderr=subprocess.PIPE, check=False)
        self.assertEqual((5, b"zygos: writing failed\n"), (ran.returncode, ran.stderr[:22]))


class Advice(unittest.TestCase):
    def test_each_line_of_the_program_that_says_no_has_advice(self):
        with open(f"{TOP}/docs/COMMANDS.md", encoding="utf-8") as file:
            page = file.read()
        table = page.partition("## Messages of the programs")[2].partition("\n## ")[0]
        lines = [row.split("|")[1].split("`")[1].replace("\\", "") for row in table.split("\n") if row.startswith("| `")]
        self.assertGreater(len(lines), 15)
        for line in lines:
            if not line.startswith(("yes", "commands ")):
                self.assertIsNotNone(advising.advice_on("check", line), line)

    def test_a_terminal_as_input_is_told_how_a_file_is_given(self):
        with tempfile.TemporaryDirectory() as folder:
            program = os.path.join(folder, "linear")
            with open(program, "w", encoding="ascii") as file:
                file.write("#!/bin/sh\n")
            os.chmod(program, 0o755)
            ours, theirs = os.openpty()
            for given, said in ((theirs, b"zygos: linear reads a file from standard input, as in ./zygos linear < FILE\n"),
                                (subprocess.DEVNULL, b"")):
                ran = subprocess.run([sys.executable, f"{TOP}/tools/repo/advising.py", program], stdin=given,
                                     capture_output=True, check=False)
                self.assertEqual((0, b"", said), (ran.returncode, ran.stdout, ran.stderr))
            os.close(ours)
            os.close(theirs)


class Estimate(unittest.TestCase):
    """The time that is left, of builds whose crates take other times than the known shares."""

    def builds(self, times, slowness, seed):
        """What is said is left and what is, each time that a crate is proved after the first five minutes."""
        rng = random.Random(seed)
        taken = proving.Taken("", 4)
        progress = proving.Progress("zygos", 4, taken)
        takes = {name: share * times * rng.uniform(0.7, 1.4) for name, share in progress.shares.items()}
        ended = crates.finishing_times(list(takes), progress.needs, takes, 4)
        for name, end in sorted(ended.items(), key=lambda pair: pair[1]):
            progress.gone.append(name)
            # a crate that runs has taken what its time allows
            taken.seen = {of: (of, min(takes[of], max(0.0, end - (ended[of] - takes[of])))) for of in takes}
            taken.wanted = sum(seconds for _, seconds in taken.seen.values()) * slowness
            if 300 < end * slowness < 0.9 * max(ended.values()) * slowness:
                yield progress.left(), (max(ended.values()) - end) * slowness

    def test_it_is_within_a_third_after_five_minutes(self):
        for times in (0.7, 1, 2):
            for slowness in (1, 1.5):
                found = [said / left for seed in range(4) for said, left in self.builds(times, slowness, seed)]
                right = sum(2 / 3 <= ratio <= 4 / 3 for ratio in found)
                with self.subTest(times=times, slowness=slowness):
                    self.assertGreaterEqual(right / len(found), 0.9)

    def test_the_known_builds(self):
        """18.7 minutes for 44 processor minutes, and 35 for 83: what the model of a build says of both."""
        for minutes, wanted in ((44, 18.7), (83, 35)):
            progress = proving.Progress("zygos", 4, proving.Taken("", 4))
            times = minutes * 60 / sum(progress.shares.values())
            said = progress.expected({name: share * times for name, share in progress.shares.items()}) / 60
            self.assertAlmostEqual(1, said / wanted, delta=0.15)

    def test_the_first_line_has_the_range(self):
        with mock.patch.object(proving.Progress, "say") as say:
            proving.Progress("zygos", 4, proving.Taken("", 4)).begins()
        self.assertRegex(say.call_args[0][0], r"on 4 processors, about \d+ to \d+ minutes$")


if __name__ == "__main__":
    unittest.main()
