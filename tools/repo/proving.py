"""Runs a command of rt that proves the crates of a program, and says on standard error how far it is.

The words are PROGRAM LOG COMMAND .., from tools/build.

What the command prints goes to LOG. A line comes as each crate is proved, with an estimate of the time that is left: by the
crates' known shares (tools/repo/shares.txt), on this number of processors, at the speed of this build so far. At the first
crate that is not proved its faults are printed, the command is stopped, and the status is 1. A signal stops it too, and
then nothing is printed.
"""
import os
import re
import select
import signal
import subprocess
import sys
import time

from crates import TOP, below_of, checks, crates_in, finishing_times, shares

BEGIN = re.compile(r"== (\w+)$")
PROVED = re.compile(r"logic=proved |rt: (\w+) proved$")
REFUSED = re.compile(r"logic=not-proved|rt: (\w+) NOT PROVED$|rt: mend these first")
FAULT = re.compile(r"error|: not proved|: no proof|^rt: ")
FAULTS = 12
# seconds between two looks at the checks; as many processor seconds as known shares are trusted; the slowest machine seen
LOOK, SURE, SLOWEST = 2, 60, 2
# the longest wait without a look for a signal
PAUSE = 0.3
# the signals that end a build, and the seconds that rt has to end then
ENDING = signal.SIGINT, signal.SIGTERM, signal.SIGHUP
GRACE = 10


class Taken:
    """What the checks in a folder took so far, and what they would have taken of processors that nothing else used."""

    def __init__(self, folder, processors):
        self.folder, self.processors = folder, processors
        self.seen, self.wanted, self.last = {}, 0.0, time.monotonic()

    def look(self):
        """Looks at the checks that run now, unless it has just done so."""
        now = time.monotonic()
        if now - self.last < LOOK:
            return
        running = list(checks(self.folder))
        self.seen.update({key: (name, seconds) for key, name, seconds in running})
        self.wanted += min(len(running), self.processors) * (now - self.last)
        self.last = now

    def seconds(self):
        """The processor seconds of each crate."""
        found = {}
        for name, seconds in list(self.seen.values()):
            found[name] = found.get(name, 0) + seconds
        return found


class Progress:
    """How far the proofs of a program are."""

    def __init__(self, program, processors, taken):
        self.needs = crates_in(TOP)
        # a copy has the crates of the programs that are built together, and no others
        is_copy = taken.folder not in ("", TOP)
        wanted = crates_in(taken.folder) if is_copy else {program, *below_of(program, self.needs)}
        names = [name for name in self.needs if name in wanted]
        self.program, self.processors, self.taken = program, processors, taken
        self.begin, self.gone, self.shares = time.monotonic(), [], shares(names)

    def say(self, text):
        print(f"{self.program}: {text}", file=sys.stderr, flush=True)

    def begins(self):
        whole = self.expected(self.shares) / 60
        self.say(f"proving and building the program from this source, once: {len(self.shares)} crates, on "
                 f"{self.processors} processors, about {whole:.0f} to {SLOWEST * whole:.0f} minutes")

    def expected(self, seconds):
        """How long these crates take together, by the processor seconds of each."""
        return max(finishing_times(list(seconds), self.needs, seconds, self.processors).values(), default=0)

    def left(self):
        """The seconds that are left, if the other crates take as many times their shares as those so far."""
        taken = self.taken.seconds()
        known, spent = (sum(of.get(name, 0) for name in self.gone) for of in (self.shares, taken))
        times = (spent + SURE) / (known + SURE) if spent else 1
        whole = {name: times * share for name, share in self.shares.items() if name not in self.gone}
        left = {name: max(seconds - taken.get(name, 0), seconds / 10) for name, seconds in whole.items()}
        # other programs take processors too
        return self.expected(left) * max(1, self.taken.wanted / max(sum(taken.values()), 1))

    def proved(self, name):
        if name in self.gone:
            return
        minutes_gone, seconds = divmod(round(time.monotonic() - self.begin), 60)
        self.gone.append(name)
        minutes = round(self.left() / 60)
        left = f"about {minutes} minute{'s' * (minutes != 1)} left" if minutes else "less than a minute left"
        self.say(f"{name} is proved, {len(self.gone)} of {len(self.shares)}: "
                 f"{minutes_gone}:{seconds:02} elapsed, {left}")


def lines_of(source, look):
    """The lines of a pipe; between them it looks again and again. So a signal is never waited out, wherever it comes."""
    rest = b""
    while True:
        look()
        if not select.select([source], [], [], PAUSE)[0]:
            continue
        piece = os.read(source.fileno(), 1 << 16)
        *lines, rest = (rest + piece).split(b"\n")
        if not piece:
            lines = [rest] if rest else []
        yield from (line.decode(errors="replace") + "\n" for line in lines)
        if not piece:
            return


def read(lines, log, progress):
    """Reads what the command prints; gives whether all crates so far were proved."""
    name, section = None, []
    for line in lines:
        log.write(line)
        log.flush()
        begun = BEGIN.match(line)
        if begun:
            name, section = begun[1], []
        section.append(line)
        if PROVED.match(line):
            progress.proved(PROVED.match(line)[1] or name)
        if REFUSED.match(line):
            told = [it for it in section if FAULT.search(it)] or section
            progress.say(f"{REFUSED.match(line)[1] or name} is not proved:")
            sys.stderr.writelines(told[:FAULTS])
            return False
    return True


def send(ran, number):
    """Sends a signal to the command and all that it started; gives whether any of it is left."""
    try:
        os.killpg(ran.pid, number)
    except OSError:
        return False
    return True


def stop(ran):
    """Stops the command with all that it started, and waits until nothing of it is left."""
    send(ran, signal.SIGTERM)
    end = time.monotonic() + GRACE
    while ran.poll() is None or send(ran, 0):
        if time.monotonic() > end:
            send(ran, signal.SIGKILL)
            ran.wait()
            return
        time.sleep(0.02)


class Ending:
    """A signal ends this script once, by the way of `finally`. While a command is started, it waits until that can be stopped."""

    def __init__(self):
        self.got, self.waits = None, False
        for number in ENDING:
            signal.signal(number, self.take)

    def take(self, number, _):
        if self.got is None:
            self.got = number
            if not self.waits:
                self.go_on()

    def go_on(self):
        """Ends the script if a signal came; from now on one does so at once."""
        self.waits = False
        if self.got is not None:
            sys.exit(128 + self.got)

    def start(self, *command, **more):
        """Starts a command. What follows is a `try` that begins with `go_on`, so that the command is stopped."""
        self.waits = True
        return subprocess.Popen(command, **more)


def prove(log, progress, ending, command):
    """Runs the command; gives whether all was proved."""
    ran = ending.start(*command, stdin=subprocess.DEVNULL, stdout=subprocess.PIPE, stderr=subprocess.STDOUT,
                       start_new_session=True)
    try:
        ending.go_on()
        with open(log, "w", encoding="utf-8") as file:
            if not read(lines_of(ran.stdout, progress.taken.look), file, progress):
                return False
        if ran.wait() == 0:
            return True
    finally:
        stop(ran)
    progress.say("the last lines of rt:")
    with open(log, encoding="utf-8", errors="replace") as file:
        sys.stderr.writelines(file.readlines()[-5:])
    return False


def folder_of_checks():
    """The checkout, or the copy of it, in which the command proves crates."""
    here = os.path.realpath(os.getcwd())
    return here if os.path.exists(f"{here}/crates.txt") else TOP


def main(program, log, *command):
    ending = Ending()
    processors, folder = len(os.sched_getaffinity(0)), folder_of_checks()
    progress = Progress(program, processors, Taken(folder, processors))
    progress.begins()
    watch = [f"{TOP}/tools/repo/chain", "--watch", "--until", str(os.getpid()), "--at", folder]
    nothing = subprocess.DEVNULL
    watching = ending.start(*watch, stdin=nothing, stdout=nothing, stderr=nothing)
    try:
        ending.go_on()
        return 0 if prove(log, progress, ending, command) else 1
    finally:
        watching.kill()
        watching.wait()


if __name__ == "__main__":
    sys.exit(main(*sys.argv[1:]))
