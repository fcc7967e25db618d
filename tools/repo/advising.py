"""Runs zygos for a person at a terminal: after the program's own line comes one on standard error that says what to do.

The arguments are PROGRAM COMMAND .., from ./zygos, or a program that is one command with its options. Standard input and
output are the program's, and so are its lines and its status. With --said COMMAND INPUT, only the advice on the lines of
standard input is printed, which are on this input. If the input is a file, the advice says what is in it.
"""
import os
import re
import shutil
import signal
import stat
import subprocess
import sys
import tempfile

from zygos_tools.cli import advice
from zygos_tools.files import kinds

JOURNAL = re.compile(r"\w+: journal: (form|truncated) ")
ITEMS = re.compile(r"\w+: items: (form|truncated) ")
OF_WINDOW = "give a capture, an items file and a replies file, in this order; judge --to writes the items file"
OF_JOURNAL = {"report": "give only a journal, which tools/part journal cuts out of what zygos run --out both writes"}
IN_ORDER = "give a capture, a journal and a replies file, in this order; zygos run --out both writes the last two"
# a capture of no connection, as pcap writes it if no packet goes to the port
NOTHING = b"ZYGCAP2\n\0\0\0\0E"
# the commands whose output decides the advice, and how much of it
HEADED = ("check", "linear", "judge", "pcap")
# the commands that read standard input
READING = ("run", "check", "linear", "judge", "pcap", "report")
# in how many bytes of recorded packets ports are looked for
MOST_PACKETS = 1 << 22
FORWARDED = signal.SIGINT, signal.SIGTERM, signal.SIGHUP


def advice_on(command, line):
    """The advice on a line of the program, or None."""
    if JOURNAL.match(line):
        return OF_JOURNAL.get(command, IN_ORDER)
    if ITEMS.match(line):
        return OF_WINDOW
    return advice.advice_on(re.sub(r"^\w+: ", "", line))


def command_of(program, words):
    """The command that is run: the first word after zygos; any other program is a command itself."""
    name = os.path.basename(program)
    return words[0] if name == "zygos" and words else name


def beginning(given, size):
    """The beginning of an input, by its descriptor; None if it is no file."""
    try:
        return os.pread(given, size, 0) if stat.S_ISREG(os.fstat(given).st_mode) else None
    except OSError:
        return None


def kind_in(given):
    """What an input is if it is no capture, to be printed; nothing if that is not known."""
    head = beginning(given, kinds.HEAD)
    kind = kinds.kind_of(head) if head else None
    return f" but {kind}" if kind else ""


def ports_in(given, port):
    """The ports to which the packets of an input go, to be printed; nothing if there are none, or it is no file."""
    from zygos_tools.recording.packets.command import Reading  # which takes a while, and is hardly ever needed
    from zygos_tools.recording.packets.report import listed
    reading = Reading(port)
    reading.read(beginning(given, MOST_PACKETS) or b"")
    ports = listed(reading.asking or reading.ports)
    return f", but {'commands' if reading.asking else 'other bytes'} go to {ports}" if ports else ""


def advise(command, words, output, said, given=0):
    """Prints the advice on what the program wrote to standard output, at its beginning, and said on standard error."""
    lines = [*said.decode(errors="replace").splitlines(), *output.decode(errors="replace").splitlines()[:1]]
    found = next(filter(None, (advice_on(command, line) for line in lines)), None)
    if command == "pcap" and output == NOTHING:
        port = re.search(r"--port[ =](\d+)", " ".join(words))
        number = int(port[1]) if port else 11211
        found = f"no packet goes to port {number}{ports_in(given, number)}; --port names another"
    if found:
        from zygos_tools.cli.screen import as_called
        print(as_called(f"zygos: {found.format(kind_in(given))}"), file=sys.stderr)


def pass_on(source):
    """Passes on what the program writes; gives its beginning, and whether all could be written."""
    head = b""
    try:
        with source:
            while piece := source.read1(1 << 16):
                head += piece[: kinds.HEAD - len(head)]
                sys.stdout.buffer.write(piece)
                sys.stdout.buffer.flush()
    except OSError:
        return head, False
    return head, True


def run(program, words):
    """Runs the program; gives its status, the beginning of its output, and what it said."""
    with tempfile.TemporaryFile() as said:
        output = subprocess.PIPE if command_of(program, words) in HEADED else None
        with subprocess.Popen([program, *words], stdout=output, stderr=said) as ran:
            for number in FORWARDED:
                signal.signal(number, lambda got, _: ran.send_signal(got))
            head, is_written = pass_on(ran.stdout) if output else (b"", True)
        if not is_written and not said.tell():
            said.write(b"zygos: writing failed\n")
        if not is_written:
            ran.returncode = 5
        said.seek(0)
        shutil.copyfileobj(said, sys.stderr.buffer)
        sys.stderr.flush()
        said.seek(0)
        return ran.returncode, head, said.read()


def name_terminal(command):
    """Says how a file is given, if the program reads from a terminal, where it waits in silence."""
    if command in READING and os.isatty(0):
        from zygos_tools.cli.screen import as_called
        print(as_called(f"zygos: {command} reads a file from standard input, as in ./zygos {command} < FILE"), file=sys.stderr)


def main(program, *words):
    if program == "--said":
        with open(words[1], "rb") as given:
            advise(words[0], words, b"", sys.stdin.buffer.read(), given.fileno())
        return 0
    name_terminal(command_of(program, words))
    status, head, said = run(program, words)
    if status < 0:
        signal.signal(-status, signal.SIG_DFL)
        os.kill(os.getpid(), -status)
    advise(command_of(program, words), words, head, said)
    return status


if __name__ == "__main__":
    sys.exit(main(*sys.argv[1:]))
