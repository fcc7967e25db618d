"""Records traffic: a proxy between clients and a memcached that writes a capture and a replies file.

usage: tools/record [--listen PLACE] [--server PLACE] [--connections N] [--processes N] [--every LENGTH] [--ends]
                    [--over] CAPTURE REPLIES
       tools/record --repair CAPTURE REPLIES

  tools/record --ends --server 127.0.0.1:11211 my.cap my.replies

Clients connect to --listen. At Ctrl-C the files are complete: CAPTURE has what clients sent, in the order in which it
came, and REPLIES what the server answered. docs/GUIDE.md says how to use them.

--listen       where clients connect to (default 127.0.0.1:11212)
--server       the memcached that they reach (default 127.0.0.1:11211)
--connections  end once N connections have come and gone (default: at Ctrl-C, a termination or a closed terminal)
--processes    the number of processes that share the clients (default 1), for busy servers
--every        record in windows of this length, a number of commands (100000) or a time (60s, 10m, 1h)
--ends         write into CAPTURE when each answer was complete, as a segment without bytes. Always give it for
               tools/judge, whose `yes` otherwise says nothing of time
--over         overwrite CAPTURE and REPLIES if there is something in them
--repair       complete the files of a recording that was killed; says how many commands have no whole answer

PLACE is HOST:PORT, [HOST]:PORT, or a Unix socket: a path with a slash, or unix:PATH. One of the files may be -,
standard output, which is written at the end.

Bytes are written before they are passed on. Until the end, answers are in REPLIES.spool; at the end the disk needs
room for two copies. At Ctrl-C clients are cut off, and answers that still come are recorded; a second Ctrl-C does
without them.

With --every the files are my.000001.cap and my.000001.replies, my.000002.cap and so on. Each is there once it is
whole, the replies first. A window ends at a quiet moment: clients are held until no command is in flight, and then go
on in the next one, where an open connection is a new one. The first try holds them for 0.1 seconds. If it fails,
clients go on; it is said, and tried again a second later, each time for twice as long, up to 0.8 seconds, until a try
succeeds. A try fails if a client has sent only a part of a command, or if its last command has `noreply`. A window also
ends at 3 GiB. --over removes older windows.

With several processes or windows, what comes is in REPLIES.spool.0 and so on until the files are written; --repair
completes a window too, by the names of its files.

Each connection is a session. The first 4,096 are the connections 0, 1, 2 and so on of the files; a later one becomes
the next session of the connection that closed first. If none has closed it is passed on but not recorded. The same
happens to everything that comes once the disk is full or the capture has 4 GiB. It is said once, and the status is 1.
If the server goes away, its clients are closed, and the recording goes on. A `quit` is not counted as a command.
"""
from __future__ import annotations

import functools
import signal
import socket
from collections.abc import Sequence
from typing import Any

from zygos_tools.cli import ends
from zygos_tools.cli.screen import Screen, hold_first
from zygos_tools.recording.targets import Files, more_files
from zygos_tools.recording import places, windows
from zygos_tools.recording.head import Head
from zygos_tools.recording.links import READ
from zygos_tools.recording.places import forget, listening, named, place, shared
from zygos_tools.recording.proxy import Proxy
from zygos_tools.recording.recording import Recording
from zygos_tools.recording.repairing import repair

SIGNALS = (signal.SIGINT, signal.SIGTERM, signal.SIGHUP)
OPTIONS = {"--listen": places.OPTION, "--server": places.OPTION, "--connections": ends.number(1, 10**9),
           "--processes": ends.number(1, 64), "--every": windows.OPTION, "--ends": None, "--over": None, "--repair": None}


def arguments(words: list[str]) -> tuple[dict[str, Any], list[str]]:
    """The values of the options, and the two files."""
    found, files = ends.options(words, OPTIONS)
    if len(files) != 2 or files == ["-", "-"]:
        ends.stop("two files are written; --help says more", 2)
    if "-" in files and ("--every" in found or found.get("--processes", 1) > 1):
        ends.stop("several processes or windows need two files; neither can be -", 2)
    return {"--listen": place("127.0.0.1:11212"), "--server": place("127.0.0.1:11211"), **found}, files


def caught() -> tuple[socket.socket, socket.socket]:
    """A socket that can be read when a signal came. A hangup that is ignored, as nohup has it, stays ignored."""
    one, other = socket.socketpair()
    for end in (one, other):
        end.setblocking(False)
    for number in SIGNALS:
        if number != signal.SIGHUP or signal.getsignal(number) != signal.SIG_IGN:
            signal.signal(number, lambda *_: None)
    signal.signal(signal.SIGPIPE, signal.SIG_IGN)
    signal.set_wakeup_fd(other.fileno())
    return one, other


def begun(given: dict[str, Any], names: Sequence[str],
          screen: Screen) -> tuple[Recording, list[places.Address], list[socket.socket]]:
    """A recording, its server's addresses, and the sockets where clients come; all there is where it can begin."""
    files = Files(names, "--over" in given)
    found: list[socket.socket] = []
    try:
        addresses = given["--server"].addresses()
        found = listening(given["--listen"])
        return Recording(files, screen.say, "--ends" in given), addresses, found
    except BaseException:
        forget(found)
        files.take_back()
        raise


def record(given: dict[str, Any], names: Sequence[str]) -> bool:
    """Records until the end, and completes the files. Gives whether all was recorded."""
    screen, (woken, _) = Screen(), caught()
    recording, addresses, found = begun(given, names, screen)
    proxy = Proxy(recording, given["--server"].name, addresses, given.get("--connections"), screen)
    proxy.listen(found)
    proxy.wait_for(woken, READ, functools.partial(proxy.signal, woken))
    screen.say(f"listening at {' and '.join(named(one.family, one.getsockname()) for one in found)}")
    proxy.run()
    screen.clear()
    try:
        recording.finish(screen)
    except OSError as error:
        kept = "; --repair completes the files" if recording.files.spool_name else ""
        ends.stop(f"{error.filename}: {error.strerror}: not all is written{kept}")
    for line in recording.lacks():
        screen.say(line)
    screen.say(recording.told())
    return not recording.fault and not recording.passed_on


def record_in_parts(given: dict[str, Any], names: Sequence[str]) -> bool:
    """Records with several processes, or in windows. Gives whether all was recorded."""
    screen, (woken, _) = Screen(), caught()
    every = given.get("--every")
    both = windows.Names(names[0], names[1], every is not None)
    both.refuse("--over" in given)
    addresses, found = given["--server"].addresses(), listening(given["--listen"])
    places_of = " and ".join(named(one.family, one.getsockname()) for one in found)
    rows = shared(found, given.get("--processes", 1))
    head = Head(both, windows.Due(every), given.get("--connections"), screen, len(rows))
    head.begin(rows, given["--server"].name, addresses, "--ends" in given)
    screen.say(f"listening at {places_of}")
    return head.run(woken)


def main(words: list[str]) -> None:
    given, names = arguments(words)
    hold_first()
    if "--repair" in given:
        repair(names, Screen())
        return
    more_files()
    has_parts = "--every" in given or given.get("--processes", 1) > 1
    if not (record_in_parts if has_parts else record)(given, names):
        ends.end(1)
