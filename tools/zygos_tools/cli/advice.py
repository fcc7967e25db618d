"""What to do about a line of the program, or about a fault that a tool found in a file: the words are the same."""
from __future__ import annotations

import os
import re

# what to do, by how the line begins without the name of the program or of the file
ADVICE = (
    (r"no (not-next|wrong-reply|missing) ",
     "give the capture that was served, and the --shards of the run; otherwise the journal is not that of a legal run"),
    (r"no wrong-output ", "the replies file is not the one of this journal and this capture"),
    (r"no wrong-holds ", "the journal is not that of a run of this capture"),
    (r"no early-end ", "was the capture recorded with --ends, and are the replies those of the recording? docs/JUDGE.md says more"),
    (r"no out-of-time ", "the journal has an order that the recorded times rule out; tools/judge searches for one that fits"),
    (r"no (kind|surplus) ", "are the replies those of this recording? if they are, the server answered what no memcached answers"),
    (r"no (unmet|shared) ", "no order of the calls explains this answer; tools/judge shows the other commands, and whether a right server may"
     " have given it"),
    (r"unknown other ", "this command is not followed: leave it out of the recording, or use tools/judge, which says more"),
    (r"unknown search ", "neither an order nor a refuted call was found; tools/judge searches for longer"),
    (r"usage: ", "./zygos help has the commands and their options"),
    (r"capture: bad-magic ",
     "this is no capture{}; tools/capture makes one of text, tools/record of live traffic, and zygos pcap of packets"),
    (r"capture: conn-count ", "a capture has at most 4,096 connections: split it, or use sessions"),
    (r"capture: bad-tag ", "the file is damaged, or has a close record in version 1"),
    (r"capture: conn-range ", "the file's count of connections is too small"),
    (r"capture: segment-length ", "a segment has at most 65,535 bytes: split it"),
    (r"capture: truncated ", "give the whole file; tools/record --repair completes a recording that was killed"),
    (r"capture: trailing ", "run takes one capture with nothing after it, which tools/part capture cuts out"),
    (r"capture: too-long", "split the capture"),
    (r"replies: (form|truncated) ", "a replies file has to come last, and once; zygos run writes it"),
    (r"pcap: fault ", "tools/packets FILE names this error, its offset and what to do"),
    (r"reading failed", "the system refused a read of standard input"),
    (r"writing failed", "the disk is full, or the reader of the output went away"),
    (r"out of memory", "a run takes about 14 times its capture, and more for long answers; docs/COMMANDS.md, \"Memory\""),
)
# of these a tool's reader is told too, who gave it one file
OF_FILES = re.compile(r"capture: (conn-count|bad-tag|conn-range|segment-length|truncated|too-long)")


def advice_on(said: str) -> str | None:
    """The advice on what was said, without a name before it; None if there is none."""
    return next((advice for pattern, advice in ADVICE if re.match(pattern, said)), None)


def on_fault(fault: str) -> str | None:
    """The advice on a fault that a tool found in a file, if it is wanted: at a terminal, or if ZYGOS_ADVICE is set."""
    found = OF_FILES.search(fault)
    if found is None or not (os.isatty(2) or os.environ.get("ZYGOS_ADVICE")):
        return None
    return advice_on(fault[found.start() :])
