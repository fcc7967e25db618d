"""Joins all commands of a capture into one connection, near their order of arrival; and cuts its replies again.

usage: tools/inline [--shards N] [--seconds N] [--order ORDER | --write-order ORDER] CAPTURE [REPLIES] > ONE
       tools/inline --cut OUTPUT [--seconds N] [--order ORDER] CAPTURE [REPLIES] > CUT

    tools/inline --write-order my.order my.cap my.replies | ./zygos run > one.replies
    tools/inline --cut one.replies --order my.order my.cap my.replies > its.replies
    tools/compare --capture my.cap --order my.order my.replies its.replies

--shards N           CAS values are those of a run on N shards (default 16)
--seconds N          search N seconds for an order in which the recorded answers are right (default 60)
--order ORDER        take the order of this file, which tools/judge --order or --write-order wrote
--write-order ORDER  write the order to this file, which must be new or empty

If clients share keys, a run has an order of its own, so its hits and misses differ from the recorded ones. One
connection is served in its order. The first form writes a capture of one connection with all commands, each at the
place of its last byte. The second takes OUTPUT, the replies to that, and gives each answer to the connection and
session that sent the command. Without --order both forms search for the order, which ends the tool if it takes longer
than --seconds.

REPLIES are the recorded ones. With them, a command may change places with those that came before it had ended: before
its answer was complete, if the capture has that (`--ends`), or else before its connection's next command came. The
order is that of tools/judge if it finds one soon, or one near it. If that reproduces fewer answers than the order of
arrival does, the order of arrival is used. And a `cas`, or an `ms` with C, is given the CAS value that zygos shows at
that point, so it succeeds if the recorded one did. Without REPLIES it keeps what was sent, and answers `EXISTS`.

Commands after `quit`, and those that are not whole, are left out, as by zygos. After each command with the flag `q`,
which may have no answer, `mn` is put in, and its answer is taken out again. CAPTURE is a file; without REPLIES it may
be -, standard input, as may OUTPUT. Before the replies there may be a journal.
"""
from __future__ import annotations

import gc
import sys
from collections.abc import Callable, Iterable, Iterator
from functools import partial
from itertools import chain
from typing import NoReturn

from zygos_tools.cli import ends
from zygos_tools.cli.screen import Screen
from zygos_tools.comparing.arrivals import Arrivals, Given, Key, recorded, streams_of, with_answers
from zygos_tools.comparing.orders import ordered
from zygos_tools.comparing.replaying import Replay
from zygos_tools.files import inputs
from zygos_tools.files.formats import END, MOST_SEGMENT, Output, capture_start, pieces, replies_file
from zygos_tools.files.outputs import Beside, refuse_full, told_apart
from zygos_tools.files.part import Fault
from zygos_tools.protocol.answers import answers
from zygos_tools.protocol.meaning import Command
from zygos_tools.protocol.order_files import Search, digest, order_text

Keep = Callable[[Iterable[bytes]], None]
OPTIONS: dict[str, ends.Option | None] = {
           "--cut": ("a replies file", lambda word: word or None), "--shards": ends.number(1, 256),
           "--seconds": ends.number(1), "--order": ends.FILE, "--write-order": ends.OUTPUT}
# for how many seconds an order is searched for, if that is left out
SECONDS = 60
GIVEN_UP = (", and another search may find one: give --seconds more, or --write-order FILE, and --cut with --order FILE")
NEAR = "; the order is one near that of arrival; tools/judge --order with more --states may find one"
BARRIER, BARRIER_ANSWER = b"mn\r\n", b"MN\r\n"


def may_be_silent(command: Command) -> bool:
    return "q" in command.letters and not command.quiet


def in_order(arrivals: Arrivals, replies: str | None, search: Search, keep: Keep | None = None) -> Iterator[Given]:
    """The commands of a capture in the order of arrival, or near it; each with its recorded answer, None where there is none.

    `keep` gets the file of the order."""
    if replies is None:
        return (Given(arrival, None) for arrival in arrivals.commands())
    texts = recorded(arrivals, replies)
    found = list(with_answers(arrivals, streams_of(arrivals.records()), texts))
    order = ordered(arrivals, found, texts, search)
    if keep is not None:
        keep(order_text((found[at].arrival.connection for at in order), digest(arrivals.capture(), texts)))
    return map(found.__getitem__, order)


def frames(arrivals: Arrivals, replies: str | None, shards: int, search: Search,
           keep: Keep | None) -> Iterator[tuple[Command, bytes]]:
    """The commands in that order, each with the bytes that are sent for it."""
    replay = Replay(shards)
    for arrival, answer, _ in in_order(arrivals, replies, search, keep):
        frame = arrival.frame if replies is None else replay.carry_out(arrival.command, arrival.frame, answer)[0]
        yield arrival.command, frame


def joined(arrivals: Arrivals, replies: str | None, shards: int, search: Search,
           keep: Keep | None = None) -> Iterator[bytes]:
    """The pieces of a capture of one connection with all commands."""
    found = iter(frames(arrivals, replies, shards, search, keep))
    first = next(found, None)  # so that nothing is written of what is no capture
    yield capture_start(1)
    kept: list[bytes] = []
    size = 0
    for command, frame in chain([first] if first else [], found):
        kept += [frame, BARRIER] if may_be_silent(command) else [frame]
        size += len(frame) + len(BARRIER)
        if size >= MOST_SEGMENT:
            yield from pieces(0, b"".join(kept))
            kept, size = [], 0
    yield from pieces(0, b"".join(kept))
    yield END


def one_output(name: str) -> bytes:
    """The output of the only connection of a replies file."""
    found, _ = inputs.outputs_in(name, "; `zygos run` writes one", ": --cut takes the replies to what tools/inline wrote",
                                 ": --cut takes one replies file")
    if len(found) != 1:
        raise Fault(f"{inputs.name_of(name)}: {len(found)} outputs; the replies to what tools/inline wrote have one")
    return found[0].text


def cut(arrivals: Arrivals, replies: str | None, output: str, search: Search) -> bytes:
    """The replies file of a capture, of the output to all its commands in one connection."""
    name = inputs.name_of(output)
    found, left = 0, answers(one_output(output))
    texts: dict[Key, list[bytes]] = {}
    for number, (one, _, _) in enumerate(in_order(arrivals, replies, search)):
        if one.command.quiet:
            continue
        found += 1
        answer = next(left, None)
        if answer is not None and may_be_silent(one.command):
            if answer != BARRIER_ANSWER:
                texts.setdefault(one.key, []).append(answer)
                answer = next(left, None)
            answer = b"" if answer == BARRIER_ANSWER else None
        if answer is None:
            raise Fault(f"{name}: no answer to command {number} of {inputs.name_of(arrivals.name)} in its order: these are"
                        " not zygos's replies to what tools/inline wrote of the same files")
        texts.setdefault(one.key, []).append(answer)
    if next(left, None) is not None:
        raise Fault(f"{name}: more answers than the {found} commands of {inputs.name_of(arrivals.name)} have")
    return replies_file(arrivals.version, [Output(*key, b"".join(texts.get(key, ()))) for key in arrivals.sessions()])


def given_up(why: str) -> NoReturn:
    raise Fault(why + GIVEN_UP)


def kept(name: str | None) -> Keep | None:
    """What writes an order to a file; None where there is no file for it."""
    return None if name is None else partial(written, name)


def written(name: str, text: Iterable[bytes]) -> None:
    """Writes a file."""
    with Beside(name) as file:
        file.write(text)


def main(words: list[str]) -> None:
    given, files = ends.options(words, OPTIONS)
    order, written = given.get("--order"), given.get("--write-order")
    inputs_of = [*files, given.get("--cut"), order]
    if not 1 <= len(files) <= 2 or inputs_of.count("-") > 1 or len(files) == 2 and files[0] == "-":
        ends.stop("a capture is joined, and its replies may follow; --help says more", 2)
    if len(files) < 2 and {"--seconds", "--order", "--write-order"} & set(given):
        ends.stop("an order is that of recorded replies, which follow the capture; --help says more", 2)
    if written and (order or "--cut" in given):
        ends.stop("--write-order is of the first form, without --order; --help says more", 2)
    if written:
        told_apart([written], list(filter(None, inputs_of)))
        refuse_full(written)
    gc.disable()  # what is read stays to the end
    screen = Screen()
    search = Search(given.get("--seconds", SECONDS), screen.ticker(), screen.say if written else given_up,
                    lambda why: screen.say(why + NEAR), order)
    arrivals, replies = Arrivals(files[0]), files[1] if len(files) == 2 else None
    made: Iterable[bytes]
    if "--cut" in given:
        made = [cut(arrivals, replies, given["--cut"], search)]
    else:
        made = joined(arrivals, replies, given.get("--shards", 16), search, kept(written))
    sys.stdout.buffer.writelines(made)
    screen.clear()
