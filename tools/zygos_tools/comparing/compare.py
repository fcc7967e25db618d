"""Compares two replies files: says which answers differ, with both texts, and why.

usage: tools/compare [--capture CAPTURE [--no-causes | --seconds N | --order ORDER]] [--all] [--except COMMAND,..] A B

    tools/compare --capture examples/client.cap --except version examples/client.replies my.replies

A is the recording and B zygos's answers, unless A shows that it is zygos's, by a journal or its version. One of A, B
and CAPTURE may be -, standard input. A journal before the replies is skipped.

--capture CAPTURE     what was sent. With it a difference shows its command, with its number in its session, from 0 on,
                      and a line `why`; the last lines count the differences by command and by cause
--all                 print all differences, not only the first of each cause
--no-causes           do not search for causes
--seconds N           search N seconds for an order in which the recorded answers are right (default 60)
--order ORDER         take the order of this file, which tools/judge --order or tools/inline --write-order wrote
--except COMMAND,..   leave out the answers to these commands; without --capture only version and stats, whose answers
                      show what they are

An answer is a line, the items and the END of one `get` or `gets`, the lines and the END of one `stats`, or a line `VA`
with its block; they are counted from 0. CAS values are each server's own and not compared. Commands with the flag `q`
may have no answer, so they are compared together with those after them. If only one side answers a command, the
answers after it are compared in step again.

Causes are: items from before the recording, CAS values, exptimes, lost items, padded numbers, lines that zygos does
not serve, the order of connections, or the servers. docs/COMMANDS.md says what to do about each. In a key that several
connections call, several causes may be named.

Without a difference the line begins with `same` and the status is 0. With one, or an error in a file, the status is 1.
"""
from __future__ import annotations

import gc
import re
from collections import Counter
from collections.abc import Callable, Iterable, Iterator, Mapping, Sequence

from zygos_tools.cli import ends
from zygos_tools.cli.screen import Screen, as_called
from zygos_tools.comparing import causes
from zygos_tools.comparing import steps
from zygos_tools.comparing.apart import Callers
from zygos_tools.comparing.arrivals import Kept, Key
from zygos_tools.comparing.causes import Expected
from zygos_tools.comparing.in_order import InOrder
from zygos_tools.comparing.steps import Exchange
from zygos_tools.files import inputs
from zygos_tools.files.formats import Output, shown
from zygos_tools.protocol.answers import answers
from zygos_tools.protocol.order_files import Search
from zygos_tools.protocol.table import TELLING

# the bytes of a text that are shown before its first difference where that is far on, and in all
BEFORE, MOST = 40, 160
# for how many seconds an order is searched for, if that is left out, and what is taken if none is found by then
SECONDS = 60
NEAR = ": causes are those near the order of arrival; --seconds searches longer"
LIMITED = "; causes are those near the order of arrival; tools/judge --order with more --states may find one"
# what is known without the meaning of commands: an output that ends early, an answer that no command has, a command
# that one side answers, and answers that are never in step again
ENDED, BEYOND, ALONE, LEFT, OUTPUTS, UNKNOWN = "ended", "beyond", "alone", "left", "outputs", "unknown"


def named(word: str) -> list[str] | None:
    names = word.split(",")
    return names if all(re.fullmatch("[a-z_]{2,16}", name) for name in names) else None


OPTIONS: dict[str, ends.Option | None] = {
           "--capture": ("a file", lambda word: word or None), "--all": None,
           "--except": ("the names of commands, joined by commas", named), "--no-causes": None,
           "--seconds": ends.number(1), "--order": ends.FILE}


# ---- what is read


def outputs(name: str) -> tuple[list[Output], bool]:
    """The outputs of a replies file in their order, and whether a journal comes before them."""
    return inputs.outputs_in(name, "; `zygos run` writes one", ": a capture is given by --capture",
                             ": one replies file is compared")


def paired(one: Iterable[Output], other: Iterable[Output]) -> Iterator[tuple[Key, bytes | None, bytes | None]]:
    """The outputs of two files by connection and session: both texts, with None for one that is not there."""
    ones, others = ({some[:2]: some.text for some in found} for found in (one, other))
    for key in sorted(ones.keys() | others.keys()):
        yield key, ones.get(key), others.get(key)


def is_of_zygos(found: Iterable[Output], has_journal: bool) -> bool:
    """Whether outputs are those of zygos, as far as they show it."""
    return has_journal or any(b"VERSION zygos-" in output.text for output in found)


# ---- what is printed


def agreeing(one: bytes, other: bytes) -> int:
    """How many first bytes of two texts agree."""
    least, most = 0, min(len(one), len(other))
    while least < most:
        middle = (least + most + 1) // 2
        if one[least:middle] == other[least:middle]:
            least = middle
        else:
            most = middle - 1
    return least


def around(text: bytes | None, at: int) -> str:
    """A text near a place, to be printed; its usual end is left out."""
    if text is None:
        return "nothing"
    begin = max(0, at - MOST + BEFORE)
    if begin:  # the key of an item is not cut off if there is room for it
        item = text.rfind(b"VALUE ", begin, at)
        begin = item if item >= 0 else at - BEFORE
    part = text[begin : begin + MOST]
    end = ".." if begin + MOST < len(text) else ""
    return (".." if begin else "") + shown(part.removesuffix(b"\r\n") if not end else part) + end


def texts_of(exchange: Exchange) -> list[str]:
    """What is printed of both sides."""
    one, other = exchange.one[1], exchange.other[1]
    if exchange.kind in (steps.ENDED, steps.LEFT):
        texts = [around(text, 0) for text in (one, other)]
        if exchange.kind == steps.ENDED:
            texts[one is not None] = f"ends here, with {counted_as(exchange.last, 'answer')} missing"
        return texts
    at = 0 if one is None or other is None else agreeing(one, other)
    return [around(text, at) for text in (one, other)]


def counted(names: Counter[str]) -> str:
    """Numbers of differences by command, the greatest first; nothing where no command is known."""
    return ", ".join(f"{name} {count}" for name, count in names.most_common() if name)


def counted_as(count: int, name: str) -> str:
    return f"{count} {name}" + "s" * (count != 1)


# a difference as it is printed: its number, its place, and what both sides have
Told = tuple[int, str, list[str]]
# the causes of a difference, by which they are counted
Causes = tuple[str, ...]


class Found:
    """Differences of the same causes: how many by command, and the first of them, or all, as they are printed.

    What is printed has its number among all differences, its place, both texts, and whether both are in step again.
    """

    def __init__(self, why: str | None):
        self.names, self.why = Counter[str](), why
        self.told: list[Told] = []


class Comparison:
    """What is found, and printed once all is known. `pair` has the outputs of both files, of which the one of the number
    `recorded` is taken to have been recorded, and the other one to be zygos's."""

    def __init__(self, files: Iterable[str], sent: Kept | None, pair: Sequence[Sequence[Output]], recorded: int,
                 prints_all: bool, left_out: Sequence[str], search: Search | None):
        self.files, self.sent, self.prints_all, self.left_out = list(map(inputs.name_of, files)), sent, prints_all, left_out
        self.pair, self.recorded, self.search = pair, recorded, search  # without a search there are no causes
        self.connections: tuple[set[int], set[int]] = set(), set()
        self.sessions, self.differences = [0, 0], 0
        self.found: dict[Causes, Found] = {}
        self.excepted = Counter[str]()
        self.missing, self.alone = ([Counter[str](), Counter[str]()] for _ in range(2))  # what one of the files has alone
        self.causes: causes.Causes | None = None
        self.before: list[Key] = []
        self.expected: Mapping[tuple[int, int, int], Expected] | None = None

    def compare(self, key: Key, one: bytes | None, other: bytes | None) -> None:
        """An output of both files."""
        for at, text in enumerate((one, other)):
            if text is not None:
                self.connections[at].add(key[0])
                self.sessions[at] += 1
        if one is None or other is None:
            self.differ((OUTPUTS,), "", 1, lambda: (
                f"connection {key[0]}, session {key[1]}",
                ["no output" if text is None else f"{len(text)} bytes" for text in (one, other)]))
        elif one == other:
            self.same(key)
        else:
            self.exchanges(key, one, other)

    # ---- sessions

    def stream(self, key: Key) -> bytes:
        """What was sent in a session."""
        return self.sent.streams.get(key, b"") if self.sent else b""

    def same(self, key: Key) -> None:
        """A session without a difference. What its commands did counts if a later session of it has one."""
        if self.before and self.before[0][0] != key[0]:
            self.before = []
        self.before.append(key)

    def session_begins(self, key: Key, known: causes.Causes) -> None:
        """A session with a difference begins."""
        for earlier in self.before:
            if earlier[0] == key[0]:
                known.begin(*earlier, self.stream(earlier))
        self.before = []
        known.begin(*key, self.stream(key))

    def in_order(self) -> Mapping[tuple[int, int, int], Expected]:
        """What zygos answers near the order of arrival; that is asked of the first difference that may come of the order."""
        if self.expected is None:
            assert self.sent and self.causes and self.search
            texts = [{(one.connection, one.session): one.text for one in found} for found in self.pair]
            self.expected = InOrder(self.sent, texts[self.recorded], texts[1 - self.recorded], self.causes.callers,
                                    self.search).found
        return self.expected

    def exchanges(self, key: Key, one: bytes, other: bytes) -> None:
        """A session with a difference."""
        if self.sent and self.search:
            self.causes = self.causes or causes.Causes(Callers(self.sent.streams), self.in_order)
            self.session_begins(key, self.causes)
        found = steps.by_commands(self.stream(key), one, other) if self.sent else steps.by_answers(one, other)
        for exchange in found:
            mine, its = exchange.one[1], exchange.other[1]
            if exchange.kind == steps.BOTH and (mine == its or mine is not None and its is not None and
                                                steps.alike(mine, its)):
                self.excepted["uniques"] += mine != its
                if exchange.group and self.causes:
                    self.causes.agreed(exchange)
            else:
                self.exchange(key, exchange)

    def exchange(self, key: Key, exchange: Exchange) -> None:
        """A difference, or what is left out of it."""
        found, name = self.blame(exchange), exchange.name or ""
        if name in self.left_out and exchange.kind in (steps.BOTH, steps.ALONE):
            self.excepted[name] += 1
        else:
            self.note(found[0], exchange)
            self.differ(found, name, exchange.last if exchange.kind in (steps.ENDED, steps.LEFT) else 1,
                        lambda: (f"connection {key[0]}, session {key[1]}{place_of(exchange)}", texts_of(exchange)),
                        lambda: self.causes.why(exchange) if self.causes and exchange.kind == steps.BOTH else None)

    def blame(self, exchange: Exchange) -> Causes:
        """The causes of a difference."""
        if exchange.kind == steps.ENDED:
            return (ENDED if exchange.group or self.sent is None else BEYOND,)
        if exchange.kind in (steps.LEFT, steps.ALONE):
            return (exchange.kind,)
        if not exchange.group:
            return (UNKNOWN if self.sent is None else BEYOND,)
        if self.causes is None:
            return (UNKNOWN,)
        is_swapped = self.recorded == 1
        return self.causes.differed(exchange._replace(one=exchange.other, other=exchange.one) if is_swapped else exchange)

    def note(self, cause: str, exchange: Exchange) -> None:
        """Counts what only one side has."""
        at = int(exchange.one[1] is not None and exchange.other[1] is None)
        if cause == ENDED:
            self.missing[at]["answer"] += exchange.last
            self.missing[at]["session"] += 1
        if cause == ALONE:
            self.alone[1 - at][exchange.name or ""] += 1

    def differ(self, causes_of: Causes, name: str, count: int, told: Callable[[], tuple[str, list[str]]],
               why: Callable[[], str | None] = lambda: None) -> None:
        """Counts a difference, and keeps what `told` gives, its place and both texts, where that may be printed; `why` is
        asked of the first one of its causes."""
        if (found := self.found.get(causes_of)) is None:
            self.found[causes_of] = found = Found(why())
        if self.prints_all or not found.told:
            found.told.append((self.differences, *told()))
        self.differences += 1
        found.names[name] += count

    # ---- what is printed in the end

    def print(self) -> None:
        """Prints the first difference of each cause, or all of them."""
        for (_, place, texts), key in sorted((told, key) for key, found in self.found.items()
                                             for told in (found.told if self.prints_all else found.told[:1])):
            print(place)
            for file, text in zip(self.files, texts):
                print(f"  {file}: {text}")
            if key == (ALONE,):
                print("  out of step from here by one answer; those after it are compared in step again")
            elif key[0] in NAMED:
                print(as_called("  why: " + " or ".join(NAMED[cause] for cause in key)))

    def end(self) -> bool:
        """What is printed; gives whether there is no difference."""
        self.print()
        if (line := self.other_traffic()) is not None:
            print(line)
            return False
        if not self.found:
            count = sum(1 for output in self.pair[0] for _ in answers(output.text))
            counts = f"connections {len(self.connections[0])}, sessions {self.sessions[0]}, answers {count}"
            print(f"same: {counts}" + (f"; left out: {counted(+self.excepted)}" if +self.excepted else ""))
            return True
        self.total()
        for line in self.lines():
            print(as_called(line))
        return False

    def other_traffic(self) -> str | None:
        """What is said where the files cannot be of the same traffic."""
        counts = list(zip(self.files, map(len, self.connections), self.sessions))
        if self.sent is not None:
            counts.append(("the capture", self.sent.count, sum(1 for _ in self.sent.sessions())))
        if len({count[1:] for count in counts}) == 1:
            return "not of the same traffic: their connections have other sessions" if (OUTPUTS,) in self.found else None
        return "not of the same traffic: " + "; ".join(
            f"{name} has {counted_as(seen, 'connection')} and {counted_as(sessions, 'session')}"
            for name, seen, sessions in counts)

    def total(self) -> None:
        """How many differences there are besides those that were not recorded."""
        names = Counter[str]()
        for key, found in self.found.items():
            if key not in ((ENDED,), (BEYOND,)):
                names.update(found.names)
        if (total := sum(names.values())) > 1:
            by_name = counted(names) if self.sent is not None else ""
            more = "" if self.prints_all else "; --all prints them"
            print(f"{total} differences" + (f": {by_name}" if by_name else "") + more)

    def lines(self) -> Iterator[str]:
        """A line for each cause that was found."""
        for file, missing in zip(self.files, self.missing):
            if missing["answer"]:
                answered, ended = (counted_as(missing[name], name) for name in ("answer", "session"))
                yield (f"{answered} at the end of {ended}: not in {file}, so not recorded, or its server or client ended"
                       " there")
        if (BEYOND,) in self.found:
            yield (f"{counted_as(sum(self.found[BEYOND,].names.values()), 'answer')}: of no command in the capture, so not"
                   " all requests were recorded, or the capture is of other traffic")
        for file, alone in zip(self.files, self.alone):
            if alone:
                yield f"{counted(alone) or counted_as(sum(alone.values()), 'answer')}: answered in {file} alone"
        if (LEFT,) in self.found:
            yield (f"{counted_as(sum(self.found[LEFT,].names.values()), 'answer')}: out of step, and not compared, since"
                   " they do not fit the commands; is the capture of other traffic?")
        known = [key for key in self.found if key[0] in NAMED]
        for key in sorted(known, key=lambda key: [causes.CAUSES.index(cause) for cause in (key[-1], *key)]):
            yield f"{counted(self.found[key].names)}: " + said(key, self.found[key].why)


# a short name of each cause
NAMED = {
    causes.BEFORE: "from before", causes.UNIQUES: "cas", causes.EXPIRY: "exptime", causes.LOST: "lost",
    causes.PADDED: "padding", causes.REFUSED: "not served", causes.OWN: "its own text", causes.TIMES: "at one time",
    causes.ORDER: "order", causes.QUIET: "flag q", causes.SERVERS: "servers",
}
# what is said of the differences that have a cause
SAID = {
    causes.BEFORE: "items that the capture does not store: from before it, of others, or of requests that were lost; tools/warm puts"
                   " them into it",
    causes.UNIQUES: "a `cas` names a unique, which is each server's own, and what follows from it; tools/inline translates"
                    " them",
    causes.EXPIRY: "items with an exptime, which may have passed on one side; in zygos exptimes have no effect",
    causes.LOST: "items that were lost where it was recorded, though no command removed them: evicted, or removed by a"
                 " client that was not recorded; tools/judge --may-forget",
    causes.PADDED: "a number became shorter, and memcached pads it with spaces, and what follows from it",
    causes.REFUSED: "lines that zygos does not serve (docs/PROFILE.md), and what follows from them",
    causes.OWN: "what each server says of itself; --except leaves it out",
    causes.TIMES: "may come of the order in which the server took commands that came at one time, for {}; tools/judge"
                  " --warm --may-forget looks for one",
    causes.ORDER: "of the order in which connections are served, for {}; near that of arrival, which tools/inline takes,"
                  " zygos answers as recorded",
    causes.QUIET: "commands with the flag q, of which it is not known which one differs",
    causes.SERVERS: "of the servers, if both began with the same items and no client bypassed the recorder: no order of"
                    " connections explains it (the last section of docs/PROFILE.md)",
}
# what is said of each of several causes
ONE_OF = {
    causes.BEFORE: "items that the capture does not store, which tools/warm puts into it",
    causes.UNIQUES: "a `cas` of the same key, which names a unique", causes.EXPIRY: "an exptime of the same key",
    causes.LOST: "a loss of the item, by eviction or by a client that was not recorded",
    causes.PADDED: "a number in it that memcached pads", causes.REFUSED: "a line that zygos does not serve",
    causes.TIMES: "the order in which the server took commands that came at one time",
    causes.ORDER: "the order in which connections are served, for {}", causes.SERVERS: "the servers",
}
AFTER = "; tools/inline takes the order of arrival; what is left after it: tools/judge --warm --may-forget"


def said(key: Causes, why: str | None) -> str:
    """What is said of the differences that may have these causes; `why` is a reason why the order may be one."""
    text = SAID[key[0]] if len(key) == 1 else "may come of " + ", or of ".join(ONE_OF[cause] for cause in key) + AFTER
    return text.format(why)


def place_of(exchange: Exchange) -> str:
    """Where a difference is, in its session."""
    place = f", answer {max(exchange.one[0], exchange.other[0])}" if exchange.kind == steps.BOTH else \
        f", answer {exchange.one[0]}"
    if exchange.line is None:
        return place
    is_one = exchange.first == exchange.last or exchange.kind in (steps.ENDED, steps.LEFT)
    numbers = f"command {exchange.first}" if is_one else f"commands {exchange.first} to {exchange.last}"
    return f"{place}, {numbers}: {around(exchange.line, 0)}"


def main(words: list[str]) -> None:
    given, files = ends.options(words, OPTIONS)
    capture, left_out = given.get("--capture"), given.get("--except", [])
    if len(files) != 2 or [*files, capture].count("-") > 1:
        ends.stop("two files are compared; --help says more", 2)
    if capture is None and (unknown := set(left_out) - set(TELLING)):
        ends.stop(f"--except {min(unknown)} needs --capture, which says what was sent", 2)
    for option in ("--no-causes", "--seconds", "--order"):
        if option in given and (capture is None or "--no-causes" in given and option != "--no-causes"):
            ends.stop(f"{option} is of the search for causes, which --capture begins; --help says more", 2)
    gc.disable()  # what is read stays to the end
    screen = Screen()
    search = Search(given.get("--seconds", SECONDS), screen.ticker(), lambda why: screen.say(why + NEAR),
                    lambda why: screen.say(why + LIMITED), given.get("--order"))
    read = [outputs(name) for name in files]
    recorded = int(is_of_zygos(*read[0]) and not is_of_zygos(*read[1]))
    pair = [found for found, _ in read]
    comparison = Comparison(files, None if capture is None else Kept(capture), pair, recorded, "--all" in given, left_out,
                            None if "--no-causes" in given else search)
    for found in paired(*pair):
        comparison.compare(*found)
    screen.clear()
    ends.end(int(not comparison.end()))
