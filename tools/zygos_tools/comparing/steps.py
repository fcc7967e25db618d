"""Which answers of two servers belong to one command, also where one of them was silent or said more.

Both sides are in step while they answer the same command. Where they differ, the answers ahead say whether they still
are: each has to fit its command, and most of them are the same on both sides. If not, the fewest answers are passed
over after which they are.
"""
from __future__ import annotations

import functools
from collections.abc import Iterator, Sequence
from typing import NamedTuple

from zygos_tools.comparing.ahead import (EIGHT, LOOK, MOVES, MOVES_OF_ANSWERS, PAIRED, WEIGHTS, Agreement,
                                         AnswersAhead, GroupsAhead, Move)
from zygos_tools.protocol.answers import Group, answers, groups, name_of, without_uniques
from zygos_tools.protocol.fits import MOST_KEPT, SHORT, fits, fitting, is_answered, is_fault, token_of
from zygos_tools.protocol.meaning import Command
from zygos_tools.protocol.table import TELLING

# the number of an answer, and its bytes; None in place of bytes where there is none
Numbered = tuple[int, "bytes | None"]
# the number of a command, its line and its meaning
Asked = tuple[int, bytes, Command]


class Exchange(NamedTuple):
    """An exchange: the number of the first command and of the last, the name, the line of the first command and its
    group, and what two servers answered, each as the number of its first answer and its bytes."""

    kind: str
    first: int | None
    last: int
    name: str | None
    line: bytes | None
    group: Sequence[Asked]
    one: Numbered
    other: Numbered


# what an exchange is: the answers of both; that of one, where the other has none and goes on; the end of one output,
# with the number of answers that are left of the other; and all that is left, where both are never in step again
BOTH, ALONE, ENDED, LEFT = "both", "alone", "ended", "left"

# for how many answers the step is not asked again while they fit their commands: for twice as many each time that both
# are in step
LEAST_SURE, MOST_SURE = 16, 1024
# what is known of answers that differ is kept, as some come again and again
unmarked = functools.lru_cache(MOST_KEPT)(without_uniques)


def alike(one: bytes, other: bytes) -> bool:
    """Whether two answers are the same but for the numbers of their uniques."""
    return one == other or one[:2] == other[:2] and unmarked(one) == unmarked(other)


class Steps:
    """The exchanges of a session; without its commands only the answers are known."""

    def __init__(self, one: bytes, other: bytes, stream: bytes | None = None):
        self.one, self.other = AnswersAhead(answers(one)), AnswersAhead(answers(other))
        self.groups = None if stream is None else GroupsAhead(groups(stream))
        self.agreement = Agreement(self.one, self.other, self.groups)
        self.sure, self.next_sure = 0, LEAST_SURE

    def exchange(self, kind: str, group: Group | None, one: Numbered, other: Numbered) -> Exchange:
        """What is exchanged; it has a name if both differ."""
        if self.groups is not None and group:
            first, line, _ = group[0]
            name = name_of(line) if one[1] != other[1] else None
            return Exchange(kind, first, group[-1][0], name, line, group, one, other)
        name = "no command" if self.groups is not None else named_by(one[1], other[1])
        return Exchange(kind, None, 0, name, None, (), one, other)

    def all(self) -> Iterator[Exchange]:
        """The exchanges in order."""
        while True:
            one, other = self.one.get(), self.other.get()
            if one is None and other is None:
                return
            group = self.groups.get() if self.groups else None
            if group and not group.is_plain:
                yield from self.of_group(group)
            elif one is None or other is None:
                yield self.finish(self.exchange(ENDED, group, (self.one.taken, one), (self.other.taken, other)))
            elif one == other:
                yield self.pair(group)
            else:
                yield from self.both(group, one, other)

    def of_group(self, group: Group) -> Iterator[Exchange]:
        """Commands whose answers are not known one by one."""
        if group.is_silent:
            yield from self.perhaps(group)
            return
        self.skip_group()
        yield self.exchange(BOTH, group, self.one.take_group(group), self.other.take_group(group))

    def perhaps(self, group: Group) -> Iterator[Exchange]:
        """A command that has an error for an answer, or none."""
        is_one, is_other = self.answering(0, 0, 0)
        self.skip_group()
        one = self.one.take() if is_one else (self.one.taken, None)
        other = self.other.take() if is_other else (self.other.taken, None)
        texts = [one[1], other[1]]
        if texts != [None, None]:
            yield self.exchange(ALONE if None in texts else BOTH, group, one, other)

    def skip_group(self) -> None:
        """Passes over the next command."""
        if self.groups:
            self.groups.take()

    def answering(self, one_at: int, other_at: int, group_at: int) -> tuple[bool, bool]:
        """Which sides answer such a command: those whose next answer is an error, unless it is the other's answer to
        the command after it."""
        one, other = self.one.get(one_at), self.other.get(other_at)
        if not is_fault(one) or not is_fault(other):
            return is_fault(one), is_fault(other)
        if one != other:
            return one != self.other.get(other_at + 1), other != self.one.get(one_at + 1)
        lines = self.lines(group_at)
        return (is_answered(lines, list(self.texts(self.one, one_at, len(lines)))),
                is_answered(lines, list(self.texts(self.other, other_at, len(lines)))))

    def lines(self, at: int) -> list[bytes]:
        """The lines of the next commands, up to one whose answers are not known one by one."""
        found: list[bytes] = []
        while len(found) < SHORT and (line := self.line(at)) is not None:
            found.append(line)
            at += 1
        return found

    @staticmethod
    def texts(side: AnswersAhead, at: int, count: int) -> Iterator[bytes]:
        for number in range(at, at + count):
            text = side.get(number)
            if text is None:
                return
            yield text

    def finish(self, exchange: Exchange) -> Exchange:
        """All that is left is one exchange, whose last command is the number of answers that are left."""
        return exchange._replace(last=max(self.one.left(), self.other.left()))

    def both(self, group: Group | None, one: bytes, other: bytes) -> Iterator[Exchange]:
        """Both sides go on, with answers that differ."""
        if alike(one, other):
            yield self.pair(group)
            return
        for side, text, longer in ((self.one, one, other), (self.other, other, one)):
            if side.get(1) is None and longer.startswith(text):
                found = self.exchange(ENDED, group, (self.one.taken, None if side is self.one else longer),
                                      (self.other.taken, None if side is self.other else longer))
                side.take()
                yield self.finish(found)
                return
        move = self.move(group, one, other)
        if move is None:
            found = self.exchange(LEFT, group, (self.one.taken, one), (self.other.taken, other))
            yield self.finish(found)
            return
        if not move.one and not move.other and not move.groups:
            yield self.pair(group)
        yield from self.passed(move)

    def pair(self, group: Group | None) -> Exchange:
        """The next answers of both belong to the next command."""
        if group and self.groups:
            self.groups.take()
        if self.sure:
            self.sure -= 1
        return self.exchange(BOTH, group, self.one.take(), self.other.take())

    def passed(self, move: Move) -> Iterator[Exchange]:
        """The answers that a move passes over, each of one side alone."""
        groups_left = move.groups if self.groups else 0
        for side in [self.one] * move.one + [self.other] * move.other:
            group = self.groups.get() if self.groups and groups_left else None
            if groups_left:
                self.skip_group()
                groups_left -= 1
            taken = side.take()
            one, other = (taken, (self.other.taken, None)) if side is self.one else ((self.one.taken, None), taken)
            yield self.exchange(ALONE, group, one, other)
        for _ in range(groups_left):
            self.skip_group()

    # ---- the step

    def move(self, group: Group | None, one: bytes, other: bytes) -> Move | None:
        """What is passed over so that both are in step; a move of nothing where they are; None if they never are. The next
        command and answers are given."""
        stay = Move(0, 0, 0, 0)
        if self.sure and (not group or all(token_of(text) in fitting(group[0][1]) for text in (one, other))):
            return stay
        is_plain = self.groups is None or self.groups.are_plain()
        differ, odd, seen = self.agreement.look() if is_plain else self.ahead()
        if differ <= seen // (2 if self.groups else 8) and not odd:
            self.be_sure()
            return stay
        cost = self.agreement.cost if is_plain else self.cost
        best, least = stay, cost(stay, LOOK * 400)
        for move in PAIRED:
            least = min(least, cost(move, least, True))
        for move in MOVES if self.groups else MOVES_OF_ANSWERS:
            found = cost(move, least)
            if found < least:
                best, least = move, found
        if best is stay and odd > seen and seen > 4:
            return None
        if best is stay and not odd:
            self.be_sure()
        else:
            self.sure, self.next_sure = 0, LEAST_SURE
        return best

    def be_sure(self) -> None:
        self.sure, self.next_sure = self.next_sure, min(2 * self.next_sure, MOST_SURE)

    def pairs(self, one_at: int, other_at: int,
              group_at: int) -> Iterator[tuple[bytes | None, bytes | None, bytes | None]]:
        """The next answers after some that are passed over, in step, each pair with the line of its command; None in
        place of an answer at an end. They end before commands whose answers are not known one by one."""
        for _ in range(LOOK):
            line = None
            while self.groups:
                group = self.groups.get(group_at)
                if group and (len(group) > 1 or not group.is_whole):
                    return
                line = group[0][1] if group else b""
                if not group or not group.is_silent:
                    break
                is_one, is_other = self.answering(one_at, other_at, group_at)
                one_at, other_at, group_at = one_at + is_one, other_at + is_other, group_at + 1
            one, other = self.one.get(one_at), self.other.get(other_at)
            if one is not None or other is not None:
                yield one, other, line
            if one is None or other is None:
                return
            one_at, other_at, group_at = one_at + 1, other_at + 1, group_at + 1

    def ahead(self) -> tuple[int, int, int]:
        """How many of the next answers differ, how many do not fit their commands, and how many there are."""
        differ = odd = seen = 0
        for one, other, line in self.pairs(0, 0, 0):
            if one is None or other is None:
                break
            seen += 1
            differ += one != other
            odd += not self.fits(line, one)
            odd += one != other and not self.fits(line, other)
        return differ, odd, seen

    def line(self, at: int) -> bytes | None:
        """The line of a later command; None where it is not known."""
        group = self.groups.get(at) if self.groups else None
        return group[0][1] if group and len(group) == 1 else None

    @staticmethod
    def fits(line: bytes | None, answer: bytes) -> bool:
        return line is None or fits(line, answer)

    def cost(self, move: Move, most: int, is_paired: bool = False) -> int:
        """The same as the cost of an agreement, where commands ahead may have several answers or none."""
        cost = move.cost
        if is_paired:
            line = self.line(0)
            cost += 100 + 100 * sum(not self.fits(line, side.get() or b"") for side in (self.one, self.other))
        for side, count in ((self.one, move.one), (self.other, move.other)):
            for at in range(is_paired, count if count == move.groups else 0):
                if (answer := side.get(at)) is not None:
                    cost += 100 * (not self.fits(self.line(at), answer))
        for at, (one, other, line) in enumerate(self.pairs(move.one, move.other, move.groups)):
            texts = [text for text in (one, other) if text is not None]
            differ = len(texts) < 2 or one != other and not alike(*texts)
            cost += WEIGHTS[at // EIGHT] * (differ + sum(not self.fits(line, text) for text in texts[: 1 + differ]))
            if cost >= most:
                break
        return cost


def by_commands(stream: bytes, one: bytes, other: bytes) -> Iterator[Exchange]:
    """The exchanges of a session with two servers, cut by its commands."""
    return Steps(one, other, stream).all()


def by_answers(one: bytes, other: bytes) -> Iterator[Exchange]:
    """The exchanges of a session of which only the answers are known."""
    return Steps(one, other).all()


def named_by(one: bytes | None, other: bytes | None) -> str | None:
    """The name of the command of two answers, where they show it; else None."""
    for name, begin in TELLING.items():
        if one and other and one.startswith(begin) and other.startswith(begin):
            return name
    return None
