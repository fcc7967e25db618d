"""What comes next of two outputs and of the commands, and how badly they agree at each shift of one against another.

The answers and commands ahead are looked at again and again, at many shifts. So each answer has its token, each command
the tokens that fit it, and how badly they agree is kept as sums along each shift.
"""
from __future__ import annotations

from collections.abc import Iterable
from itertools import accumulate, compress, islice
from operator import contains, ne, not_
from typing import Generic, NamedTuple, TypeVar

from zygos_tools.protocol.answers import Group, without_uniques
from zygos_tools.protocol.fits import NONE, fitting, token_of

# how many answers are looked at ahead, and how many are passed over at most
LOOK, MOST = 64, 8
AHEAD = LOOK + MOST + 1
# what each eight answers ahead that differ count, in hundredths
WEIGHTS, EIGHT = (100, 70, 50, 35, 25, 18, 12, 9), 8
# how many are taken from a source at one time, how many are kept behind, and for how many shifts sums are kept
PIECE, BEHIND, SHIFTS = 64, 1024, 256

Given = TypeVar("Given")

# ---- what comes next


class Ahead(Generic[Given]):
    """What an iterator gives, and what comes after it; `taken` were passed over, and `kept` begins at `begin`."""

    def __init__(self, source: Iterable[Given]):
        self.source, self.kept, self.begin, self.taken = iter(source), list[Given](), 0, 0

    def get(self, at: int = 0) -> Given | None:
        """The next one, or one after it; None where there is none."""
        place = self.taken - self.begin + at
        if place < len(self.kept) or self.fill(place):
            return self.kept[place]
        return None

    @property
    def place(self) -> int:
        """Where the next one is in `kept`."""
        return self.taken - self.begin

    def fill(self, place: int) -> bool:
        """Takes more from the source. Gives whether there is one at this place."""
        if place >= len(self.kept):
            self.kept += islice(self.source, place - len(self.kept) + PIECE)
        return place < len(self.kept)

    def take(self) -> tuple[int, Given | None]:
        """The next one after its number."""
        found = self.get()
        if found is None:
            return self.taken, None
        self.taken += 1
        if self.taken - self.begin > BEHIND:
            self.forget()
        return self.taken - 1, found

    def forget(self) -> None:
        """What was passed over is not needed any more."""
        del self.kept[: self.taken - self.begin]
        self.begin = self.taken

    def left(self) -> int:
        """How many there are; they are passed over."""
        count = len(self.kept) - (self.taken - self.begin) + sum(1 for _ in self.source)
        self.taken += count
        self.forget()
        return count


class AnswersAhead(Ahead[bytes]):
    """The answers of an output; `known` has them without their uniques, and `tokens` their tokens, as far as they were
    asked for."""

    def __init__(self, source: Iterable[bytes]):
        super().__init__(source)
        self.known, self.tokens = list[object](), list[bytes]()

    def forget(self) -> None:
        count = self.taken - self.begin
        del self.known[:count], self.tokens[:count]
        super().forget()

    def learn(self, count: int) -> int:
        """Finds what is known of the next answers. Gives how many of these there are."""
        if len(self.tokens) < self.place:
            self.forget()
        end = self.place + count
        self.fill(end - 1)
        new = self.kept[len(self.tokens) : end]
        self.known += map(without_uniques, new)
        self.tokens += map(token_of, new)
        return min(count, len(self.kept) - self.place)

    def take_group(self, group: Group) -> tuple[int, bytes | None]:
        """The answers of the commands of a group, as one after the number of the first."""
        first = self.taken
        found: list[bytes] = []
        while len(found) < len(group) and (answer := self.take()[1]) is not None:
            found.append(answer)
            if group.is_last(found):
                break
        return first, b"".join(found) or None


class GroupsAhead(Ahead[Group]):
    """The groups of the commands of a stream; `fitting` has the tokens that fit them, as far as they were asked for, and
    `odd` is the number after the last of these whose answers are not known one by one."""

    def __init__(self, source: Iterable[Group]):
        super().__init__(source)
        self.fitting, self.odd = list[frozenset[bytes]](), 0

    def forget(self) -> None:
        del self.fitting[: self.taken - self.begin]
        super().forget()

    def learn(self, count: int) -> None:
        """Finds what fits the next commands; after the last one come empty lines."""
        if len(self.fitting) < self.place:
            self.forget()
        end = self.place + count
        self.fill(end - 1)
        for group in self.kept[len(self.fitting) : end]:
            if not group.is_plain:
                self.odd = self.begin + len(self.fitting) + 1
            self.fitting.append(fitting(group[0][1]))
        self.fitting += [NONE] * (end - len(self.fitting))

    def are_plain(self) -> bool:
        """Whether all commands that a look ahead reaches have one answer each."""
        self.learn(AHEAD)
        return self.odd <= self.taken


# ---- how badly answers agree


class Move(NamedTuple):
    """How far the answers of both are passed over, how many commands, and what that costs, in hundredths."""

    one: int
    other: int
    groups: int
    cost: int


class Shift:
    """One shift: how badly the answers agree, summed from the one with the number `begin` on."""

    __slots__ = "begin", "sums"

    def __init__(self, begin: int):
        self.begin, self.sums = begin, [0]


class Agreement:
    """How badly the next answers of two outputs agree, with each other and with their commands, at each shift.

    A pair of answers counts 1 if they differ, and 1 for each of them that does not fit the command; where one output has
    ended, the other's answer counts as one that differs.
    """

    def __init__(self, one: AnswersAhead, other: AnswersAhead, groups: GroupsAhead | None):
        self.one, self.other, self.groups = one, other, groups
        self.shifts: dict[tuple[int, int], Shift] = {}
        # how many answers of each are known, and how many of the first ones do not fit the first commands
        self.known: tuple[int, int] = (0, 0)
        self.unfit: tuple[list[int], list[int]] = ([], [])

    def look(self) -> tuple[int, int, int]:
        """Looks ahead from where both are now. Gives how many of the next answers differ, how many do not fit their
        commands, and how many there are."""
        self.known = self.one.learn(AHEAD), self.other.learn(AHEAD)
        end = min(*self.known, LOOK)
        one, other = self.one.place, self.other.place
        differing = list(map(ne, self.one.kept[one : one + end], self.other.kept[other : other + end]))
        odd = 0
        if self.groups:
            fitting = self.groups.fitting[self.groups.place :]
            fits, its_fit = (list(map(contains, fitting, side.tokens[side.place : side.place + LOOK]))
                             for side in (self.one, self.other))
            left = len(self.groups.kept) - self.groups.place  # an answer after those of the last command fits, if passed over
            self.unfit = unfit(fits[:left]), unfit(its_fit[:left])
            odd = sum(map(not_, fits[:end])) + sum(map(not_, compress(its_fit, differing)))
        return sum(differing), odd, end

    def cost(self, move: Move, most: int, is_paired: bool = False) -> int:
        """How badly the answers agree after a move, the nearest most, and how many of those that it passes over do not fit
        their commands; no more than about `most` is counted. With `is_paired` the first answers belong together all the
        same."""
        pass_one, pass_other, pass_groups, cost = move
        group = 0
        one = self.one.taken + pass_one
        other = self.other.taken + pass_other - one
        if self.groups:
            group = self.groups.taken + pass_groups - one
            cost += 100 * (self.unfit[0][pass_one if pass_one == pass_groups else is_paired]
                           + self.unfit[1][pass_other if pass_other == pass_groups else is_paired])
        if is_paired:
            cost += 100
        if cost >= most:
            return cost
        shift = self.shifts.get((other, group))
        if shift is None or not 0 <= one - shift.begin < len(shift.sums):
            shift = self.new_shift(one, other, group)
        # with the first answer whose other side has ended
        count = max(0, min(self.known[0] - pass_one, self.known[1] - pass_other, LOOK - 1)) + 1
        sums, at = shift.sums, one - shift.begin
        for weight, begin in zip(WEIGHTS, range(0, count, EIGHT)):
            end = min(begin + EIGHT, count)
            if at + end >= len(sums):
                self.extend(shift, other, group)
                at = one - shift.begin
            cost += weight * (sums[at + end] - sums[at + begin])
            if cost >= most:
                break
        return cost

    def new_shift(self, one: int, other: int, group: int) -> Shift:
        """The sums along a shift, from a number of the first output on."""
        if len(self.shifts) == SHIFTS:
            self.shifts.clear()
        self.shifts[other, group] = shift = Shift(one)
        return shift

    def extend(self, shift: Shift, other: int, group: int) -> None:
        """Adds to the sums of a shift the next pairs, as far as what comes next is known."""
        number = max(shift.begin, self.one.taken)
        del shift.sums[: number - shift.begin]
        shift.begin = number
        number += len(shift.sums) - 1
        count = AHEAD + min([self.groups.taken - group if self.groups else self.one.taken, *(
            taken for known, taken in zip(self.known, (self.one.taken, self.other.taken - other)) if known == AHEAD)]) - number
        one, its = number - self.one.begin, number + other - self.other.begin
        tokens, others = self.one.tokens[one : one + count], self.other.tokens[its : its + count]
        differing = list(map(ne, self.one.known[one : one + count], self.other.known[its : its + count]))
        found: list[int] = [*differing]
        longer = (tokens if len(tokens) > len(others) else others)[len(found) :]
        if self.groups:
            at = number + group - self.groups.begin
            fitting = self.groups.fitting[at : at + count]
            found = [differ + (not fits) + (differ and not its_fits) for differ, fits, its_fits in
                     zip(differing, map(contains, fitting, tokens), map(contains, fitting, others))]
            found += [1 + (token not in some) for token, some in zip(longer, fitting[len(found) :])]
        else:
            found += [1] * len(longer)
        found += [0] * (count - len(found))
        shift.sums += islice(accumulate(found, initial=shift.sums[-1]), 1, None)


# what may be passed over: answers with their commands, answers alone, and commands alone; or only answers
MOVES = [move for count in range(1, MOST + 1) for move in (
    Move(0, count, count, 100 * count), Move(count, 0, count, 100 * count), Move(0, count, 0, 100 * count + 50),
    Move(count, 0, 0, 100 * count + 50), Move(0, 0, count, 100 * count + 100))]
MOVES_OF_ANSWERS = [move for move in MOVES if move.groups and move.one + move.other]
# the same after a pair of answers that belong together
PAIRED = [move for count in range(1, MOST + 1) for move in (
    Move(1, 1 + count, 1 + count, 100 * count), Move(1 + count, 1, 1 + count, 100 * count))]


def unfit(fits: Iterable[bool]) -> list[int]:
    """How many of the first ones do not fit, for each number of them."""
    found = list(accumulate(map(not_, islice(fits, MOST + 1)), initial=0))
    return found + found[-1:] * (MOST + 2 - len(found))
