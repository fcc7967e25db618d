"""Joins the windows of a recording: the proved program judges each from the items that the one before it left.

By proof, windows that are joined so are explained as one recording. What a window leaves is kept beside it, in
NAME.000001.items and so on, so that a later run goes on after the last window that is joined.

The program takes one order of a window, which may leave another item than the next window shows: two stores that
overlap leave either, and a CAS value that no answer showed may be any. So if a window has no order from the items that
were left, those are looked for that it shows at first and that were not left. The window that left them is judged once
more, with retrievals of these keys at its end that show what the later window does (see `firsts`).
"""
from __future__ import annotations

import tempfile
from collections import Counter, defaultdict
from collections.abc import Iterable
from typing import Any, NamedTuple, Optional

from zygos_tools.cli.screen import Screen
from zygos_tools.judging import firsts
from zygos_tools.judging.events import counted
from zygos_tools.judging.firsts import NOTHING_SHOWN, Item, Shown, named
from zygos_tools.judging.keeping import Found, Kept, Link, Window
from zygos_tools.judging.processes import JudgeOne, Processes
from zygos_tools.recording.windows import window_name

# the items of keys, or None of a key without one
Items = dict[bytes, Optional[Item]]

ITEMS, FIRSTS = ".items", ".firsts"
FOUND = "order found"
# the options that the program and what reads a window take
OWN = ("--may-forget", "--shards", "--times", "--seconds")
# what is counted of the retrievals that are added
ADDED = "retrievals added at the end of a window"
# what it says if it does not know an order
SEARCHED = "unknown search"
# the command that it names if it found one, and its proved check refused that
REFUSED = "unknown search connection 0 command 0"
# how many keys are named of a window that is not joined, and how often retrievals are dropped
MOST_KEYS, MOST_TRIES = 4, 12


class Break(NamedTuple):
    """Why a window is not joined to the one before it, with the keys that this is about. With `is_no` there is no order of
    all."""

    why: str
    keys: list[str]
    is_no: bool = False


def reason(found: Found) -> str:
    """Why a window has no order."""
    faults = found.get("faults") or [{}]
    return str(faults[0].get("why") or found.get("fault") or "the process that asked has ended")


class Chain:
    """The windows of a recording in their order, each joined to the one before it if the proved program finds an order.
    `links` has those that have an order from the items of the one before or, if they begin a part, from others."""

    def __init__(self, name: str, given: dict[str, Any], windows: list[Window], kept: Kept, judge_one: JudgeOne,
                 screen: Screen, most: int):
        self.name, self.given, self.kept, self.judge_one = name, given, kept, judge_one
        self.screen, self.most = screen, most
        self.windows = {window.number: window for window in windows if window.is_there()}
        self.first, self.last = windows[0].number, windows[-1].number
        self.links: dict[int, Link] = {}
        # the retrievals that are added to a window, those that were left out again, and those that were tried
        self.added: dict[int, Items] = defaultdict(dict)
        self.left_out: dict[int, Items] = defaultdict(dict)
        self.tried: set[tuple[int, bytes, Optional[Item]]] = set()
        self.shown: dict[int, Shown] = {}
        # by window, the items that later ones show of the keys that it was the last to change, once they are known
        self.wanted: Optional[dict[int, Items]] = None
        # whether there was a window of which the program knew no order: then one is searched of the later ones too
        self.is_searched = False
        # what the program said of windows of which it finds no order at all, and the files of windows when it was asked
        self.alone: dict[int, str] = {}
        self.files: dict[int, list[list[Any]]] = {}

    def path(self, number: int) -> str:
        """Where the items are kept that a window left."""
        return window_name(self.name + ITEMS, number)

    # ---- what an earlier run did

    def resume(self) -> None:
        """Takes what an earlier run kept of these windows, and of those before the first whose files are gone since."""
        for number in self.windows:
            if link := self.kept.link(self.windows[number]):
                self.links[number] = link
        gone: dict[int, Link] = {}
        number, next_link = self.first - 1, self.links.get(self.first)
        while number and (link := self.kept.link(Window(number, "", ""))):
            if next_link and next_link.before not in (None, link.items):
                return
            gone[number] = next_link = link
            if not link.before:
                self.links.update(gone)
                return
            number -= 1

    def holds(self, number: int) -> bool:
        """Whether a window is joined to the one before it, or is known not to be."""
        link, before = self.links.get(number), self.links.get(number - 1)
        if link is None:
            return False
        if before and not link.before:
            return link.broken is not None and link.broken[0] == before.items
        return link.before == before.items if before else not link.before and link.is_warm == self.is_warm(number)

    def is_warm(self, number: int) -> bool:
        """Whether a window that begins a part may begin with any items."""
        return number > 1 or "--warm" in self.given

    # ---- the windows in their order

    def run(self, hopeless: set[int]) -> None:
        """Joins the windows that are there, each to the one before it if there is an order; `hopeless` have none."""
        number = self.first
        while number <= self.last:
            earlier = number - 1
            if number in hopeless or number not in self.windows:
                self.links.pop(number, None)
                number += 1
            elif self.holds(number) or self.has_failed(number):
                number += 1
            elif earlier in self.links and not self.has_items(earlier):
                del self.links[earlier]
                number = earlier if earlier in self.windows else number
            else:
                number = self.take(number)

    def has_failed(self, number: int) -> bool:
        """Whether an earlier run asked the program about a window, and found no order at all."""
        before = self.links.get(number - 1)
        why = self.kept.failure(self.windows[number], before.items if before else None)
        if why:
            self.alone[number] = why
            self.links.pop(number, None)
        return bool(why)

    def take(self, number: int) -> int:
        """Looks for an order of a window. Gives the window to go on with."""
        self.screen.show(f"window {number} of {self.last} is joined to those before it")
        self.links.pop(number, None)
        self.files[number] = self.kept.files_of(self.windows[number])
        before = self.links.get(number - 1)
        words = {"--from": self.path(number - 1)} if before else self.words_for_part(number)
        if self.wanted is None and number < self.last:
            self.look_ahead(number)
        found = self.asked_often(number, words)
        if self.is_joined(number, found, before):
            return number + 1
        again = self.mend(number, found) if before else 0
        if not again and self.added[number] and not self.is_searched:
            self.leave_out(number, list(self.added[number]))
            again = number
        if again:
            return again
        if before and found.get("answered"):
            broken = [before.items, *self.broken(number, found)]
            self.added[number].update(self.left_out.pop(number, {}))
            found = self.asked_often(number, self.words_for_part(number))
            if self.is_joined(number, found, None, broken):
                return number + 1
        self.alone[number] = reason(found)
        if found.get("answered"):
            self.kept.keep_failure(self.windows[number], before.items if before else None, self.alone[number],
                                   self.files[number])
        return number + 1

    def asked_often(self, number: int, words: dict[str, Any]) -> Found:
        """What the program finds of a window, without the retrievals that stand in the way. If it knows no order, one is
        searched, in which all keys have at last what later windows show."""
        found: Found = {}
        if not self.is_searched:
            found = self.asked(number, {**words, "unsearched": True}, self.added[number])
            self.is_searched = SEARCHED in reason(found)
        if self.is_searched:
            self.add_wanted(number, is_all=True)
            found = self.asked(number, words, self.added[number])
        for _ in range(MOST_TRIES):
            if found.get("verdict") == FOUND or found.get("needed") or not self.drop(number, found):
                break
            found = self.asked(number, words, self.added[number])
        return found

    def drop(self, number: int, found: Found) -> bool:
        """Drops retrievals that were added to a window: those of the keys of which there is no order, or half of all if the
        program found an order and its check refused it. Gives whether there are such ones."""
        added = self.added[number]
        keys = {key for fault in found.get("faults", ()) for key in fault["keys"]}
        some = [key for key in added if named([key]) in keys]
        if not some and (not keys or REFUSED in reason(found)):
            some = list(added)[len(added) // 2 :]
        self.leave_out(number, some)
        return bool(some)

    def leave_out(self, number: int, keys: Iterable[bytes]) -> None:
        """Leaves out retrievals of these keys that were added to a window."""
        for key in keys:
            self.left_out[number][key] = self.added[number].pop(key)

    def words_for_part(self, number: int) -> dict[str, Any]:
        """The words for a window that begins a part: from items that it may have begun with, of those that were left last
        and those that it shows at first."""
        if not self.is_warm(number):
            return {}
        shown = self.see(number)
        last = max((one for one in self.links if one < number and self.has_items(one)), default=0)
        firsts.begin_with(shown, self.path_of_first(number), self.path(last) if last else "")
        return {"--from": self.path_of_first(number)}

    def path_of_first(self, number: int) -> str:
        """Where the items are kept with which a window began that begins a part."""
        return window_name(self.name + FIRSTS, number)

    def asked(self, number: int, words: dict[str, Any], added: Items) -> Found:
        """What the program finds of a window that begins so, with these items shown at its end."""
        return self.asked_by(number, {**words, "--to": self.path(number), "--over": True, "helpers": self.most}, added)

    def asked_by(self, number: int, words: dict[str, Any], added: Items) -> Found:
        """The same by these words."""
        words = {**{name: self.given[name] for name in OWN if name in self.given}, **words}
        window = self.windows[number]
        if not added:
            return self.in_process(self.judge_one, window, words) or {}
        with tempfile.TemporaryDirectory() as folder:
            names = firsts.copy_asking([window.capture, window.replies], added, folder)
            return self.in_process(self.judge_one, Window(number, *names), words) or {} if names else {}

    def in_process(self, work: JudgeOne, window: Window, words: dict[str, Any]) -> Any:
        """What a process says of a window."""
        return next((found for _, found in Processes(1, work).found([(window, words)])), None)

    def is_joined(self, number: int, found: Found, before: Optional[Link], broken: Optional[list[Any]] = None) -> bool:
        """Whether an order was found, which is kept then; `broken` is why not from the items that were left."""
        if found.get("verdict") != FOUND:
            return False
        gets, translated = len(self.added[number]), dict(found["translated"])
        if gets:
            translated[ADDED] = gets
        files = [*self.files[number], self.kept.file_of(self.path(number))]
        counts = {"commands": found["commands"] - gets, "ended": found["ended"] - gets, "translated": translated}
        link = Link(before.items if before else None, files[2][2], not before and self.is_warm(number),
                    [firsts.text_of(key) for key in self.added[number]], counts, broken)
        self.kept.keep_link(self.windows[number], link, files)
        self.links[number] = link
        return True

    def broken(self, number: int, found: Found) -> Break:
        """Why a window is not joined to the one before it."""
        differing = self.differing(number)
        sources = {number - 1: set(differing), **{one: keys for one, keys in self.sources(number - 1, differing).items()
                                                  if one != number - 1}}
        for one, keys in sources.items():
            for key in self.refuted(one, {key: differing[key] for key in keys}, number):
                return Break(f"key {named([key])}: it shows {firsts.told(differing[key])} at first, which no order of window"
                             f" {one} leaves", [named([key])], True)
        if differing:
            return self.differs(number, differing)
        fault: Found = next(iter(found.get("faults") or ()), {})
        return Break(f"no order was found from the items that window {number - 1} left: {reason(found)}",
                     list(fault.get("keys", ())))

    def differs(self, number: int, differing: Items) -> Break:
        """Names the keys of which a window shows other items at first than were left."""
        left = firsts.items_in(self.path(number - 1), differing)
        some = [f"{named([key])}: it shows {firsts.told(item)} at first, and window {number - 1} left"
                f" {firsts.told(left.get(key))}" for key, item in sorted(differing.items())[:MOST_KEYS]]
        more = f"; and {counted(len(differing) - MOST_KEYS, 'more key')}" if len(differing) > MOST_KEYS else ""
        return Break(f"key {'; key '.join(some)}{more}", [named([key]) for key in sorted(differing)])

    # ---- items that were not left

    def see(self, number: int) -> Shown:
        """What a window shows. With the first one all later ones are read too, side by side."""
        if number not in self.shown:
            left = [window for window in self.windows.values()
                    if window.number >= number and window.number not in self.shown]
            self.screen.show(f"reading {counted(len(left), 'window')} for the items that keys had at first")
            for window, found in Processes(self.most, firsts.line_of).found((window, self.given) for window in left):
                self.shown[window.number] = firsts.of_line(found)
        return self.shown[number]

    def differing(self, number: int) -> Items:
        """The items that a window shows at first, if its server was left with others."""
        shown = self.see(number).firsts
        left = firsts.items_in(self.path(number - 1), shown)
        return {key: item for key, item in shown.items() if not firsts.is_same(item, left.get(key))}

    def mend(self, number: int, found: Found) -> int:
        """Has earlier windows asked for the items that this one shows at first, or has in an order that was searched. Gives
        the first of them, which is judged again; 0 if there is none."""
        items = {**firsts.items_of(found.get("needed", ())), **self.differing(number)}
        wanted = {key: item for key, item in items.items() if firsts.can_ask(key)}
        added = [one for one, keys in self.sources(number - 1, wanted).items() for key in keys
                 if self.is_added(one, key, wanted[key])]
        if added:
            self.look_ahead(min(added))
            self.forget(min(added))
        return min(added, default=0)

    def is_added(self, number: int, key: bytes, item: Optional[Item]) -> bool:
        """Adds a retrieval at the end of a window, unless that was tried."""
        if number not in self.windows or (number, key, item) in self.tried:
            return False
        self.tried.add((number, key, item))
        self.take_up(number)
        self.added[number][key] = item
        return True

    def look_ahead(self, number: int) -> None:
        """Adds the retrievals that later windows will ask for, from a window on: of CAS values which only they show."""
        for one in self.wanted_items():
            if one >= number:
                self.add_wanted(one)

    def add_wanted(self, number: int, is_all: bool = False) -> None:
        """Adds the retrievals to a window that later ones will ask for: of all items that they show at first, or only of
        those with a CAS value that the window does not show."""
        for key, item in self.wanted_items().get(number, {}).items():
            is_new = item and item.unique is not None and self.see(number).uniques.get(key) != item.unique
            if (is_all or is_new) and key not in self.added[number] and firsts.can_ask(key):
                self.is_added(number, key, item)

    def wanted_items(self) -> dict[int, Items]:
        """By window, the items that later ones show at first, of the keys that it was the last to change."""
        if self.wanted is None:
            self.wanted = defaultdict(dict)
            changers: dict[bytes, list[int]] = defaultdict(list)
            flushed = 0
            for number in range(self.first, self.last + 1):
                shown = self.see(number) if number in self.windows else NOTHING_SHOWN
                for key, item in shown.firsts.items():
                    self.want(key, item, [one for one in changers.get(key, ()) if one > flushed] or [flushed])
                for key in shown.changed:
                    changers[key].append(number)
                flushed = number if shown.changes_all else flushed
        return self.wanted

    def want(self, key: bytes, item: Optional[Item], changers: list[int]) -> None:
        """Takes the item that a key had after these windows, which may have changed it: that of the last one, and of those
        before it as long as what comes after them cannot have made it."""
        assert self.wanted is not None
        for one in reversed(changers):
            if one not in self.windows:
                return
            old = self.wanted[one].get(key)
            if key not in self.wanted[one] or old and item and old.unique is None and old[:2] == item[:2]:
                self.wanted[one][key] = item
            shown = self.see(one)
            if item is None or shown.changes_all or shown.changed[key].can_be(item):
                return

    def sources(self, number: int, keys: Iterable[bytes]) -> dict[int, set[bytes]]:
        """By window, which of these keys it was the last that may have changed, up to a window."""
        found: dict[int, set[bytes]] = {}
        left = set(keys)
        while left and number in self.windows:
            link = self.links.get(number)
            own = {key for key in left if self.see(number).has_changed(key)} if link and link.before else left
            if own:
                found[number] = own
            left, number = left - own, number - 1
        return found

    def has_items(self, number: int) -> bool:
        """Whether the items are still there that a window left."""
        return self.kept.has_items(self.path(number), self.links[number])

    def take_up(self, number: int) -> None:
        """Takes up what an earlier run added to a window: its items show it."""
        keys = [firsts.bytes_of(key) for key in self.links[number].gets] if number in self.links else []
        if keys and not self.added[number] and self.has_items(number):
            left = firsts.items_in(self.path(number), keys)
            self.added[number].update({key: left.get(key) for key in keys})

    def forget(self, number: int) -> None:
        """Has a window and those after it judged again."""
        for one in [one for one in self.links if one >= number]:
            self.take_up(one)
            del self.links[one]

    def refuted(self, number: int, items: Items, later: int) -> list[bytes]:
        """The keys of which a window cannot leave these items, whatever there was before, although a later one shows
        them at first. None is refuted if what lies between may have been read otherwise, or if its item may be lost."""
        windows = [self.see(one) for one in range(number, later + 1) if one in self.windows]
        if len(windows) <= later - number or not all(one.is_sure for one in windows):
            return []
        may_be_lost = {key for one in self.windows if one >= number for key in self.see(one).expiring}
        if number in self.links and self.has_items(number):
            may_be_lost |= firsts.read_items(self.path(number), items)[1]
        asked = {key: item for key, item in items.items() if firsts.can_ask(key) and key not in may_be_lost}
        words = {"unsearched": True, **({"--warm": True} if self.is_warm(number) else {})}
        found = self.asked_by(number, words, asked) if asked else {}
        names = {named([key]): key for key in asked}
        faults = found.get("faults", ()) if found.get("verdict") == "no" else ()
        return [names[key] for fault in faults for key in fault["keys"] if key in names]

    # ---- what is found

    def breaks(self) -> dict[int, Break]:
        """The windows that are not joined to the one before them, which has an order."""
        return {number: Break(*link.broken[1:]) for number, link in sorted(self.links.items()) if link.broken}

    def parts(self) -> list[list[int]]:
        """The windows that are joined, each part by its first and its last one."""
        parts: list[list[int]] = []
        for number, link in sorted(self.links.items()):
            if link.before:
                parts[-1][1] = number
            else:
                parts.append([number, number])
        return parts

    def translated(self) -> Counter[str]:
        """What was translated or added, over all windows."""
        counts: Counter[str] = Counter()
        for link in self.links.values():
            counts.update(link.found["translated"])
        return counts
