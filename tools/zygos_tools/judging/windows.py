"""Judges the windows of a recording, and says one verdict: first several at a time, each by itself, and then each from the
items that the one before it left (see `chain`).

What is found of a window is kept in a file beside the windows, with the sums of the window's files and of what judges,
so that a later run judges only what is new.
"""
from __future__ import annotations

import json
import os
import re
import time
from collections import Counter
from typing import Any, Optional

from zygos_tools.cli import ends
from zygos_tools.cli.screen import Screen
from zygos_tools.judging import asking, sharing
from zygos_tools.judging.chain import Break, Chain
from zygos_tools.judging.events import counted
from zygos_tools.judging.judge import NOTHING
from zygos_tools.judging.keeping import Found, Kept, Window, sum_of_judge
from zygos_tools.judging.processes import JudgeOne, Processes
from zygos_tools.judging.times import SEGMENTS
from zygos_tools.recording.windows import DIGITS, window_name

CAPTURE, REPLIES, KEPT = ".cap", ".replies", ".judged"
WINDOW = re.compile(rf"(?P<stem>.+)\.(?P<number>[0-9]{{{DIGITS},}})"
                    rf"(?P<ending>{re.escape(CAPTURE)}|{re.escape(REPLIES)})")
APART = "the windows were judged one by one: nothing says whether each began with the items that the one before it left"
# why they are not joined
CHOSEN = "the proved program, which joins windows, judges all keys"
ASSUMED = "the proved program, which joins windows, takes no --times segments"
LACKING = "the proved program, which joins windows, cannot be run"
BUSY = "another tools/judge judges these windows"
ENDED = "the process that judged it has ended"
FOUND = "order found"
# how an `unknown` begins if the patterns match no key of a window
NO_KEY = "no key "
STATUS = {FOUND: 0, "no": 1, "unknown": 7}
# options that are for one recording
ALONE = ("--out", "--order", "--over", "--from", "--to")
# how many windows without an order are named
MOST_FAULTS = 100


def windows_in(folder: str) -> tuple[str, list[Window]]:
    """The name of the recording whose windows a folder has, without ending, and these windows in order, from the first
    to the last whose capture is there."""
    found = [match for one in os.listdir(folder) if (match := WINDOW.fullmatch(one))]
    stems = sorted({one["stem"] for one in found})
    if len(stems) > 1:
        ends.stop(f"{folder} has windows of several recordings: {', '.join(stems)}; --windows takes a folder with one",
                  2)
    numbers = [int(one["number"]) for one in found if one["ending"] == CAPTURE]
    if not numbers:
        ends.stop(f"{folder} has no windows, as NAME.{1:0{DIGITS}}{CAPTURE} and NAME.{1:0{DIGITS}}{REPLIES}", 2)
    name = os.path.join(folder, stems[0])
    return name, [Window(number, window_name(name + CAPTURE, number), window_name(name + REPLIES, number))
                  for number in range(min(numbers), max(numbers) + 1)]


# ---- the verdict


def brief(found: Found) -> Found:
    """What is kept of the line of --json. A window without commands that are judged is as good as one with an order."""
    faults = found.get("faults") or []
    why = faults[0]["why"] if faults else found.get("fault", "")
    is_empty = found["verdict"] == "unknown" and (why == NOTHING or why.startswith(NO_KEY))
    return {"verdict": FOUND if is_empty else found["verdict"], "empty": is_empty, "proved": found.get("proved", False),
            "commands": found.get("commands") or 0, "translated": found.get("translated", {}),
            "checked": found.get("checked"), "keys": faults[0]["keys"] if faults else [], "why": why}


def ranges_of(numbers: list[int]) -> list[list[int]]:
    """Rising numbers as ranges, each by its first and its last number."""
    ranges: list[list[int]] = []
    for number in numbers:
        if ranges and ranges[-1][1] + 1 == number:
            ranges[-1][1] = number
        else:
            ranges.append([number, number])
    return ranges


class Judging:
    """The windows of a folder, which are judged by the words of the command."""

    def __init__(self, given: dict[str, Any], judge_one: JudgeOne, zygos: str):
        self.given, self.judge_one, self.zygos, self.begun = given, judge_one, zygos, time.monotonic()
        self.is_json, self.screen = "--json" in given, Screen()
        self.name, self.windows = windows_in(given["--windows"])
        self.found: dict[int, Found] = {}
        self.missing: list[int] = []
        self.new: set[int] = set()
        # what joins them, or why nothing does
        self.chain: Optional[Chain] = None
        self.apart = ""

    def say(self, line: str) -> None:
        """Prints a line."""
        self.screen.clear()
        if not self.is_json:
            print(line)

    def words_for(self, window: Window) -> dict[str, Any]:
        """The words with which a window is judged: before each but the first there may have been items."""
        left = {name: value for name, value in self.given.items() if name not in ("--windows", "--processes", "--json")}
        return {**left, "--warm": True} if window.number > 1 else left

    def run(self) -> int:
        """Judges the windows, prints what is to be said, and gives the status."""
        self.apart = self.why_apart(asking.is_there(self.zygos))  # it is made once, not by each process
        words = {name: value for name, value in self.given.items()
                 if name not in ("--windows", "--processes", "--json", "--warm")}
        kept = Kept(self.name + KEPT, sum_of_judge(self.zygos), words, "--warm" in self.given)
        with kept.file:
            if not kept.lock():
                self.finish("unknown", [f"unknown: {BUSY}"], [])
                return STATUS["unknown"]
            most = self.given.get("--processes") or sharing.free_processors(sharing.LEAST_CALLS)
            if not self.apart:
                self.chain = Chain(self.name, self.given, self.windows, kept, self.judge_one, self.screen,
                                   most)
            self.judge(kept, most)
        return self.conclude()

    def why_apart(self, is_there: bool) -> str:
        """Why the windows are not joined; nothing if they are."""
        if {"--keys", "--except-keys"} & set(self.given):
            return CHOSEN
        return ASSUMED if self.given.get("--times") == SEGMENTS else "" if is_there else LACKING

    def judge(self, kept: Kept, most: int) -> None:
        """Judges the windows by themselves, and joins them. An order is searched only for those that are not joined: before
        that the proved program is asked about each, unless there is only one process."""
        chain = self.chain
        if chain:
            chain.resume()
            self.take_joined(chain)
            refuted = self.ask(kept, most) if most > 1 else set()
            chain.run(refuted | {number for number, found in self.found.items() if found["verdict"] == "no"})
            self.new.update(chain.files)
            self.take_joined(chain)
        self.search(kept, most)
        first = min([self.windows[0].number, *(chain.links if chain else ())]) if "--warm" in self.given else 1
        there = {window.number for window in self.windows if window.is_there()} | (chain.links.keys() if chain else set())
        self.missing = [number for number in range(first, self.windows[-1].number + 1) if number not in there]

    def take_joined(self, chain: Chain) -> None:
        """Takes the windows of which the chain has an order."""
        for number, link in chain.links.items():
            self.found[number] = {**brief({"verdict": FOUND, "proved": True, **link.found}),
                                  "empty": not link.found["commands"]}

    def left(self, kept: Kept) -> list[tuple[Window, dict[str, Any]]]:
        """The complete windows without a kept result, with the words for each."""
        left = []
        for window in self.windows:
            if window.number in self.found or not window.is_there():
                continue
            words = self.words_for(window)
            known = kept.known(window, words)
            if known is None:
                left.append((window, words))
            else:
                self.found[window.number] = known
        return left

    def ask(self, kept: Kept, most: int) -> set[int]:
        """Asks the proved program about each window by itself, several at a time. Keeps the orders that it finds, and gives
        the windows that it refutes."""
        left, refuted = self.left(kept), set()
        files = {window.number: kept.files_of(window) for window, _ in left}
        asked = Processes(most, self.judge_one).found((window, {**words, "unsearched": True}) for window, words in left)
        for done, (window, found) in enumerate(asked, 1):
            if found and found["verdict"] == "no":
                refuted.add(window.number)
            elif found and found["verdict"] == FOUND:
                self.take(kept, window, found, files[window.number])
            self.screen.show(f"{done:,} of {counted(len(left), 'window')} asked about")
        return refuted

    def search(self, kept: Kept, most: int) -> None:
        """Judges each complete window without a result by itself, several at a time."""
        left = self.left(kept)
        files = {window.number: kept.files_of(window) for window, _ in left}
        self.screen.show(f"{counted(len(left), 'window')} to judge")
        for done, (window, found) in enumerate(Processes(most, self.judge_one).found(left), 1):
            self.take(kept, window, found, files[window.number])
            self.screen.show(f"{done:,} of {counted(len(left), 'window')} judged")

    def take(self, kept: Kept, window: Window, found: Optional[Found], files: list[list[Any]]) -> None:
        """Takes what was found of a window, and keeps a verdict."""
        self.new.add(window.number)
        self.found[window.number] = brief(found) if found else {**brief({"verdict": "unknown"}), "why": ENDED}
        if found and found["verdict"] != "fault":
            kept.keep(window, self.words_for(window), self.found[window.number], files)

    # ---- what is said

    def conclude(self) -> int:
        """Says the verdict, and gives the status."""
        faults = sorted((number, found) for number, found in self.found.items() if found["verdict"] != FOUND)
        breaks = self.breaks()
        words = {found["verdict"] for _, found in faults} | {"no" if one.is_no else "unknown" for one in breaks.values()}
        word = "no" if "no" in words else "unknown" if words or self.missing else FOUND
        lines = self.told(faults, breaks) if word != FOUND else [self.joined() if self.chain else self.agreed()]
        self.finish(word, [*lines, *self.told_joined(word)], faults)
        return STATUS[word]

    def breaks(self) -> dict[int, Break]:
        """The windows that are not joined, although they have an order by themselves: to the one before, or to any."""
        if not self.chain:
            return {}
        alone = {number: Break(f"it has an order, by search, and nothing is joined to it: {why}", [])
                 for number, why in self.chain.alone.items() if self.found[number]["verdict"] == FOUND}
        return {**self.chain.breaks(), **alone}

    def told_joined(self, word: str) -> list[str]:
        """What is said of the items between windows."""
        if not self.chain:
            return [f"{APART} ({self.apart})"]
        counts = self.chain.translated()
        some = ", ".join(f"{name} {count:,}" for name, count in sorted(counts.items()) if count)
        lines = [f"translated: {some}"] * bool(some)
        parts = self.chain.parts()
        if word == FOUND:
            first = "the first one with any" if self.chain.links[parts[0][0]].is_warm else "the first one with none"
            return [f"each window begins with the items that the one before it left, {first}", *lines]
        several = [f"{first} to {last}" for first, last in parts if last > first]
        return [f"joined are windows {', '.join(several)}" if several else "no windows are joined", *lines]

    def counts(self) -> dict[str, int]:
        """How many windows there are, and how many have an order, have none or are unknown."""
        words = Counter(found["verdict"] for found in self.found.values())
        return {"windows": len(self.found) + len(self.missing), "ordered": words[FOUND], "without": words["no"],
                "unknown": len(self.found) - words[FOUND] - words["no"]}

    def commands(self) -> int:
        """How many commands the windows have."""
        return sum(found["commands"] for found in self.found.values())

    def is_proved(self, word: str) -> bool:
        """Whether the proved program gave this verdict: that of a window without an order, or those of all windows."""
        if word == "no":
            return any(found["verdict"] == "no" and found["proved"] for found in self.found.values())
        return word == FOUND and all(found["proved"] or found["empty"] for found in self.found.values())

    def joined(self) -> str:
        """What is said if all windows are joined."""
        windows, commands = counted(len(self.found), "window"), counted(self.commands(), "command")
        return f"{FOUND}, by the proved program, in {windows} as one recording: {commands}"

    def agreed(self) -> str:
        """What is said if each window has an order."""
        proved = sum(found["proved"] for found in self.found.values())
        empty = sum(found["empty"] for found in self.found.values())
        some = ([f", {proved:,} by the proved program"] * bool(proved)
                + [f", {empty:,} with nothing to judge"] * bool(empty))
        windows, commands = counted(len(self.found), "window"), counted(self.commands(), "command")
        return f"{FOUND} in each of {windows}{''.join(some)}: {commands}"

    def told(self, faults: list[tuple[int, Found]], breaks: dict[int, Break]) -> list[str]:
        """What is said of windows without an order, of those where that is not known, of those that are not joined, and of
        those that are missing."""
        heads = [f"{headed(found)}: window {number}: {found['why']}" for number, found in faults]
        heads += [f"{'no' if one.is_no else 'unknown'}: window {number}: {one.why}" for number, one in breaks.items()]
        heads += [f"unknown: {missed(first, last)}" for first, last in ranges_of(self.missing)]
        heads.sort(key=lambda head: head.startswith("unknown"))
        more = [f"  and {len(heads) - MOST_FAULTS:,} more"] * (len(heads) > MOST_FAULTS)
        counts = self.counts()
        return [heads[0], *(f"  {head}" for head in heads[1:MOST_FAULTS]), *more,
                f"{counted(counts['windows'], 'window')}: {counts['ordered']:,} with an order,"
                f" {counts['without']:,} without, {counts['unknown']:,} unknown, {len(self.missing):,} missing"]

    def finish(self, word: str, lines: list[str], faults: list[tuple[int, Found]]) -> None:
        """Prints these lines, or one of JSON."""
        for line in lines:
            self.say(line)
        if self.is_json:
            translated: Counter[str] = Counter()
            for found in self.found.values():
                translated.update(found["translated"])
            print(json.dumps({"verdict": word, "proved": self.is_proved(word),
                              "chained": word == FOUND and self.chain is not None, **self.counts(),
                              "parts": self.chain.parts() if self.chain else [],
                              "breaks": [{"window": number, "verdict": "no" if one.is_no else "unknown", "keys": one.keys,
                                          "why": one.why} for number, one in sorted(self.breaks().items())],
                              "missing": self.missing, "new": len(self.new), "commands": self.commands(),
                              "translated": dict(translated), "said": lines[0],
                              "faults": [{"window": number, **found} for number, found in faults[:MOST_FAULTS]],
                              "seconds": round(time.monotonic() - self.begun, 1)}))


def missed(first: int, last: int) -> str:
    """What is said of windows that are missing."""
    return f"window {first} is missing" if first == last else f"windows {first} to {last} are missing"


def headed(found: Found) -> str:
    """The first words about a window without an order."""
    if found["verdict"] != "no":
        return "unknown"
    return "proved no" if found["proved"] and not found["translated"] else "no"
