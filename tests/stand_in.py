#!/usr/bin/env python3
"""Stands for ./zygos in tests of tools/judge --windows: `judge` on single-key commands, by trying all orders, with items.

usage: tests/stand_in.py judge [--warm] [--may-forget] [--shards N]
       tests/stand_in.py judge [--from] [--to] [--may-forget] [--shards N]

It reads a capture, with --from an items file, and a replies file from standard input, and says `yes`, `no` or `unknown` as
the program does. It knows `set`, `add`, `delete`, `get` and `gets`, and looks for an order in which calls that
overlap come in any sequence; of those that explain the answers it takes the first, by the last bytes that were sent. So
its searches are for a few commands that overlap only. If commands on the key `hard` overlap, it finds no order.
"""
import itertools
import sys

import checks
from zygos_tools.files.formats import (Item, Items, Segment, capture_head, capture_records, items_file, read_items,
                                       replies_records, replies_version)
from zygos_tools.files.part import Part

class Call:
    """A command: its connection and number there, when it was sent and answered, its words, its value and its answer."""

    def __init__(self, connection, number, sent, words, value):
        self.connection, self.number, self.sent, self.words, self.value = connection, number, sent, words, value
        self.ended, self.answer = float("inf"), None
        self.key = words[1]


def read_input(text, has_items):
    """The calls of a recording, and the items file between its parts."""
    part = Part("capture", text)
    version, count = capture_head(part)
    records = list(capture_records(part, version, count))
    calls = [[] for _ in range(count)]
    marked = [0] * count
    for at, record in enumerate(records):
        if not isinstance(record, Segment):
            continue
        if not record.text:
            calls[record.connection][marked[record.connection]].ended = at
            marked[record.connection] += 1
            continue
        line, _, rest = record.text.partition(b"\r\n")
        words = line.split()
        calls[record.connection].append(Call(record.connection, len(calls[record.connection]), at, words, rest[:-2]))
    items = Part("items", part.text[part.at:])
    found = read_items(items) if has_items else Items(0, [], [])
    replies = Part("replies", items.text[items.at:])
    for one in replies_records(replies, replies_version(replies)):
        left = one.text
        for call in calls[one.connection]:
            end = left.index(b"END\r\n") + 5 if call.words[0] in (b"get", b"gets") else left.index(b"\r\n") + 2
            call.answer, left = left[:end], left[end:]
    return calls, found


def made(call, state):
    """What a key has after a call, if its answer fits; the unique is that which the answer shows, or none."""
    name, answer = call.words[0], call.answer
    if name == b"set" or name == b"add" and (state is None or state == "any" and answer == b"STORED\r\n"):
        return answer in (b"STORED\r\n", None), (int(call.words[2]), None, call.value)
    if name == b"add":
        return answer == b"NOT_STORED\r\n", state
    if name == b"delete":
        return answer == (b"NOT_FOUND\r\n" if state is None else b"DELETED\r\n") or state == "any", None
    if answer == b"END\r\n":
        return state is None or state == "any", None
    head, value = answer.split(b"\r\n")[:2]
    words = head.split()
    shown = int(words[2]), int(words[4]) if len(words) > 4 else None, value
    if state == "any":
        return True, shown
    fits = state is not None and state[::2] == shown[::2] and None in (state[1], shown[1]) or state == shown
    return fits, shown if shown[1] is not None else state


def order_of(calls, first):
    """The item that a key is left with after some order of its calls; None if there is none."""
    waiting = sorted(calls, key=lambda call: call.sent)

    def go_on(left, state):
        if not left:
            return [state]
        for call in left:
            if any(other.ended < call.sent or other.connection == call.connection and other.number < call.number for other in left):
                continue
            fits, after = made(call, state)
            if fits and (found := go_on([other for other in left if other is not call], after)):
                return found
        return None

    return go_on(waiting, first)


def judged(text, words):
    """The status and the output."""
    if "--warm" in words and {"--from", "--to"} & set(words):
        return 2, b""
    calls, found = read_input(text, "--from" in words)
    if any(call.words[0] not in (b"get", b"gets", b"set", b"add", b"delete") for own in calls for call in own):
        return 7, b"unknown other connection 0 command 0\n"
    hard = sorted((call for own in calls for call in own if call.key == b"hard"), key=lambda call: call.sent)
    for one, other in zip(hard, hard[1:]):
        if other.sent < one.ended:
            return 7, f"unknown search connection {one.connection} command {one.number}\n".encode()
    items, bound = {one.key: (one.flags, one.unique, one.value) for one in found.items}, found.bound
    everything = list(itertools.chain(*calls))
    for key in sorted({call.key for call in everything}):
        own = [call for call in everything if call.key == key]
        found = order_of(own, items.get(key, "any" if "--warm" in words else None))
        if found is None:
            last = max((call for call in own if call.words[0] in (b"get", b"gets")), default=own[-1], key=lambda call: call.sent)
            return 1, f"no unmet connection {last.connection} command {last.number} part 0\n".encode()
        [item] = found
        items.pop(key, None)
        if item not in (None, "any"):
            if item[1] is None:
                bound += 1
                item = item[0], bound, item[2]
            bound = max(bound, item[1])
            items[key] = item
    ended = sum(call.ended < float("inf") for call in everything)
    line = f"yes commands {len(everything)} ended {ended}\n".encode()
    left = [Item(key, *items[key]) for key in sorted(items)]
    return 0, line + (items_file(Items(bound, left, [])) if "--to" in words else b"")


def main():
    checks.help_if_asked()
    with open("words", "a", encoding="utf-8") as file:
        file.write(" ".join(sys.argv[1:]) + "\n")
    status, said = judged(sys.stdin.buffer.read(), sys.argv[1:])
    sys.stdout.buffer.write(said)
    sys.stdout.flush()
    sys.exit(status)


if __name__ == "__main__":
    main()
