#!/usr/bin/env python3
"""Lies, planted in a recording: answers that no server could have given at their times.

usage: tests/lies.py CAPTURE REPLIES [NUMBER] [SEED]

As a command it plants a number of lies of each kind, one at a time (if left out, 1), and prints what the judge says.

The order that the judge has found says who saw whose work. A lie is planted only where times leave no doubt: where what
is answered was overwritten before the command began, or was stored after it had ended. Its value is one that a single
command stores, so nobody else can have stored it.
"""
import random
import sys
import time
from bisect import bisect_right
from collections import Counter, namedtuple

from zygos_tools.files.formats import replies_records, replies_version
from zygos_tools.files.part import Part
from zygos_tools.judging.events import ADD, CAS, DELETE, FLUSH, FOREVER, GET, INCR, SET, Verdict
from zygos_tools.judging.judge import Judge
from zygos_tools.judging.nearby import Nearby
from zygos_tools.judging.seeing import all_items
from zygos_tools.judging.table import VERBS

# a lie: what it is, and the answers that it puts in place of others, by their commands
Lie = namedtuple("Lie", "kind answers")


def outputs_of(replies):
    part = Part("replies", replies)
    return list(replies_records(part, replies_version(part)))


class Liar:
    """Who saw whose work in a recording; each kind of lie is a method that gives all lies of this kind."""

    def __init__(self, capture, replies):
        self.capture, self.outputs = capture, outputs_of(replies)
        judge = Judge(capture, self.outputs)
        judge.run()
        self.recording, self.keys, self.table = judge.recording, judge.keys, judge.table
        self.nearby = Nearby(self.table, self.keys.range_of)
        self.events = {key: self.keys.calls_on([key]).events for key in self.keys.names}
        self.stored = Counter(self.item(event) for some in self.events.values() for event in some if self.is_store(event))
        self.reads, self.seen = [], {}
        for key in sorted(self.keys.found):
            self.walk(self.keys.placed(key))

    @staticmethod
    def item(event):
        return event.flags, event.value

    def verb_of(self, asked):
        return VERBS[self.table.verb[asked.id]]

    def verb(self, event):
        return VERBS[self.table.verb[event.command]]

    def keys_of(self, asked):
        return self.table.meaning(asked.id).keys

    def all_asked(self):
        """The commands of each connection."""
        for some in self.recording.of_connection:
            yield [self.table.asked(one) for one in some]

    def is_store(self, event):
        return event.kind in (SET, ADD, CAS) and event.want in ("stored", None)

    def is_alone(self, event):
        """Whether nobody else can have stored what a call surely stored."""
        is_sure = event.kind == SET or event.want == "stored"
        return is_sure and self.stored[self.item(event)] == 1 and b"." in event.value

    def walk(self, placed):
        """The stores of a key in their order, each with the reads that saw it."""
        before, maker = None, None
        for event, is_change, _, _ in placed:
            if event.kind == GET and event.want == "hit" and self.verb(event) == "get" and maker is not None and \
                    self.is_mine(event):
                self.reads.append((event, maker, before))
                self.seen.setdefault(maker, []).append(event)
            elif is_change and event.kind != GET:
                before, maker = maker, event if self.is_store(event) and self.is_alone(event) else None

    def is_mine(self, event):
        keys = self.keys_of(event.asked)
        return not event.asked.original.startswith(b"gat") and len({*keys}) == len(keys)

    # ---- answers

    def instead(self, event, store):
        """The answer to the command of a read, where it sees what another call stored; None for no item."""
        text = b""
        for item, value in all_items(event.asked.answer):
            flags = item.flags
            if item.key == event.key:
                if store is None:
                    continue
                flags, value = store
            text += b"VALUE %s %d %d\r\n%s\r\n" % (item.key, flags, len(value), value)
        return text + b"END\r\n"

    def sees(self, event, store):
        return {event.asked: self.instead(event, self.item(store))}

    # ---- kinds of lies

    def value(self):
        """A read sees a value that nobody stored."""
        for event, _, _ in self.reads:
            yield {event.asked: self.instead(event, (event.flags, event.value + b"?"))}

    def stale(self):
        """A read sees what was overwritten before it began."""
        for event, maker, before in self.reads:
            if before is not None and before.end < maker.begin and maker.end < event.begin:
                yield self.sees(event, before)

    def early(self):
        """A read sees what is stored after it."""
        stores = {}
        for store in sorted(self.seen, key=lambda store: store.begin):
            stores.setdefault(store.key, []).append(store)
        begins = {key: [store.begin for store in some] for key, some in stores.items()}
        for event, _, _ in self.reads:
            later = bisect_right(begins[event.key], event.end)
            if later < len(begins[event.key]):
                yield self.sees(event, stores[event.key][later])

    def dropped(self):
        """A set changes nothing."""
        before_of = {maker: before for _, maker, before in self.reads}
        for store, events in self.seen.items():
            before = before_of[store]
            if before is not None and before.end < store.begin and any(store.end < event.begin for event in events):
                yield {asked: text for event in events for asked, text in self.sees(event, before).items()}

    def swapped(self):
        """Two clients get each other's answers."""
        alone = [one for one in self.reads if self.table.count_of_calls(one[0].command) == 1]
        for (event, maker, _), (other, later, _) in zip(alone, alone[1:]):
            if event.key == other.key and maker is not later and maker.end < later.begin and later.end < other.begin and \
                    event.connection != other.connection:
                yield {event.asked: other.asked.answer, other.asked: event.asked.answer}

    def mixed(self):
        """A client gets the answers to two commands the other way round."""
        for asked in self.all_asked():
            for one, other in zip(asked, asked[1:]):
                if one.answer and other.answer and self.verb_of(one) == self.verb_of(other) == "get" and \
                        not {*self.keys_of(one)} & {*self.keys_of(other)} and len(one.answer) + len(other.answer) > 10:
                    yield {one: other.answer, other: one.answer}

    def missed(self):
        """A read misses an item that was surely there."""
        for key, events in sorted(self.events.items()):
            if not any(event.kind in (DELETE, FLUSH) for event in events):
                first = min((event.end for event in events if event.kind == SET), default=FOREVER)
                for event in events:
                    if event.kind == GET and self.verb(event) == "get" and event.want == "hit" and event.begin > first:
                        yield {event.asked: self.instead(event, None)}

    def uncounted(self):
        """A count does not count: two give the same number, and nothing else has changed it."""
        for key in sorted(self.keys.found):
            last = None
            for event, is_change, _, _ in self.keys.placed(key):
                if event.kind == INCR and event.want == "number" and event.given:
                    if last is not None and self.only_counted(key, last, event):
                        yield {event.asked: b"%d\r\n" % last.number}
                    last = event
                elif is_change:
                    last = None

    def only_counted(self, key, one, other):
        """Whether nothing but counting up can have changed a key at the time of two calls."""
        near = self.nearby.overlapping([key], min(one.begin, other.begin), max(one.end, other.end))[key]
        return all(event.kind == GET or event.kind == INCR and event.want == "number" for event in self.table.events(near))

    def unstored(self):
        """An add is answered that it stored nothing, and its value was seen."""
        for store, events in self.seen.items():
            if store.kind == ADD and store.asked.answer == b"STORED\r\n" and events:
                yield {store.asked: b"NOT_STORED\r\n"}

    def lies(self, kind):
        return [Lie(kind, answers) for answers in getattr(self, kind)() if any(
            asked.answer != text for asked, text in answers.items())]

    def told(self, lie):
        """The outputs with a lie in them."""
        texts = {}
        for some in self.all_asked():
            for asked in some:
                texts.setdefault((asked.connection, asked.session), []).append(lie.answers.get(asked, asked.answer) or b"")
        return [one._replace(text=b"".join(texts.get(one[:2], []))) for one in self.outputs]


KINDS = ("value", "stale", "early", "dropped", "swapped", "mixed", "missed", "uncounted", "unstored")


def verdict(capture, outputs, **more):
    """The word of the judge, and its lines."""
    try:
        judge = Judge(capture, outputs, **more)
        judge.run()
        judge.certificate()
    except Verdict as said:
        return said.word, said.told()
    return "order found", []


def planted(capture, replies, count, seed=1):
    """Some lies of each kind, drawn."""
    liar, draw = Liar(capture, replies), random.Random(seed)
    for kind in KINDS:
        lies = liar.lies(kind)
        for lie in draw.sample(lies, min(count, len(lies))):
            yield lie, liar.told(lie)


def main(words):
    texts = []
    for name in words[:2]:
        with open(name, "rb") as file:
            texts.append(file.read())
    for lie, outputs in planted(*texts, *map(int, words[2:] or ["1"])):
        begin = time.process_time()
        word, lines = verdict(texts[0], outputs)
        took = time.process_time() - begin
        print(f"-- {lie.kind}: {word}, {took:.1f} s of processor time, {len(lines)} lines", *lines[:5], sep="\n   ", flush=True)


if __name__ == "__main__":
    main(sys.argv[1:])
