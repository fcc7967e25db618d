"""Looks for an order of all calls of a recording, step by step."""
from __future__ import annotations

from array import array
from collections.abc import Callable, Iterable, Iterator

from zygos_tools.files.formats import Output
from zygos_tools.judging import pairing, sharing, times
from zygos_tools.judging.certificate import Certificate
from zygos_tools.judging.clock import Clock, Late, search
from zygos_tools.judging.doubts import Doubts, leave_out_entering
from zygos_tools.judging.events import No, Unknown, Verdict
from zygos_tools.judging.graph import Graph
from zygos_tools.judging.keys import Keys
from zygos_tools.judging.mending import MOST_TURNS, Mending, keys_in
from zygos_tools.judging.numbering import Stores, numbered
from zygos_tools.judging.reading import Recording, keys_left_out
from zygos_tools.judging.seeing import Seeing
from zygos_tools.judging.sorting import Sorting
from zygos_tools.judging.table import DROPPED, HAS_UNIQUE, V_FAULT
from zygos_tools.protocol.answers import FAULT
from zygos_tools.protocol.meaning import line_of


# of a recording without commands
NOTHING = "no command was recorded"


class Unfitted(Unknown):
    """The orders of some keys were not fitted to each other."""


class Judge:
    """The search for an order of a recording; `order` has the nodes of its graph once `run` has ended.

    With `is_first` the search stops at the first fault. `faults` has what is said of answers that no run gives, and of
    keys that have no order. `is_chosen` says which keys are looked at; `is_closed` is whether no command names some
    that are and some that are not. `asks` is called with what was read, before an answer is held against its command,
    if all sessions can be followed.
    """

    def __init__(self, capture: bytes, outputs: Iterable[Output], shards: int = 16, kind: str | None = None,
                 is_warm: bool = False, loses: bool = False, limit: int = 200000, clock: Clock | None = None,
                 has_reasons: bool = True, is_first: bool = True, is_chosen: Callable[[bytes], bool] | None = None,
                 asks: Callable[[Recording], None] | None = None):
        self.clock, self.shards, self.is_first = clock or Clock(), shards, is_first
        self.recording = Recording(capture, shards, self.clock.look)
        self.table = self.recording.table
        self.clock.set("reading answers")
        unfollowed = pairing.pair(self.recording, outputs)
        if not self.table.verb:
            raise Unknown(NOTHING)
        self.kind = times.set_times(self.recording, kind)
        leave_out_entering(self.recording)
        if asks and not unfollowed:
            asks(self.recording)
        self.is_closed = self.leave_out(is_chosen) if is_chosen else True
        seeing = Seeing(self.recording, is_chosen or (lambda _: True))
        seeing.all()
        self.faults: list[Verdict] = self.of_sessions(unfollowed, is_chosen or (lambda _: True)) + seeing.faults
        if is_first and self.faults:
            raise self.worst()
        self.clock.set("sorting calls by keys")
        self.keys = Keys(self.table, loses, is_warm, limit, self.clock.look, Doubts(self.recording), has_reasons,
                         is_chosen)
        self.is_numbered = shards == 1 and any(want & HAS_UNIQUE for want in self.table.want)
        self.graph: Graph | None = None
        self.order: array[int] = array("I")

    def of_sessions(self, unfollowed: list[pairing.Unfollowed], is_chosen: Callable[[bytes], bool]) -> list[Verdict]:
        """What is said of the sessions that cannot be followed, if their commands concern the keys that are chosen."""
        for one in unfollowed:
            if not one.concerns(self.table, is_chosen):
                self.recording.notes["commands that cannot be followed left out"] += len(one.commands)
        return [one.verdict for one in unfollowed if one.concerns(self.table, is_chosen)]

    def leave_out(self, is_chosen: Callable[[bytes], bool]) -> bool:
        """Leaves out the commands on keys that are not chosen. Gives whether no command names both kinds."""
        table, is_closed = self.table, True
        chosen = [is_chosen(key) for key in table.keys]
        for command, state in enumerate(table.state):
            keys = [table.key[call] for call in table.calls_of(command)]
            if not state & DROPPED and not keys and table.verb[command] == V_FAULT:
                self.leave_out_line(command, is_chosen)
            if state & DROPPED or not keys or keys[0] < 0:
                continue
            several = {chosen[key] for key in keys}
            if several == {False}:
                table.state[command] |= DROPPED
                self.recording.notes["commands on keys left out"] += 1
            is_closed = is_closed and len(several) == 1
        return is_closed

    def leave_out_line(self, command: int, is_chosen: Callable[[bytes], bool]) -> None:
        """Leaves out a line that the profile leaves out, and that the server carried out on keys that are not chosen."""
        answer, keys = self.table.answer(command), keys_left_out(line_of(self.table.original(command)))
        if keys and not any(map(is_chosen, keys)) and answer is not None and not FAULT.match(answer):
            self.table.state[command] |= DROPPED
            self.recording.notes["commands on keys left out"] += 1

    def worst(self) -> Verdict:
        """The first `no`, or else the first fault."""
        return next((fault for fault in self.faults if isinstance(fault, No)), self.faults[0])

    def run(self) -> None:
        """Finds an order, or raises No or Unknown."""
        self.search()
        if self.faults:
            raise self.worst()
        self.merge()

    def search(self, processes: int = 1) -> None:
        """Finds the orders of all keys; those that have none are among the faults."""
        if processes > 1:
            sharing.search_in(processes, self.keys, self.clock, self.faults)
            if self.is_first and self.faults:
                raise self.worst()
            return
        search(self.keys, self.keys.names, self.clock, self.faults, self.is_first)

    def merge(self) -> None:
        """Makes one order of those of all keys, in that of the uniques if there is such a one."""
        seconds = self.clock.for_fitting()
        with self.clock.share(seconds):
            try:
                self.merge_once()
            except Late as late:
                raise Unfitted(f"{late.why}; no common order was found in {seconds or 0:.0f} seconds; give --seconds more") from None
        self.check_times()

    def merge_once(self) -> None:
        """The same, if there is time for it."""
        try:
            self.merge_all()
        except Unfitted:
            if not self.is_numbered:
                raise
            self.is_numbered = False
            self.merge_all()

    def merge_all(self) -> None:
        """Makes one order of those of all keys, and mends these where they do not fit."""
        self.clock.set("one order of all")
        graph, mending = Graph(self.table), Mending(self.table, self.keys, self.clock.look)
        sorting, stores = self.linked(graph)
        while not sorting.run(self.clock.look):
            circles = sorting.circles(self.clock.look)
            if mending.turns == MOST_TURNS:
                raise Unfitted(f"{keys_in(circles, self.table)}: no common order of these was found in {MOST_TURNS} attempts")
            self.clock.set(f"one order of all, {len(sorting.order) / sorting.due:.0%}:"
                           f" {keys_in(circles, self.table)} are fitted to each other")
            mending.turn(circles, sorting.high, stores.in_order() if stores else ())
            if stores:
                high = sorting.high
                sorting, stores = self.linked(graph)
                sorting.high = high
        order = numbered(graph, stores) if stores else None
        self.keys.orders.listener = None
        self.graph, self.order = graph, graph.ordered(order or sorting.order)

    def linked(self, graph: Graph) -> tuple[Sorting, Stores | None]:
        """The graph with the orders of all keys. Their changes change it, if stores need not keep the order of their
        uniques."""
        graph.link(self.keys.found)
        stores = Stores(self.table, self.keys.found) if self.is_numbered else None
        rising = stores.in_order() if stores else []
        for one, other in zip(rising, rising[1:]):
            graph.add_link(one, other)
        sorting = Sorting(graph)
        self.keys.orders.listener = None if stores else sorting.change
        return sorting, stores

    def calls(self) -> Iterator[int]:
        """The calls of the order, without losses."""
        count = len(self.table.kind)
        return (node for node in self.order if node < count)

    def places(self) -> Iterator[tuple[int, int]]:
        """The calls of the order: the connection, and the number of the command among those of the connection."""
        table = self.table
        for call in self.calls():
            command = table.command[call]
            yield table.connection[command], table.number[command]

    def check_times(self) -> None:
        """Sees that the order keeps to the times: no call comes after one that began when it had ended."""
        latest, table = 0, self.table
        for call in self.calls():
            command = table.command[call]
            if table.end[command] < latest:
                raise AssertionError("the order that was found does not keep to the times")
            latest = max(latest, table.begin[command])

    def certificate(self) -> Certificate:
        """The files for the order that was found."""
        assert self.graph
        self.clock.no_limit()
        self.clock.set("writing")
        begins = self.table.hint if self.kind == times.NONE else self.table.begin
        return Certificate(self.recording, self.order, self.graph.base, self.graph.lost, self.keys, begins)
