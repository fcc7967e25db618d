"""One order of all calls, made of the orders of the keys.

The calls are nodes of a graph. Its edges are: a call and the next one of its connection; of each key, a call that
changed it and those that saw it so, and these and the next one that changed it; and times, by barriers: a call comes
before the first barrier after its end, and behind the last one before its begin. An order of the graph is an order of
the whole. Where there is none, the calls of one connection (of a multiple get, or of commands that were sent together)
bind keys to each other in a circle.

Nothing is kept of an edge: the nodes after another one are worked out from the next call of its connection, the
barriers, and its place in the order of its key.
"""
from __future__ import annotations

from array import array
from bisect import bisect_right
from collections import deque
from collections.abc import Callable, Iterable, Iterator, Sequence

from zygos_tools.judging.events import FLUSH, FOREVER
from zygos_tools.judging.orders import CHANGED, WAS_LOST, Order
from zygos_tools.judging.table import DROPPED, LOST, Table

# a part of more nodes is mended by short circles in it: of how many nodes, at most, found among how many
MOST_NODES, MOST_LENGTH, MOST_REACHED = 150, 12, 500
NONE = -1
# by the marks of a call, whether it changed its key; the marks of calls without losses
IS_CHANGE, NO_LOSS = bytes([mark & CHANGED for mark in range(256)]), bytes([0, CHANGED])
NOWHERE: dict[int, int] = {}


class Line:
    """The nodes of the order of a key, the losses of its items among them; `is_change` says of each whether it changed
    the key."""

    __slots__ = ("nodes", "is_change")

    def __init__(self, nodes: array[int], is_change: bytearray):
        self.nodes, self.is_change = nodes, is_change

    def stop(self, at: int) -> int:
        """Where the next node is that changed the key; behind the last one if there is none."""
        found = self.is_change.find(1, at + 1)
        return len(self.nodes) if found < 0 else found

    def change_before(self, at: int) -> int:
        """Where the last node before a place is that changed the key; the first place if there is none."""
        return max(0, self.is_change.rfind(1, 0, at))

    def after(self, at: int) -> Sequence[int]:
        """The nodes after the one of a place."""
        stop, nodes = self.stop(at), self.nodes
        if self.is_change[at] and stop > at + 1:
            return nodes[at + 1 : stop]
        return nodes[stop : stop + 1]

    def count_before(self) -> Iterator[tuple[int, int]]:
        """How many nodes come directly before each, if any do."""
        has_changed, seen = False, 0
        for node, is_change in zip(self.nodes, self.is_change):
            if not is_change:
                seen += 1
                if has_changed:
                    yield node, 1
                continue
            if seen or has_changed:
                yield node, seen or 1
            has_changed, seen = True, 0


class Graph:
    """Nodes are the calls by their numbers, the barriers behind them, and then the losses of items.

    `following` has the next call of the connection of a call, and `barrier` the first barrier after its end. `spots`
    has the places of calls in the line of their key, and `flushed` those of flushes in all lines. `lost` has the keys
    of losses; losses that are `free` are of no key. `left` has how many nodes come directly before each.
    """

    def __init__(self, table: Table):
        self.table, self.count = table, len(table.kind)
        self.times = barriers(table)
        self.base = self.count + len(self.times)
        self.before = array("I", bytes(4 * self.base))
        self.following, self.barrier = array("i", [NONE]) * self.count, array("i", [NONE]) * self.count
        self.firsts = array("I", bytes(4 * (len(self.times) + 1)))
        self.put_calls()
        self.lines: dict[int, Line] = {}
        self.spots = array("I", bytes(4 * self.count))
        self.flushed: dict[int, dict[int, int]] = {}
        self.linked: dict[int, list[int]] = {}
        self.lost: list[bytes] = []
        self.spot_of_loss: list[tuple[int, int]] = []
        self.free: list[int] = []
        self.found: dict[bytes, Order] = {}
        self.left: list[int] = []

    def put_calls(self) -> None:
        """The edges of connections and of times."""
        table, before, times = self.table, self.before, self.times
        last: dict[int, int] = {}
        commands, connections, states = table.command, table.connection, table.state
        begins, ends = table.begin, table.end
        for barrier in range(1, len(times)):
            before[self.count + barrier] = 1
        begun, at = 0, -1
        for call in range(self.count):
            command = commands[call]
            while begun < len(times) and times[begun] <= begins[command]:
                self.firsts[begun] = call
                begun += 1
            if states[command] & DROPPED:
                continue
            connection = connections[command]
            previous = last.get(connection, NONE)
            if previous >= 0:
                self.following[previous] = call
                before[call] += 1
            last[connection] = call
            if begun:
                before[call] += 1
            end = ends[command]
            if end < FOREVER:
                at = bisect_right(times, end)
                if at < len(times):
                    self.barrier[call] = self.count + at
                    before[self.count + at] += 1
        for at in range(begun, len(times) + 1):
            self.firsts[at] = self.count

    # ---- the orders of keys

    def link(self, found: dict[bytes, Order]) -> None:
        """Puts the orders of the keys into the graph."""
        self.lines, self.flushed, self.linked, self.lost, self.spot_of_loss, self.free = {}, {}, {}, [], [], []
        self.found, self.left = found, list(self.before)
        for key, order in found.items():
            number = self.table.key_of[key]
            line = self.lines[number] = Line(*self.nodes_of(key, order))
            self.set_spots(number, line, 0, len(line.nodes))
            for node, many in line.count_before():
                self.left[node] += many

    def nodes_of(self, key: bytes, order: Order) -> tuple[array[int], bytearray]:
        """The nodes of calls in their order, and whether each changed the key: the calls, and their losses."""
        changes = order.marks.translate(IS_CHANGE)
        if not order.marks.strip(NO_LOSS):
            return array("I", order.calls), changes
        nodes, is_change = array("I"), bytearray()
        for call, mark, change in zip(order.calls, order.marks, changes):
            if mark & WAS_LOST:
                nodes.append(self.loss(key))
                is_change.append(1)
            nodes.append(call)
            is_change.append(change)
        return nodes, is_change

    def loss(self, key: bytes) -> int:
        """A loss of an item of a key."""
        if self.free:
            node = self.free.pop()
            self.lost[node - self.base] = key
            return node
        self.lost.append(key)
        self.spot_of_loss.append((0, 0))
        self.left.append(0)
        return self.base + len(self.lost) - 1

    def set_spots(self, number: int, line: Line, first: int, last: int) -> None:
        """Notes where the nodes of some places of a line are."""
        spots, kinds, count, base = self.spots, self.table.kind, self.count, self.base
        for at in range(first, last):
            node = line.nodes[at]
            if node >= base:
                self.spot_of_loss[node - base] = number, at
            elif node < count:
                if kinds[node] == FLUSH:
                    self.flushed.setdefault(node, {})[number] = at
                else:
                    spots[node] = at

    def spot(self, number: int, node: int) -> int:
        """Where a call is in the line of a key."""
        return self.flushed[node][number] if self.table.kind[node] == FLUSH else self.spots[node]

    def part_of(self, key: bytes, first: int, last: int) -> tuple[int, Line, int, int]:
        """The line of a key, with the places in it of some places of its order."""
        number = self.table.key_of[key]
        line, calls = self.lines[number], self.found[key].calls
        if len(line.nodes) == len(calls) or first >= last:
            return number, line, first, last
        begin, end = self.spot(number, calls[first]), self.spot(number, calls[last - 1]) + 1
        return number, line, begin - (begin > 0 and line.nodes[begin - 1] >= self.base), end

    def exchange(self, key: bytes, number: int, first: int, last: int, order: Order) -> int:
        """Puts nodes in place of others in the line of a key. Gives where they end."""
        line = self.lines[number]
        for node in line.nodes[first:last]:
            if node >= self.base:
                self.free.append(node)
            elif self.table.kind[node] == FLUSH:
                del self.flushed[node][number]
        nodes, is_change = self.nodes_of(key, order)
        line.nodes[first:last] = nodes
        line.is_change[first:last] = is_change
        end = first + len(nodes)
        self.set_spots(number, line, first, end if end == last else len(line.nodes))
        return end

    def add_link(self, one: int, other: int) -> None:
        """One call comes before another one."""
        self.linked.setdefault(one, []).append(other)
        self.left[other] += 1

    # ---- nodes

    def by_keys(self, node: int) -> Sequence[int]:
        """The nodes that come after another one by the order of a key."""
        if node >= self.base:
            number, at = self.spot_of_loss[node - self.base]
            return self.lines[number].after(at)
        if node >= self.count:
            return ()
        table = self.table
        found: Sequence[int] = ()
        if table.kind[node] == FLUSH:
            found = [other for number, at in self.flushed.get(node, NOWHERE).items()
                     for other in self.lines[number].after(at)]
        else:
            mine, at = self.lines.get(table.key[node]), self.spots[node]
            if mine is not None and at < len(mine.nodes) and mine.nodes[at] == node:
                found = mine.after(at)
        return [*found, *self.linked[node]] if node in self.linked else found

    def after(self, node: int) -> list[int]:
        """The nodes that come after another one."""
        if node >= self.base:
            return list(self.by_keys(node))
        if node >= self.count:
            barrier = node - self.count
            found = [other for other in range(self.firsts[barrier], self.firsts[barrier + 1])
                     if not self.table.state[self.table.command[other]] & DROPPED]
            return [*found, node + 1] if node + 1 < self.base else found
        found = list(self.by_keys(node))
        if self.following[node] >= 0:
            found.append(self.following[node])
        if self.barrier[node] >= 0:
            found.append(self.barrier[node])
        return found

    def weight(self, node: int) -> int:
        """When a call probably ended; nothing of other nodes."""
        return self.table.hint[self.table.command[node]] if node < self.count else 0

    def is_call(self, node: int) -> bool:
        """Whether a node is a call or a loss."""
        return node < self.count or node >= self.base

    # ---- orders of the whole

    def ordered(self, order: Iterable[int]) -> array[int]:
        """The calls and losses of an order, without the calls that were not made; losses are numbered anew."""
        kept, count, base = self.kept(), self.count, self.base
        found = array("I")
        lost: list[bytes] = []
        for node in order:
            if node < count:
                if kept[node]:
                    found.append(node)
            elif node >= base:
                found.append(base + len(lost))
                lost.append(self.lost[node - base])
        self.lost = lost
        return found

    def kept(self) -> bytearray:
        """Whether each call was made: of the commands that may not have been carried out, those of which a call is in
        the order of its key."""
        table = self.table
        kept = bytearray([not table.state[command] & (LOST | DROPPED) for command in table.command])
        for command, state in enumerate(table.state):
            if state & LOST and not state & DROPPED:
                calls = table.calls_of(command)
                if any(self.is_in_line(call) for call in calls):
                    kept[calls.start : calls.stop] = bytes([1] * len(calls))
        return kept

    def is_in_line(self, call: int) -> bool:
        """Whether a call is in the order of a key."""
        if self.table.kind[call] == FLUSH:
            return bool(self.flushed.get(call))
        line, at = self.lines.get(self.table.key[call]), self.spots[call]
        return line is not None and at < len(line.nodes) and line.nodes[at] == call

    # ---- circles

    def circles(self, left: list[int], look: Callable[[], None] = lambda: None) -> list[list[int]]:
        """Circles among these nodes: the strongly connected parts of more than one node (Tarjan), and in place of a
        large one some short circles in it."""
        parts, found = Parts(self, left), []
        for node in left:
            if node not in parts.index:
                parts.visit(node)
        for part in parts.found:
            found += [part] if len(part) <= MOST_NODES else self.short_circles(part, look) or [part]
        return found

    def goes_back(self, node: int, inside: set[int]) -> bool:
        """Whether a link of a key goes from a call to another that probably did not end after it, or to a loss."""
        weight, base = self.weight(node), self.base
        return any(other in inside and (other >= base or self.weight(other) <= weight) for other in self.by_keys(node))

    def short_circles(self, part: list[int], look: Callable[[], None]) -> list[list[int]]:
        """Short circles in a strongly connected part, without a node in common. Each circle has a link from a call to
        another that probably ended before it, so only those with such a link are tried, each with calls
        that ended before it. Where none is short, one circle with as few calls as can be."""
        inside, found = set(part), []
        for node in sorted([node for node in part if node < self.count and self.goes_back(node, inside)], key=self.weight):
            if node in inside:
                look()
                circle = self.short_circle(node, inside)
                found += [circle] * bool(circle)
                inside.difference_update(circle)
        if found:
            return found
        back = [(self.weight(one) - self.weight(other), one, other) for one in part if one < self.count
                for other in self.by_keys(one) if other in inside and other < self.count
                and self.weight(other) < self.weight(one)]
        return [self.path(other, one, inside) for _, one, other in sorted(back)[:1]]

    def is_later(self, node: int, time: int) -> bool:
        """Whether a call probably ended after a time, or all calls behind a barrier did."""
        table, count = self.table, self.count
        if node < count:
            return table.hint[table.command[node]] > time
        first = self.firsts[node - count] if node < self.base else count
        return first < count and table.begin[table.command[first]] > time

    def short_circle(self, begin: int, inside: set[int]) -> list[int]:
        """A shortest circle through a node among some nodes of which none ended after it; nothing where none is short."""
        time = self.weight(begin)
        came_from: dict[int, int] = {}
        row, length = [begin], 0
        while row and len(came_from) < MOST_REACHED and length < MOST_LENGTH:
            following: list[int] = []
            length += 1
            for node in row:
                for other in self.after(node):
                    if other == begin:
                        return [begin, *back_from(node, came_from, begin)]
                    if other in inside and other not in came_from and not self.is_later(other, time):
                        came_from[other] = node
                        following.append(other)
            row = following
        return []

    def path(self, begin: int, end: int, inside: set[int]) -> list[int]:
        """The calls of a path among some nodes, as few as can be."""
        came_from, row = {begin: begin}, deque([begin])
        while end not in came_from:
            node = row.popleft()
            for other in self.after(node):
                if other in inside and other not in came_from:
                    came_from[other] = node
                    if self.is_call(other):
                        row.append(other)
                    else:
                        row.appendleft(other)
        return [begin, *[node for node in back_from(end, came_from, begin) if self.is_call(node)]]


def back_from(node: int, came_from: dict[int, int], begin: int) -> list[int]:
    """The nodes from a node back to where a search began, without that."""
    found = []
    while node != begin:
        found.append(node)
        node = came_from[node]
    return found


class Parts:
    """The strongly connected parts of a graph among some nodes, without those of one node."""

    def __init__(self, graph: Graph, nodes: list[int]):
        self.graph, self.inside = graph, set(nodes)
        self.index: dict[int, int] = {}
        self.low: dict[int, int] = {}
        self.path: list[int] = []
        self.on_path: set[int] = set()
        self.found: list[list[int]] = []

    def visit(self, root: int) -> None:
        """Goes through all that comes after a node."""
        work = [self.enter(root)]
        while work:
            node, rest = work[-1]
            for other in rest:
                if other not in self.inside:
                    continue
                if other not in self.index:
                    work.append(self.enter(other))
                    break
                if other in self.on_path:
                    self.low[node] = min(self.low[node], self.index[other])
            else:
                work.pop()
                if work:
                    above = work[-1][0]
                    self.low[above] = min(self.low[above], self.low[node])
                self.leave(node)

    def enter(self, node: int) -> tuple[int, Iterator[int]]:
        """A node is met."""
        self.index[node] = self.low[node] = len(self.index)
        self.path.append(node)
        self.on_path.add(node)
        return node, iter(self.graph.after(node))

    def leave(self, node: int) -> None:
        """All that comes after a node was met."""
        if self.low[node] != self.index[node]:
            return
        part: list[int] = []
        while not part or part[-1] != node:
            part.append(self.path.pop())
        self.on_path.difference_update(part)
        if len(part) > 1:
            self.found.append(part)


def barriers(table: Table) -> array[int]:
    """The times of the barriers: the begins of commands before which, and after the last barrier, another one ended."""
    ends = sorted(end for one, end in enumerate(table.end) if end < FOREVER and not table.state[one] & DROPPED)
    found, at, last = array("q"), 0, -1
    for one, begin in enumerate(table.begin):
        if table.state[one] & DROPPED:
            continue
        has_ended = False
        while at < len(ends) and ends[at] < begin:
            has_ended, at = True, at + 1
        if has_ended and begin != last:
            found.append(begin)
            last = begin
    return found
