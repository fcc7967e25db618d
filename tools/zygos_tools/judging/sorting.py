"""An order of all nodes of a graph, made from the first on; its end is taken back where the order of a key changes.

If no node that is left can come next, there is a circle among the first of them. So only a few are looked at, and what
is carried out again after a circle was mended begins near to it.
"""
from __future__ import annotations

import heapq
from array import array
from bisect import bisect_right
from collections.abc import Callable
from itertools import chain

from zygos_tools.judging.graph import Graph, Line
from zygos_tools.judging.orders import Order
from zygos_tools.judging.table import DROPPED

# the count of nodes left before one that is in the order, or that there is not
TAKEN = -1
# among how many calls circles are looked for at first; how many times as many if there is none among them
SOME_CALLS, MORE = 4096, 4
LOOKS = 65536


class Sorting:
    """`order` has the nodes so far, `at` where each is, and `left` how many of those before a node are not in it.

    Of the nodes that can come next the one that probably ended first does. `waiting` has nodes that may be such.
    `low` is the first call that is left, and circles are mended up to the call `high` before others.
    """

    def __init__(self, graph: Graph):
        self.graph, self.left = graph, list(graph.left)
        table = graph.table
        for call, command in enumerate(table.command):
            if table.state[command] & DROPPED:
                self.left[call] = TAKEN
        self.order, self.at = array("I"), array("I", bytes(4 * len(self.left)))
        self.waiting = [node for node, left in enumerate(self.left) if not left]
        self.due = len(self.left) - self.left.count(TAKEN)
        self.low = self.high = 0

    def run(self, look: Callable[[], None]) -> bool:
        """Takes nodes into the order until none can come next. Gives whether all are in it."""
        graph, left, order, at = self.graph, self.left, self.order, self.at
        hints, commands, count, after = graph.table.hint, graph.table.command, graph.count, graph.after
        push, pop, total = heapq.heappush, heapq.heappop, graph.base + graph.count + 1
        ready = [graph.weight(node) * total + node for node in set(self.waiting) if not left[node]]
        self.waiting = []
        heapq.heapify(ready)
        while ready:
            node = pop(ready) % total
            if not len(order) % LOOKS:
                look()
            left[node] = TAKEN
            at[node] = len(order)
            order.append(node)
            for other in after(node):
                left[other] -= 1
                if not left[other]:
                    push(ready, (hints[commands[other]] if other < count else 0) * total + other)
        return len(order) == self.due

    # ---- changes

    def change(self, key: bytes, first: int, last: int, new: Order) -> None:
        """Calls come in place of those at some places of a key's order."""
        number, line, first, last = self.graph.part_of(key, first, last)
        self.take_back([*line.nodes[first : line.stop(last - 1) + 1], *new.calls])
        self.count_links(line, first, last, -1)
        old = [node for node in line.nodes[first:last] if node >= self.graph.base]
        for node in old:
            self.left[node] = TAKEN
        last = self.graph.exchange(key, number, first, last, new)
        fresh = [node for node in line.nodes[first:last] if node >= self.graph.base]
        for node in fresh:
            self.begin(node)
        self.due += len(fresh) - len(old)
        self.count_links(line, first, last, 1)

    def begin(self, node: int) -> None:
        """A loss of an item is to be in the order."""
        if node == len(self.left):
            self.left.append(0)
            self.at.append(0)
        self.left[node] = 0

    def take_back(self, nodes: list[int]) -> None:
        """Takes the order back to before the first of some nodes."""
        left, order, at, after = self.left, self.order, self.at, self.graph.after
        place = min([at[node] for node in nodes if left[node] == TAKEN], default=len(order))
        taken = order[place:]
        for node in reversed(taken):
            for other in after(node):
                left[other] += 1
            left[node] = 0
        del order[place:]
        self.waiting += taken
        self.low = min([self.low, *[node for node in taken if node < self.graph.count]])

    def count_links(self, line: Line, first: int, last: int, by: int) -> None:
        """Counts the links of a line that these places have part in, where they are not in the order."""
        left, nodes = self.left, line.nodes
        for place in range(line.change_before(first), last):
            if left[nodes[place]] != TAKEN:
                for other in line.after(place):
                    left[other] += by
                    self.waiting.append(other)

    # ---- circles

    def circles(self, look: Callable[[], None]) -> list[list[int]]:
        """Circles among the first calls that are left: up to `high`, and more only if there are none among them."""
        most = SOME_CALLS
        while True:
            nodes = self.left_up_to(self.high)
            found = self.graph.circles(nodes, look)
            if found or self.high == self.graph.count:
                return found
            self.high, most = self.reach(most), most * MORE

    def reach(self, most: int) -> int:
        """The call behind the first ones that are left."""
        call = self.low
        while call < self.graph.count and most:
            most -= self.left[call] != TAKEN
            call += 1
        return call

    def left_up_to(self, high: int) -> list[int]:
        """The nodes that are left up to a call: calls, and the barriers and the losses between them."""
        graph, left = self.graph, self.left
        while self.low < graph.count and left[self.low] == TAKEN:
            self.low += 1
        begins, commands = graph.table.begin, graph.table.command
        first, last = [bisect_right(graph.times, begins[commands[call]]) if call < graph.count else len(graph.times)
                       for call in (self.low, high)]
        while first and left[graph.count + first - 1] != TAKEN:
            first -= 1
        some = chain(range(self.low, high), range(graph.count + first, graph.count + last), range(graph.base, len(left)))
        return [node for node in some if left[node] != TAKEN]
