"""An order in which the n-th call that stores something is the one of which the server showed the unique n.

With one shard that is zygos's unique too, so nothing has to be renamed if the server was fresh and was not flushed.
"""
from __future__ import annotations

import heapq
from array import array
from collections.abc import Mapping

from zygos_tools.judging.events import CAS, DELETE, FLUSH, GET
from zygos_tools.judging.graph import Graph
from zygos_tools.judging.orders import CHANGED, Order
from zygos_tools.judging.table import HAS_UNIQUE, WANT_BITS, WANT_OF, Table


class Stores:
    """The calls that store something, and the uniques of those of which one was seen."""

    def __init__(self, table: Table, found: Mapping[bytes, Order]):
        self.all: set[int] = set()
        self.shown: dict[int, int] = {}
        for order in found.values():
            last: int | None = None
            for call, mark in zip(order.calls, order.marks):
                kind, is_change = table.kind[call], mark & CHANGED
                if kind == CAS and is_change and last is not None:
                    self.shown[last] = table.given[call]
                if kind == GET:
                    if table.want[call] & HAS_UNIQUE and last is not None:
                        self.shown[last] = table.seen[call]
                elif is_change:
                    last = None
                    if kind not in (DELETE, FLUSH) and table.want[call] & WANT_BITS != WANT_OF["failed"]:
                        self.all.add(call)
                        last = call

    def in_order(self) -> list[int]:
        """Those with a unique, by their uniques."""
        return sorted(self.shown, key=self.shown.__getitem__)


def numbered(graph: Graph, stores: Stores) -> array[int] | None:
    """Such an order of a graph without circles; None where there is none.

    Stores are jobs of one unit, a shown one at its own time: the job that is due first goes first, after the bounds
    were passed on along the edges."""
    bounds = bounds_of(graph, stores)
    if bounds is None:
        return None
    least, most = bounds
    left = list(graph.left)
    free = [node for node in range(len(left)) if not left[node]]
    later: list[tuple[int, int]] = []
    now: list[tuple[int, int]] = []
    order, count = array("I"), 0
    while free or later or now:
        while free:
            node = free.pop()
            if node in stores.all:
                heapq.heappush(later, (least[node], node))
            else:
                pass_on(graph, node, left, free, order)
        while later and later[0][0] <= count:
            node = heapq.heappop(later)[1]
            heapq.heappush(now, (most[node], node))
        if not now:
            if later:
                return None
            continue
        last, node = heapq.heappop(now)
        if last < count:
            return None
        count += 1
        pass_on(graph, node, left, free, order)
    return order


def pass_on(graph: Graph, node: int, left: list[int], free: list[int], order: array[int]) -> None:
    """Takes a node into the order."""
    if graph.is_call(node):
        order.append(node)
    for other in graph.after(node):
        left[other] -= 1
        if not left[other]:
            free.append(other)


def bounds_of(graph: Graph, stores: Stores) -> tuple[list[int], list[int]] | None:
    """How many stores come before each node, at least and at most; None where these contradict each other."""
    size, total, shown = len(graph.left), len(stores.all), stores.shown
    least, most = [0] * size, [total] * size
    nodes: list[int] = []
    left, work = list(graph.left), [node for node in range(size) if not graph.left[node]]
    while work:
        pass_on_any(graph, work.pop(), left, work, nodes)
    for node in nodes:
        if node in shown:
            least[node] = max(least[node], shown[node] - 1)
        after = least[node] + (node in stores.all)
        for other in graph.after(node):
            least[other] = max(least[other], after)
    for node in reversed(nodes):
        bound = min((most[other] for other in graph.after(node)), default=total) - (node in stores.all)
        most[node] = min(bound, shown.get(node, size) - 1) if node in shown else bound
        if most[node] < least[node]:
            return None
    return least, most


def pass_on_any(graph: Graph, node: int, left: list[int], work: list[int], nodes: list[int]) -> None:
    """Takes any node."""
    nodes.append(node)
    for other in graph.after(node):
        left[other] -= 1
        if not left[other]:
            work.append(other)
