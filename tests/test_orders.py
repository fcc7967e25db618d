"""Tests how tools/judge keeps the orders of keys, and makes one order of all calls while they change."""
import random
import unittest
from array import array

from checks import cases, fail, same
from lies import outputs_of
from thought import USUAL, Draw
from zygos_tools.judging.graph import Graph
from zygos_tools.judging.judge import Judge
from zygos_tools.judging.nearby import Nearby
from zygos_tools.judging.orders import Order
from zygos_tools.judging.sorting import TAKEN, Sorting

PLAIN = "get get gets gets set set add delete cas mget"


def searched(seed, kinds=USUAL, **words):
    """The judge of a random recording, which has searched all keys."""
    made = Draw(seed, 6, 50, 5, 3, kinds).run()
    judge = Judge(made.capture(), outputs_of(made.replies()), **words)
    judge.search()
    return judge


def shuffled(draw, order, first, last):
    """The calls of some places of an order in another order, with their marks."""
    some = list(zip(order.calls[first:last], order.marks[first:last]))
    draw.shuffle(some)
    return Order(array("I", [call for call, _ in some]), bytearray(mark for _, mark in some))


def wrong_counts(sorting):
    """The nodes of which it is not known how many before them are not in the order."""
    graph, left = sorting.graph, [0] * len(sorting.left)
    for node, count in enumerate(sorting.left):
        if count != TAKEN:
            for other in graph.after(node):
                left[other] += 1
    return [node for node, count in enumerate(sorting.left) if count not in (TAKEN, left[node])]


def misplaced(sorting):
    """The links between nodes of the order that go back in it."""
    places = {node: at for at, node in enumerate(sorting.order)}
    return [(node, other) for node in sorting.order for other in sorting.graph.after(node)
            if places.get(other, len(places)) <= places[node]]


def orders_that_change():
    """An order of all calls is taken back to where the order of a key changes, and its counts stay right."""
    for seed in range(12):
        kinds = USUAL + " flush" * (seed % 3 == 2)
        judge, draw = searched(seed, kinds, loses=seed % 2 == 1), random.Random(seed)
        graph, orders = Graph(judge.table), judge.keys.orders
        graph.link(orders.found)
        sorting = Sorting(graph)
        orders.listener = sorting.change
        for turn in range(12):
            sorting.run(lambda: None)
            key = draw.choice(judge.keys.names)
            order = orders.found[key]
            first = draw.randrange(len(order.calls))
            last = min(len(order.calls), first + draw.randint(1, 9))
            new = shuffled(draw, order, first, last)
            if turn % 4 == 3:  # a call more is lost, or less
                new.marks[0] ^= 2
            orders.replace(key, first, last, new)
            same(f"counts of recording {seed} after change {turn}", ([], []), (wrong_counts(sorting), misplaced(sorting)))
            line = graph.lines[judge.table.key_of[key]]
            same(f"the calls of {key}", list(order.calls), [node for node in line.nodes if node < graph.base])
            same(f"the places of {key}", list(range(len(order.calls))), [orders.place(key, call) for call in order.calls])


def whole_orders():
    """The order of a changed graph is one that the graph of the new orders has too."""
    for seed in range(8):
        judge, draw = searched(seed), random.Random(seed)
        sorting = judge.linked(Graph(judge.table))[0]
        sorting.run(lambda: None)
        for key in judge.keys.names:
            order = judge.keys.found[key]
            first = draw.randrange(len(order.calls) - 1)
            judge.keys.orders.replace(key, first, first + 2, shuffled(draw, order, first, first + 2))
        is_whole, afresh = sorting.run(lambda: None), judge.linked(Graph(judge.table))[0]
        same(f"whether recording {seed} has an order", (afresh.run(lambda: None), []), (is_whole, misplaced(sorting)))
        if not is_whole and not sorting.circles(lambda: None):
            fail(f"recording {seed}", "no circle is found")


def parts_of_orders():
    """The states in a part of an order are those in the whole order."""
    for seed in range(8):
        judge, draw = searched(seed, PLAIN, loses=seed % 2 == 1), random.Random(seed)
        for key in judge.keys.names:
            orders, size = judge.keys.orders, len(judge.keys.found[key].calls)
            whole = orders.stretch(key, 0, size)
            first = draw.randrange(size)
            last = draw.randint(first, min(size, first + 5))
            part = orders.stretch(key, first, last)
            for at in range(first, last + 1):
                items = [one.states.values.pairs[one.state(at)[0]] for one in (whole, part)]
                tops = [max(one.state(at)[1:]) for one in (whole, part)]
                same(f"the state of {key} before place {at} of recording {seed}", (items[0], tops[0]), (items[1], tops[1]))


def calls_at_times():
    """The calls that overlap a time are found without looking at all."""
    for seed in range(8):
        judge, draw = searched(seed, USUAL + " flush" * (seed % 2)), random.Random(seed)
        nearby = Nearby(judge.table, judge.keys.range_of)
        for _ in range(30):
            begin = draw.randrange(max(judge.table.begin))
            end, keys = begin + draw.randrange(60), draw.sample(judge.keys.names, 2)
            wanted = {key: [event.id for event in judge.keys.calls_on([key]).events
                            if event.begin <= end and event.end >= begin] for key in keys}
            same(f"the calls from {begin} to {end} of recording {seed}", wanted, nearby.overlapping(keys, begin, end))
            same(f"the keys from {begin} to {end}", True, {key for key in keys if any(
                event.kind != 10 for event in judge.table.events(wanted[key]))} <= set(nearby.keys_at(begin, end)))


Tests = cases(orders_that_change, whole_orders, parts_of_orders, calls_at_times)

if __name__ == "__main__":
    unittest.main()
