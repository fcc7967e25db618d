"""Virtual time: what the parts of turns cost, measured here, and runs of `zygos_tail virtual` at these prices."""
import collections
import concurrent.futures
import math
import os
import statistics
import subprocess

import common
import counted
import ideal
import simulate

BOUND = 10
# Calibrating runs: the load in percent, and whether it is skewed; each is made this number of times.
CALIBRATING, TIMES, TURNS = ((50, False), (90, True), (130, False)), 7, 40_000
# A class of turns counts if it has this number of them, and no class counts for more turns than that.
LEAST, MOST = 20, 400
# The lines that come from another processor: those of a call are in `moved`.
LINE = simulate.REQUEST["away"]
WAITS = (simulate.COSTS["pause"], simulate.COSTS["yield"])
MEASURED = counted.PARTS[:-1]
FREE = dict.fromkeys(counted.PARTS, 0)
# by which the clocks of the calibrating runs go on
GUESS = {**FREE, "turn": 100, "item": 300, "hold": 300, "theft": 600, "command": 300, "look": 40, "moved": LINE}
CORES, SERVICES, STEPS = (3, 16, 64), (5, 10, 25), 6
SHOWN = ("with stealing", "without", "at no cost", "one queue", "own queues", "simulated", "sim., without")


# ---- prices


def solved(rows, values):
    """The solution of linear equations."""
    rows = [list(row) + [value] for row, value in zip(rows, values)]
    for at in range(len(rows)):
        pivot = max(range(at, len(rows)), key=lambda row: abs(rows[row][at]))
        rows[at], rows[pivot] = rows[pivot], rows[at]
        if abs(rows[at][at]) < 1e-9:
            common.stop("the turns that were measured do not tell the prices of their parts apart")
        for other in range(len(rows)):
            if other != at:
                part = rows[other][at] / rows[at][at]
                rows[other] = [a - part * b for a, b in zip(rows[other], rows[at])]
    return [row[-1] / row[at] for at, row in enumerate(rows)]


def fitted(classes):
    """The nanoseconds of each part by which the classes of turns, with their medians and counts, are met best."""
    size = len(MEASURED)
    rows, values = [[0.0] * size for _ in range(size)], [0.0] * size
    for did, (median, count) in classes.items():
        # in parts of the median: a rare turn of a hundred commands counts for no more than a short one
        weight = min(count, MOST) / median**2
        for a in range(size):
            values[a] += weight * did[a] * median
            for b in range(size):
                rows[a][b] += weight * did[a] * did[b]
    return dict(zip(MEASURED, solved(rows, values)))


def classes_of(turns):
    """The median and the count of each class of turns: those that did the same."""
    found = collections.defaultdict(list)
    for did, nanos in turns:
        found[did].append(nanos)
    return {did: (statistics.median(all_), len(all_)) for did, all_ in found.items() if len(all_) >= LEAST}


def least_classes(runs):
    """Of each class the least of its medians in some runs: the one that other programs delayed least."""
    found = {}
    for classes in runs:
        for did, (median, count) in classes.items():
            before = found.get(did, (median, 0))
            found[did] = (min(median, before[0]), count + before[1])
    return {did: (max(1.0, median), count) for did, (median, count) in found.items()}


def missed_by(classes, prices):
    """The share of the measured turns' time by which the prices miss the medians of their classes."""
    whole = sum(median * count for median, count in classes.values())
    return sum(abs(median - sum(prices[name] * many for name, many in zip(MEASURED, did))) * count
               for did, (median, count) in classes.items()) / whole


def with_lines(prices):
    """The same where each core has a processor: what another one had comes from there."""
    found = {name: max(0, price) for name, price in prices.items()}
    return {**found, "item": found["item"] + LINE, "collected": found["collected"] + LINE,
            "theft": max(found["theft"], found["hold"] + simulate.COSTS["steal"]),
            "look": max(found["look"], simulate.COSTS["look"]), "moved": LINE}


def read_prices(path):
    """What --json printed before."""
    found = common.read_json(path)
    prices = found.get("prices") if isinstance(found, dict) else None
    if not isinstance(prices, dict) or set(prices) != set(counted.PARTS):
        common.stop(f"{path}: not what tail --virtual --json prints")
    return prices


def told(prices):
    return ", ".join(f"{name} {price:.0f}" for name, price in prices.items())


# ---- runs


class Virtual:
    """The program in virtual time, at given prices or at those that are measured."""

    def __init__(self, program, runs, room, costs, say):
        self.program, self.runs, self.room = program, runs, room
        self.pool = concurrent.futures.ThreadPoolExecutor(os.cpu_count())
        if costs:
            self.prices = read_prices(costs)
        else:
            alone, missed = self.calibrate(3)
            say(f"nanoseconds of the parts of turns, on one thread: {told(alone)}; "
                f"they miss the medians of turns by {missed:.0%}")
            self.prices = with_lines(alone)
        say(f"nanoseconds by which the clocks go on: {told(self.prices)}")

    # ---- one run

    def run(self, cores, skewed, law, load, number, count, prices, samples=0):
        """What a run at this load of its cores counts, in percent."""
        gap = law.mean * 1000 / (cores * load / 100)
        words = [cores, int(skewed), law.shape, law.mean * 1000, gap * 1000, count, number, samples,
                 *(prices[name] for name in counted.PARTS), *WAITS]
        found = counted.Counted()
        with open(law.written(self.room), "rb") as source:
            ran = subprocess.run([self.program, "virtual", *(str(round(word)) for word in words)], stdin=source,
                                 capture_output=True, text=True, check=False)
        if ran.returncode:
            common.stop(f"zygos_tail: ended with status {ran.returncode}")
        found.add(ran.stdout, count)
        return found

    def calibrate(self, cores):
        """The nanoseconds of the parts of turns on one thread, and by which share of them turns are missed."""
        law, runs = ideal.Law("exponential", 10), []
        for number in range(1, TIMES + 1):
            turns = []
            for load, skewed in CALIBRATING:
                turns += self.run(cores, skewed, law, load, number, TURNS, GUESS, TURNS).turns
            runs.append(classes_of(turns))
        classes = least_classes(runs)
        alone = fitted(classes)
        return alone, missed_by(classes, alone)

    def whole(self, cores, skewed, law, load, number, prices=None):
        """A run of all cores."""
        return self.run(cores, skewed, law, load, number, max(40_000, 2_000 * cores), prices or self.prices)

    def parts(self, cores, skewed, law, load, number):
        """A run of one core for each kind of core, in which each request counts as often as there are such cores."""
        loads, found = ideal.loads_of(load, cores, skewed), counted.Counted()
        kinds = [(loads[0], 1), (loads[-1], cores - 1)] if skewed and cores > 1 else [(load, cores)]
        for each, many in kinds:
            ran = self.run(1, False, law, each, number, 40_000, self.prices)
            weight = each * many / ran.served
            for index, served in ran.latencies.items():
                found.latencies[index] = found.latencies.get(index, 0) + served * weight
            for size, holds in ran.holds.items():
                found.holds[size] = found.holds.get(size, 0) + holds
            found.served += each * many
            found.rate += many * ran.rate
        return found

    def all_runs(self, measure, *point):
        return list(self.pool.map(lambda number: measure(*point, number), range(1, self.runs + 1)))

    # ---- the load with 99 % of requests within the bound

    def carried(self, measure, cores, skewed, law, **more):
        """The highest such load, in percent: a few loads are halved, and between the last two the curve is straight."""
        low, high = (0.0, None), (100.0, None)
        for _ in range(STEPS):
            load = (low[0] + high[0]) / 2
            runs = [measure(cores, skewed, law, load, number, **more) for number in range(1, self.runs + 1)]
            found = statistics.median(run.quantile(0.99) for run in runs) / law.mean / 1000
            low, high = ((load, found), high) if found <= BOUND else (low, (load, found))
        if not low[1] or not high[1]:
            return (low[0] + high[0]) / 2
        part = (math.log(BOUND) - math.log(low[1])) / (math.log(high[1]) - math.log(low[1]))
        return low[0] + part * (high[0] - low[0])

    def theory(self, shares, cores, skewed, law):
        """The same where turns cost nothing, and requests are in one queue or in one for each core."""
        low, high = 0.0, 100.0
        for _ in range(STEPS + 2):
            middle = (low + high) / 2
            is_in_time = ideal.quantile(shares, middle / 100, cores, skewed, law) <= BOUND
            low, high = (middle, high) if is_in_time else (low, middle)
        return (low + high) / 2

    def simulation(self):
        """The simulator at the same prices, with a feeder that takes no time."""
        cost = {"feed": 0, "full": 0, "settle": 0, "call": 0, "item": self.prices["item"],
                "collect": self.prices["collected"], "turn": max(0, self.prices["turn"] - self.prices["collected"]),
                "claim": self.prices["hold"], "look": self.prices["look"], "command": self.prices["command"],
                "steal": max(0, self.prices["theft"] - self.prices["hold"]), "away": self.prices["moved"]}
        return simulate.Simulation(self.room, simulate.Costs("", {**simulate.COSTS, **cost}, {}, {}), 0)

    def kinds(self, simulation, cores, skewed, law):
        """What gives the load of each kind."""
        found = {
            "with stealing": lambda: self.carried(self.whole, cores, skewed, law),
            "without": lambda: self.carried(self.parts, cores, skewed, law),
            "at no cost": lambda: self.carried(self.whole, cores, skewed, law, prices=FREE),
            "one queue": lambda: self.theory(True, cores, skewed, law),
            "own queues": lambda: self.theory(False, cores, skewed, law),
        }
        if not law.times:
            for name, stealing in (("simulated", 1), ("sim., without", 0)):
                found[name] = lambda stealing=stealing: simulation.carried(
                    cores, law.mean, skewed=int(skewed), stealing=stealing, law=law.shape)
        return found

    def table(self, many, cases, say):
        """Finds and prints the loads of these numbers of cores."""
        simulation, rows = self.simulation(), []
        for skewed, law in cases:
            for cores in many:
                kinds = self.kinds(simulation, cores, skewed, law)
                rows.append((cores, skewed, law, {kind: self.pool.submit(load) for kind, load in kinds.items()}))
        say(f"the load with 99 % within {BOUND} means, in percent\n"
            f"cores  requests  service               " + "".join(f"{kind:>15}" for kind in SHOWN))
        found = []
        for cores, skewed, law, loads in rows:
            loads = {kind: load.result() for kind, load in loads.items()}
            connections = "skewed" if skewed else "even"
            say(f"{cores:5}  {connections:8}  {f'{law.mean:g} us, {law.name}':20}"
                + "".join(f"{loads[kind]:15.1f}" if kind in loads else f"{'':>15}" for kind in SHOWN))
            found.append({"cores": cores, "connections": connections, "law": law.name, "service": law.mean, **loads})
        for cores in many:
            say(self.told_of(cores, next(row for row in found if row["cores"] == cores), cases[0]))
        return found

    def told_of(self, cores, row, case):
        """What a request costs beside its service, by part, at the load that the cores carry."""
        skewed, law = case
        run = self.whole(cores, skewed, law, row["with stealing"], 1)
        each = {name: run.parts[name] * self.prices[name] / max(1, run.parts["command"]) for name in counted.PARTS}
        return (f"{cores} cores, {row['connections']}, {law.mean:g} us, {row['with stealing']:.0f} %: a request costs "
                f"{sum(each.values()):.0f} ns beside its service: {told(each)}; {run.away / run.served:.0%} were stolen")
