#!/usr/bin/env python3
"""Simulates the program on more cores than are here: where throughput stops, and which load stays in time.

`bench/cores.cpp` has the rules: one feeder, receive rings of 256 items, turns of 64 items, collecting, one claim, one
steal, holds of 64 commands, shards that one core has at a time. Where there are as many processors as cores the
caller drives the first core between its offers. Each thing takes the time that it took by itself: on the machine that
runs this with --measure, and otherwise on the one that `costs of` names. What the work of one command takes beside
its parts is the rest of what one thread took for the traffic of `zygos gen`, so the simulation has nothing to say of
one thread, and is compared with the program on 2 to 4 threads.

Printed are the costs; the rate on 1 to 4 cores, beside the program's; the load at which 99 % of the requests are
served within ten times the mean service time of 5, 10 and 25 us on three cores, beside that of `bench/run tail
--json`, if it is given; and both on up to 64 cores, even and skewed, with and without stealing.

usage: bench/run simulate [--measure FILE | --costs FILE] [--tail FILE] [--commands N] [--traffic N]
                          [--picture FOLDER] [--program PATH] [--bench PATH] [--timer PATH]

--measure FILE    measures the costs here, in about three minutes, and writes them to FILE
--costs FILE      costs that were measured before
--tail FILE       what `bench/run tail --json` printed
--commands N      the commands of a simulated run (100000)
--traffic N       the commands that the program serves if it is measured (1000000)
--picture FOLDER  writes scale-cores.svg and tail-cores.svg
--program PATH    `zygos`, built;
--bench PATH      `zygos_bench`, and
--timer PATH      `zygos_tail` (if left out, the repository's, which are proved and built first if they aren't)

An example: bench/run simulate --measure costs.json --picture docs
"""
import concurrent.futures
import json
import os
import statistics
import subprocess
import tempfile

import chart
import common
import ideal
import parts

# What each thing takes, in nanoseconds: on 2026-11-28, on four processors of 2.5 GHz. The last four are of a request of
# `bench/run tail`, which is a `get` of one key that is not there.
COSTS = {"feed": 315, "item": 225, "settle": 150, "collect": 60, "turn": 60, "claim": 150, "look": 40, "steal": 350,
         "command": 1500, "call": 600, "away": 720, "yield": 1200, "pause": 5}
REQUEST = {"item": 300, "command": 300, "call": 100, "away": 150}
# Calls of a command of generated traffic, and its commands in a segment of 1,400 bytes.
CALLS, LARGE = 3.3, 19
CORES, FEW = (1, 2, 4, 8, 16, 32, 64), (1, 2, 3, 4)
BOUND, SERVICES = 10, (5, 10, 25)
# after how many seconds it is said that the simulation goes on
SECONDS = 10
PLAIN = ["run", "--cores", "1", "--threads", "1"]


# ---- what things take


class Costs:
    """What each thing takes, and where that was measured."""

    def __init__(self, machine, cost, request, rates):
        self.machine, self.cost, self.request = machine, cost, request
        # commands a second of the program by threads, where it was measured
        self.rates = {int(threads): rate for threads, rate in rates.items()}

    def write(self, path):
        with open(path, "w", encoding="utf-8") as file:
            json.dump(self.__dict__, file, indent=1)

    def print(self):
        listed = lambda costs: ", ".join(f"{name} {value:.0f}" for name, value in costs.items())
        print(f"costs of: {self.machine}\n  {listed(self.cost)}\n"
              f"  of a request under load: {listed(self.request)} (ns)", flush=True)


def read_costs(path):
    try:
        with open(path, encoding="utf-8") as file:
            return Costs(**json.load(file))
    except OSError as error:
        common.stop(f"{path}: {error.strerror}")
    except (ValueError, TypeError, AttributeError):
        common.stop(f"{path}: not what --measure writes")


def parts_of(bench, path, segments):
    """What is measured by itself: of holds of 4 and of 64 commands it follows what a hold takes beside its commands."""
    few, many, apart = parts.held_and_served(bench, 4), parts.held_and_served(bench, 64), 1 / 4 - 1 / 64
    hold = max(0, (few[0] - many[0]) / apart)
    settle = max(0, ((few[1] - few[0]) - (many[1] - many[0])) / apart)
    alone, stolen = parts.claims(bench, "ring", 0), parts.claims(bench, "ring", 1)
    call, shared = (bench.each(3, "store", "threads", 1_000_000, threads) for threads in (1, 4))
    return {**COSTS, "feed": bench.fed(path, "capture") / segments, "settle": settle, "claim": hold + alone / 2,
            "item": max(0, many[1] - many[0] - settle / 64), "steal": max(0, stolen - alone), "call": call,
            "away": max(0, (shared - call) * 4 / 3)}


def rates_of(program, path, commands, runs):
    """Commands a second by threads, in the middle of some runs."""
    return {threads: commands / common.medians([common.run([program, "run", *common.cores(threads)], path)
                                                for _ in range(runs)]).wall
            for threads in FEW if threads <= (os.cpu_count() or 1)}


def measured(given):
    """The costs of this machine."""
    program, bench = common.built("zygos", given.program), common.built("zygos_bench", given.bench)
    timer = common.built("zygos_tail", given.timer)
    with tempfile.TemporaryDirectory() as room:
        commands = max(1, given.traffic // common.CONNECTIONS) * common.CONNECTIONS
        path = common.generated(program, os.path.join(room, "capture"), commands)
        cost = parts_of(parts.Bench(bench), path, 2 * commands)
        rates = rates_of(program, path, commands, 3)
    fixed = 2 * (cost["feed"] + cost["item"]) + (cost["settle"] + cost["claim"]) / 30
    cost["command"] = max(0, 1e9 / rates[1] - fixed - CALLS * cost["call"])
    request = {**REQUEST, "item": cost["item"], "away": cost["away"] / 4}
    whole = 1e3 * beside_service(timer)
    request["command"] = max(0, whole - sum({**cost, **request}[name] for name in
                                            ("item", "settle", "collect", "turn", "claim", "call")))
    found = Costs(common.machine(), cost, request, rates)
    found.write(given.measure)
    return found


def beside_service(timer):
    """The microseconds that a request takes its core beside a fixed service of 10, at 1.5 times the full load."""
    words = ["threads", 1, 0, 0, 10_000, round(10e6 / 1.5), 40_000, 1]
    ran = subprocess.run([timer, *map(str, words)], stdin=subprocess.DEVNULL, capture_output=True, text=True,
                         check=False)
    spans = [line.split() for line in ran.stdout.splitlines() if line.startswith("nanos ")]
    if not spans:
        common.stop("zygos_tail: it printed no times")
    return int(spans[0][3]) / 40_000 / 1e3 - 10


# ---- simulated runs


class Simulation:
    """The simulator, and runs of it side by side."""

    def __init__(self, room, costs, commands):
        self.path, self.costs, self.commands = os.path.join(room, "cores"), costs, commands
        source = os.path.join(common.HERE, "cores.cpp")
        if subprocess.run(["c++", "-std=c++17", "-O2", "-o", self.path, source], check=False).returncode:
            common.stop("the simulator was not compiled")
        self.pool = concurrent.futures.ThreadPoolExecutor(os.cpu_count())

    def run(self, **words):
        """What a simulated run counts, by name."""
        given = [str(word) for pair in words.items() for word in pair]
        ran = subprocess.run([self.path, *given], capture_output=True, text=True, check=False)
        if ran.returncode:
            common.stop(f"the simulator: {ran.stderr.strip()}")
        return {name: float(value) for name, value in map(str.split, ran.stdout.splitlines())}

    def rate(self, cores, **words):
        """What a run of generated traffic counts, with its commands a second."""
        connections = max(common.CONNECTIONS, 64 * cores)
        found = self.run(**{**self.costs.cost, "cores": cores, "processors": cores, "caller": 1, "calls": CALLS,
                            "commands": max(self.commands, 2 * LARGE * connections), "connections": connections,
                            **words})
        return {**found, "rate": found["commands"] / found["wall"] * 1e9}

    def is_in_time(self, load, cores, service, **words):
        """Whether 99 % of the requests are served within the bound; on few cores in the middle of three runs."""
        given = {**self.costs.cost, **self.costs.request, "cores": cores, "processors": cores + 1, "calls": 1,
                 "connections": 64 * cores, "commands": max(30_000, 800 * cores), "load": load,
                 "service": service * 1000}
        seeds = (1, 2, 3) if cores <= 4 else (1,)
        return statistics.median(self.run(**{**given, "seed": seed, **words})["p99"] for seed in seeds) <= BOUND

    def carried(self, cores, service, **words):
        """The highest load that is served in time, in percent."""
        low, high = 0.0, 1.0
        for _ in range(7):
            middle = (low + high) / 2
            low, high = (middle, high) if self.is_in_time(middle, cores, service, **words) else (low, middle)
        return 50 * (low + high)

    def all(self, what, call, cases):
        """What a call gives for each case, side by side; a case is its words. From time to time it is said how many are
        done."""
        begun = [self.pool.submit(call, *places, **words) for places, words in cases]
        left = set(begun)
        while left:
            left = concurrent.futures.wait(left, SECONDS).not_done
            if left:
                common.say(f"{what}: {len(begun) - len(left)} of {len(begun)} are simulated; it goes on")
        return [one.result() for one in begun]


# ---- what is printed


def print_few(simulation, rates):
    """The rate on 1 to 4 cores beside the program's."""
    print("\non 1 to 4 cores, thousands of commands a second", flush=True)
    here = max(FEW[-1], os.cpu_count() or 1)
    cases = [((cores,), {"connections": common.CONNECTIONS, "processors": here, "caller": int(cores in (1, here))})
             for cores in FEW]
    for cores, found in zip(FEW, simulation.all("1 to 4 cores", simulation.rate, cases)):
        told = ""
        if cores in rates:
            told = f"; measured {rates[cores] / 1e3:.0f}: {found['rate'] / rates[cores] - 1:+.0%}"
        print(f"  {cores}: simulated {found['rate'] / 1e3:.0f}{told}", flush=True)


def carried_by(points, kind, skewed, service):
    """The load that measured points carry."""
    curve = sorted((p["load"], p["p99"]) for p in points if p["kind"] == kind and p["service"] == service
                   and p["law"] == "exponential" and p["connections"] == ("skewed" if skewed else "even"))
    return ideal.carried(curve, BOUND) if curve else None


def print_tail(simulation, tail):
    """The load that three cores carry, beside what was measured."""
    cores = tail["cores"] if tail else 3
    print(f"\n{cores} cores, exponential service times: the load with 99 % within ten times the mean", flush=True)
    cases = [(skewed, stealing, service) for skewed in (0, 1) for stealing in (1, 0) for service in SERVICES]
    loads = simulation.all(f"loads of {cores} cores", simulation.carried,
                           [((cores, service), {"skewed": skewed, "stealing": stealing})
                            for skewed, stealing, service in cases])
    for (skewed, stealing, service), load in zip(cases, loads):
        kind = "with stealing" if stealing else "without stealing"
        found = carried_by(tail["points"], kind, skewed, service) if tail else None
        told = "" if found is None else f"; measured {found:.0f} %: {load - found:+.0f} points"
        print(f"  {'skewed' if skewed else 'even'}, {kind}, {service} us: {load:.0f} %{told}", flush=True)


RUNS = {
    "even, 16 shards": {"stealing": 1},
    "even, 256 shards": {"stealing": 1, "shards": 256},
    "1,400-byte segments, 16 shards": {"stealing": 1, "segment": LARGE},
    "1,400-byte segments, 256 shards": {"stealing": 1, "segment": LARGE, "shards": 256},
    "skewed, with stealing": {"stealing": 1, "skewed": 1},
    "skewed, without stealing": {"stealing": 0, "skewed": 1},
}
LOADS = {
    "even, with stealing": {"stealing": 1},
    "even, without stealing": {"stealing": 0},
    "skewed, with stealing": {"stealing": 1, "skewed": 1},
    "skewed, without stealing": {"stealing": 0, "skewed": 1},
}
COLOURS = (chart.BLUE, chart.PURPLE, chart.GREEN, chart.GOLD, chart.ORANGE, chart.GRAY)


def print_rates(simulation):
    """The rate by cores of each kind of run, and what keeps the threads busy."""
    cases = [(kind, cores) for kind in RUNS for cores in CORES]
    given = [((cores,), RUNS[kind]) for kind, cores in cases]
    found = dict(zip(cases, simulation.all("rates", simulation.rate, given)))
    print("\nsimulated, a processor for each core; in percent: the time in which the feeder feeds, in which the busiest\n"
          "home does a home's own work, and in which cores are busy; the calls that found their shard busy; and the part\n"
          "of the cores' time in which lines come from another core\n"
          f"{'cores':>7}{'thousands/s':>13}{'times one':>11}{'feeder':>8}{'home':>6}{'cores':>7}{'refused':>9}"
          f"{'lines':>7}")
    for kind in RUNS:
        print(kind)
        for cores in CORES:
            run = found[kind, cores]
            print(f"{cores:7}{run['rate'] / 1e3:13,.0f}{run['rate'] / found[kind, 1]['rate']:11.1f}"
                  f"{run['feeding']:8.0%}{run['at_home']:6.0%}{run['busy']:7.0%}{run['refused']:9.0%}"
                  f"{run['moved']:7.0%}", flush=True)
    return {kind: [(cores, found[kind, cores]["rate"] / 1e6) for cores in CORES] for kind in RUNS}


def print_loads(simulation):
    """The load that is served in time, by cores."""
    cases = [(kind, cores) for kind in LOADS for cores in CORES]
    given = [((cores, 10), LOADS[kind]) for kind, cores in cases]
    found = dict(zip(cases, simulation.all("loads", simulation.carried, given)))
    law = ideal.Law("exponential", 10)
    for kind, shares in (("theory, one queue", True), ("theory, no stealing", False)):
        for cores in CORES:
            curve = [(load, ideal.quantile(shares, load / 100, cores, False, law)) for load in range(5, 100)]
            found[kind, cores] = ideal.carried(curve, BOUND)
    print("\nsimulated, 10 us: the load with 99 % within ten times the mean\n"
          f"{'':26}" + "".join(f"{cores:>6}" for cores in CORES) + "  cores")
    kinds = [*LOADS, "theory, one queue", "theory, no stealing"]
    for kind in kinds:
        print(f"{kind:26}" + "".join(f"{found[kind, cores]:5.0f}%" for cores in CORES), flush=True)
    return {kind: [(cores, found[kind, cores]) for cores in CORES] for kind in kinds}


# ---- what is drawn


def picture_of_rates(curves, costs):
    drawn = chart.Chart("Throughput by cores, simulated",
                        [f"costs of: {costs.machine}",
                         "traffic of zygos gen, 64 connections a core, at least 200; a processor for each core; skewed: 16 shards"],
                        chart.doubling("cores", CORES),
                        chart.logarithmic("millions of commands a second", 0.1, 20))
    for (kind, points), colour in zip(curves.items(), COLOURS):
        drawn.curve(chart.Curve(kind, colour, points, True))
    if costs.rates:
        points = [(at, rate / 1e6) for at, rate in sorted(costs.rates.items())]
        drawn.curve(chart.Curve("even, 16 shards, measured", "black", points))
    drawn.note("dashed: simulated", *(["solid: measured"] if costs.rates else []))
    return drawn


def picture_of_loads(curves, costs):
    drawn = chart.Chart("Load at which 99 % take at most ten times the mean service time, simulated",
                        [f"costs of: {costs.machine}",
                         "exponential service times of 10 us; skewed: half of the requests at home at one core"],
                        chart.doubling("cores", CORES),
                        chart.linear("load, in % of what the cores can carry at most", 100))
    colours = (chart.BLUE, chart.ORANGE, chart.GREEN, chart.PURPLE, chart.GRAY, chart.GOLD)
    for (kind, points), colour in zip(curves.items(), colours):
        drawn.curve(chart.Curve(kind, colour, points, True))
    drawn.note("dashed: simulated, and theory", "without any cost between", "requests")
    return drawn


def main():
    words = common.Words(__doc__)
    words.add_argument("--measure")
    words.add_argument("--costs")
    words.add_argument("--tail")
    words.add_argument("--commands", type=common.count, default=100_000)
    words.add_argument("--traffic", type=common.count, default=1_000_000)
    words.add_argument("--picture")
    words.add_argument("--program")
    words.add_argument("--bench")
    words.add_argument("--timer")
    given = words.given()
    if given.measure and given.costs:
        common.stop("--measure or --costs; --help says more", 2)
    tail = common.read_json(given.tail) if given.tail else None
    if given.measure:
        costs = measured(given)
    elif given.costs:
        costs = read_costs(given.costs)
    else:
        costs = Costs("2026-11-28, four processors of 2.5 GHz", COSTS, REQUEST, {})
    costs.print()
    with tempfile.TemporaryDirectory() as room:
        simulation = Simulation(room, costs, given.commands)
        print_few(simulation, costs.rates)
        print_tail(simulation, tail)
        rates, loads = print_rates(simulation), print_loads(simulation)
    if given.picture:
        common.draw(picture_of_rates(rates, costs), os.path.join(given.picture, "scale-cores.svg"))
        common.draw(picture_of_loads(loads, costs), os.path.join(given.picture, "tail-cores.svg"))


if __name__ == "__main__":
    main()
