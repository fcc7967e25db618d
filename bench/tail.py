#!/usr/bin/env python3
"""Latency under load: how long requests take from the time at which they are expected.

Requests come at the times of a Poisson process, whether or not there is room for them, and each takes a drawn service
time on the core that carries it out. Measured are the crates of the product on a thread for each core, fed by a
thread of its own, which is `with stealing`; and `without stealing`, the same as a run of one core for each core, with
its part of the requests. Beside both is what theory says of cores that lose no time between requests: `theory, no
stealing`, where each core serves its own requests in their order, and `theory, one queue`, where all cores share
them; by formulas (M/M/1, M/M/n) for exponential service times, and by a simulation for others. Each point is measured
three times, and the median counts. The load is the share of what the cores could carry at most; the first tenth of
each run is left out. In skewed runs half of the requests are of connections of the first core.

The threads spin, so they notice when the machine takes a processor away for more than 10 microseconds. A run that was
interrupted for more than one part in 500 of its time is repeated, up to three times for each that is wanted; if there
are not enough runs then, those that were interrupted least count, and the point is marked with `!`. Where the system
allows it, runs have a real-time priority.

With --virtual nothing depends on how many processors there are, nor on who else uses them: all cores run on one
thread, each with a clock of its own, and the core with the least clock takes the next turn. Its clock goes on by what
the turn cost: the sum of what its parts cost, measured here before, each at the median of turns that did the same; plus
the drawn service times; plus documented prices for what comes from another processor. Printed is the highest load with
99 % of requests within ten means, beside theory, beside `bench/cores.cpp` at the same prices, and with turns that cost
nothing. `bench/README.md` says more.

usage: bench/run tail [--cores N] [--loads L,..] [--service US,..] [--law LAW] [--only KIND] [--runs N] [--seconds S]
                      [--picture FOLDER] [--json] [PROGRAM]
       bench/run tail --virtual [--cores N,..] [--loads L,..] [--service US,..] [--law LAW] [--only KIND] [--runs N]
                      [--costs FILE] [--picture FOLDER] [--json] [--note] [PROGRAM]

--virtual         in virtual time
--cores N         1 to 8 cores (as many as leave a processor for the feeder, 3 at most); with --virtual up to 64, and
                  several numbers with a comma between them (3,16,64)
--loads L,..      the loads, in percent (10,20,30,40,50,60,70,80,90,95; with --virtual none if there is no picture)
--service US,..   the mean service times, in microseconds (5,10,25,100; with --virtual 5,10,25)
--law LAW         how service times are distributed: fixed, exponential, bimodal (one in ten takes ten times as long as
                  the others), or the path of a file with a time in microseconds on each line, from which they are
                  drawn (exponential; and at 10 us, even, also fixed and bimodal; with --virtual exponential)
--only KIND       even or skewed alone
--runs N          the number of runs of each point (3)
--seconds S       the seconds of a run; it is longer for service times over 10 microseconds (0.2)
--costs FILE      what turns cost, as --virtual --json printed it before, in place of measuring it
--picture FOLDER  writes a chart for each law, mean and kind: tail.svg and tail-skew.svg if there is one law and mean
--json            prints all points as JSON
--note            with --virtual, writes the loads into bench/figures.json, which the pages quote
PROGRAM           `zygos_tail`, built (if left out, the repository's, which is proved and built first if it isn't)

Examples: bench/run tail --service 10 --law exponential
          bench/run tail --virtual --cores 3 --service 10 --picture docs
"""
import json
import os
import statistics
import subprocess
import sys
import tempfile

import chart
import common
import ideal
import virtual
from counted import Counted

LOADS, SERVICES = [10, 20, 30, 40, 50, 60, 70, 80, 90, 95], [5.0, 10.0, 25.0, 100.0]
STEALING, APART, OWN, ONE = "with stealing", "without stealing", "theory, no stealing", "theory, one queue"
COLOURS = {STEALING: chart.BLUE, APART: chart.ORANGE, OWN: chart.GOLD, ONE: chart.GRAY}
QUANTILES = {"median": 0.5, "p99": 0.99, "p999": 0.999}
BOUND, TOP = 10, 100
SOUND = 1 / 500
TRIES = 3


def hurry():
    """Gives this process a real-time priority, if the system allows it."""
    try:
        os.sched_setscheduler(0, os.SCHED_FIFO, os.sched_param(50))
    except (OSError, AttributeError):
        pass


def point_of(kind, skewed, law, load, runs):
    """The medians of a point, and the least and the most of the 99th percentile."""
    holds, mean = {}, law.mean * 1000
    for run in runs:
        for size, many in run.holds.items():
            holds[size] = holds.get(size, 0) + many
    found = {name: sorted(run.quantile(part) / mean for run in runs) for name, part in QUANTILES.items()}
    return {
        "kind": kind,
        "connections": "skewed" if skewed else "even",
        "law": law.name,
        "service": law.mean,
        "load": load,
        "throughput": statistics.median(run.rate for run in runs),
        **{name: statistics.median(values) for name, values in found.items()},
        "least": found["p99"][0],
        "most": found["p99"][-1],
        "away": statistics.median(run.away / max(1, run.served) for run in runs),
        "interrupted": max(run.interrupted for run in runs),
        "holds": dict(sorted(holds.items())),
    }


class Bench:
    """The program on threads, and how it is run."""

    def __init__(self, program, cores, runs, seconds, room):
        self.program, self.cores, self.runs, self.seconds, self.room = program, cores, runs, seconds, room
        self.beside = max(1, (os.cpu_count() or 1) // 2)
        self.repeated = 0

    def start(self, cores, skewed, law, load, number):
        """Starts a run at this load of its cores, in percent. Returns it and its number of requests."""
        gap = law.mean * 1000 / (cores * load / 100)
        count = max(100, int(self.length(law.mean) * 1e9 / gap))
        words = ["threads", cores, int(skewed), law.shape, int(law.mean * 1000), int(gap * 1000), count, number]
        with open(law.written(self.room), "rb") as source:
            run = subprocess.Popen([self.program, *map(str, words)], stdin=source, stdout=subprocess.PIPE, text=True,
                                   preexec_fn=hurry)
        return run, count

    def length(self, service):
        """The seconds of a run."""
        return self.seconds * (1 if service <= 10 else 1.3 if service <= 25 else 2)

    def whole(self, skewed, law, load, number):
        """A run of all cores."""
        return self.gathered([self.start(self.cores, skewed, law, load, number)], Counted())

    def parts(self, skewed, law, load, number):
        """A run of one core for each core, as many at once as have a processor for core and feeder."""
        loads, found = ideal.loads_of(load, self.cores, skewed), Counted()
        for first in range(0, self.cores, self.beside):
            self.gathered([self.start(1, False, law, each, number * 64 + first + at)
                           for at, each in enumerate(loads[first : first + self.beside])], found)
        return found

    def gathered(self, begun, found):
        for run, count in begun:
            text, _ = run.communicate()
            if run.returncode:
                common.stop(f"zygos_tail: ended with status {run.returncode}")
            found.add(text, count)
        return found

    def point(self, kind, skewed, law, load):
        return point_of(kind, skewed, law, load,
                        self.sound_runs(self.whole if kind == STEALING else self.parts, skewed, law, load))

    def sound_runs(self, measure, *point):
        """The wanted number of runs, those that were interrupted least of those that were made."""
        runs = []
        for number in range(1, TRIES * self.runs + 1):
            runs.append(measure(*point, number))
            if sum(run.interrupted <= SOUND for run in runs) == self.runs:
                break
        self.repeated += len(runs) - self.runs
        return sorted(runs, key=lambda run: run.interrupted)[: self.runs]

    def cost(self, cores, skewed):
        """The microseconds that a command costs its core beside a fixed service of 10, at 1.5 times the full load."""
        begun = self.start(cores, skewed, ideal.Law("fixed", 10), 150, 1)
        return cores / self.gathered([begun], Counted()).rate * 1e6 - 10


# ---- what is printed and drawn


def row(point):
    sizes = point["holds"]
    all_, one = sum(sizes.values()), sizes.get(1, 0)
    return (f"{point['load']:6} % {point['kind']:17}{point['throughput']:11,.0f}{point['median']:10.2f}"
            f"{point['p99']:10.2f}{point['p999']:10.2f}{point['away']:8.1%}   {one / max(1, all_):.0%} of one, "
            f"most {max(sizes, default=0)}"
            f"{' !' if point['interrupted'] > SOUND else ''}")


def curves_of(points, cores, skewed, law):
    """The 99th percentile over the mean by load, measured and computed."""
    curves = {kind: [(p["load"], p["p99"], p["least"], p["most"]) for p in points if p["kind"] == kind]
              for kind in (STEALING, APART)}
    loads = range(10, 100) if law.name == "exponential" else range(10, 100, 5)
    for kind, shares in ((OWN, False), (ONE, True)):
        curves[kind] = [(load, ideal.quantile(shares, load / 100, cores, skewed, law)) for load in loads]
    return curves


def picture(curves, cores, skewed, law, runs, marked, prices):
    """A chart of load against the 99th percentile over the mean, on a scale of powers of ten."""
    spread = "half of the requests at home at one core" if skewed else "requests at home at all cores alike"
    where = "in virtual time" if prices else "on as many threads"
    taken = "at what turns cost on a machine with " if prices else ""
    drawn = chart.Chart(f"Latency of 99 % of requests: {cores} cores {where}, {law.told()}",
                        [f"{taken}{common.machine_name()}; {spread}",
                         f"median of {runs} runs, with the least and the most"],
                        chart.Axis("load, in % of what the cores can carry at most", 0, 100, list(range(0, 101, 20))),
                        chart.logarithmic("99 % take at most, in mean service times", 1, TOP))
    drawn.bound(BOUND)
    for kind, curve in curves.items():
        load = ideal.carried(curve, BOUND)
        drawn.curve(chart.Curve(kind, COLOURS[kind], curve, kind in (OWN, ONE),
                                [f"99 % within ten means up to {load:.0f} % load" if load else "99 % nowhere within ten means"]))
    drawn.note("dotted: ten times the mean service time", f"solid: {'the program' if prices else 'measured'}",
               "dashed: theory, without any cost", "between requests")
    if marked:
        drawn.note(f"the machine interrupted runs of {marked} points")
    return drawn


def measure(bench, skewed, law, loads, say):
    """Measures the points of a case, and says what they are."""
    say(f"{'skewed' if skewed else 'even'} connections, {law.told()}\n"
        "  load   cores             commands/s    median      99 %    99.9 %    away   holds")
    points = []
    for load in loads:
        for kind in (STEALING, APART):
            points.append(bench.point(kind, skewed, law, load))
            say(row(points[-1]))
    return points


def words_given():
    words = common.Words(__doc__, "program")
    words.add_argument("--virtual", action="store_true")
    words.add_argument("--cores", type=common.numbers(1, 64))
    words.add_argument("--loads", type=common.numbers(1, 99))
    words.add_argument("--service", type=common.numbers(0.1, 1_000_000))
    words.add_argument("--law")
    words.add_argument("--only", choices=["even", "skewed"])
    words.add_argument("--runs", type=common.count, default=3)
    words.add_argument("--seconds", type=float, default=0.2)
    words.add_argument("--costs")
    words.add_argument("--picture")
    words.add_argument("--json", action="store_true")
    words.noting()
    given = words.given()
    for option in ("costs", "note"):
        if getattr(given, option) and not given.virtual:
            common.stop(f"--{option} is for --virtual; --help says more", 2)
    if given.cores and any(cores != int(cores) for cores in given.cores):
        common.stop("--cores takes whole numbers", 2)
    if given.cores and not given.virtual and (len(given.cores) > 1 or given.cores[0] > 8):
        common.stop("on threads there are 1 to 8 cores; --help says more", 2)
    return given


def cases_of(given):
    """The kinds of run, each with its law."""
    kinds = [skewed for skewed in (False, True) if given.only in (None, "skewed" if skewed else "even")]
    if given.law and given.law not in ideal.SHAPES:
        return [(skewed, ideal.law_of_file(given.law)) for skewed in kinds]
    services = given.service or (virtual.SERVICES if given.virtual else SERVICES)
    found = [(skewed, ideal.Law(given.law or "exponential", service)) for skewed in kinds for service in services]
    if not given.law and 10 in services and False in kinds and not given.virtual:
        found += [(False, ideal.Law(name, 10)) for name in ("fixed", "bimodal")]
    return found


def draw(found, cores, cases, case, given, prices=None):
    """Says which loads the curves carry, and draws them if that is asked for."""
    skewed, law = case
    curves = curves_of(found, cores, skewed, law)
    if given.picture:
        several = len({(law.name, law.mean) for _, law in cases}) > 1
        name = "tail" + "-skew" * skewed + f"-{law.name}-{law.mean:g}us" * several
        many = f"-{cores}cores" * (given.virtual and len(given.cores) > 1)
        marked = sum(point["interrupted"] > SOUND for point in found)
        drawn = picture(curves, cores, skewed, law, given.runs, marked, prices)
        common.draw(drawn, os.path.join(given.picture, f"{name}{many}.svg"))
    return curves


def on_threads(given, cases, program, say):
    """Measures all points on threads. Gives what is printed as JSON."""
    cores = int(given.cores[0]) if given.cores else max(1, min(3, (os.cpu_count() or 1) - 1))
    say(f"{common.machine()}; {cores} cores and a feeder, median of {given.runs} runs")
    if cores == 1:
        say("one core is no measurement of stealing")
    points = []
    with tempfile.TemporaryDirectory() as room:
        bench = Bench(program, cores, given.runs, given.seconds, room)
        for case in cases:
            found = measure(bench, *case, given.loads or LOADS, say)
            points += found
            curves = draw(found, cores, cases, case, given)
            say(f"  99 % within {BOUND} means up to this load: "
                + ", ".join(f"{kind} {ideal.carried(curve, BOUND):.0f} %" for kind, curve in curves.items()))
        costs = {"one core": bench.cost(1, False), f"{cores} cores": bench.cost(cores, False),
                 f"{cores} cores, skewed": bench.cost(cores, True)}
    say("microseconds that a command costs its core beside its service, at one and a half times the full load: "
        + ", ".join(f"{name} {cost:.2f}" for name, cost in costs.items()))
    say(f"runs that were interrupted too long and repeated: {bench.repeated}")
    return {"machine": common.machine_name(), "cores": cores, "costs": costs, "points": points}


class OfCores:
    """Points of a number of cores in virtual time."""

    def __init__(self, bench, cores):
        self.bench, self.cores = bench, cores

    def point(self, kind, skewed, law, load):
        measure = self.bench.whole if kind == STEALING else self.bench.parts
        return point_of(kind, skewed, law, load, self.bench.all_runs(measure, self.cores, skewed, law, load))


def in_virtual_time(given, cases, program, say):
    """Finds the loads in virtual time, and points if they are asked for. Gives what is printed as JSON."""
    given.cores = [int(cores) for cores in given.cores or virtual.CORES]
    say(f"{common.machine()}; in virtual time, median of {given.runs} runs")
    points = []
    with tempfile.TemporaryDirectory() as room:
        bench = virtual.Virtual(program, given.runs, room, given.costs, say)
        loads = bench.table(given.cores, cases, say)
        common.note(given, "tail", **{f"{kind.split()[-1]}_{row['cores']}_{row['connections']}_{row['service']:g}": row[kind]
                                      for row in loads if row["law"] == "exponential" for kind in (STEALING, "without")})
        for case in cases if given.loads or given.picture else []:
            for cores in given.cores:
                say(f"{cores} cores, ".rstrip(" ,"))
                found = measure(OfCores(bench, cores), *case, given.loads or LOADS, say)
                points += [{"cores": cores, **point} for point in found]
                draw(found, cores, cases, case, given, bench.prices)
    return {"machine": common.machine_name(), "cores": given.cores[0], "prices": bench.prices, "loads": loads,
            "points": points}


def main():
    given = words_given()
    cases = cases_of(given)
    program = common.built("zygos_tail", given.program)
    say = lambda text: print(text, file=sys.stderr if given.json else sys.stdout, flush=True)
    found = (in_virtual_time if given.virtual else on_threads)(given, cases, program, say)
    if given.json:
        print(json.dumps(found))


main()
