"""Laws of service times, and what theory says of cores that lose no time between requests."""
import functools
import heapq
import math
import os
import random

import common

SHAPES = {"fixed": 0, "exponential": 1, "bimodal": 2}
# How zygos_tail is asked for times that it reads, and the most of them.
READ, MOST = 3, 1 << 20
# The requests of a simulation, of which the first tenth does not count.
REQUESTS = 60_000


class Law:
    """How service times are distributed: a name, the mean in microseconds, and the times if a file gave them."""

    def __init__(self, name, mean, times=()):
        self.name, self.mean, self.times = name, mean, times
        self.shape = READ if times else SHAPES[name]

    def told(self):
        kind = f"times drawn from {self.name}, in the mean" if self.times else f"{self.name} service times of"
        return f"{kind} {self.mean:g} us"

    def draw(self, draws):
        """A service time, in means."""
        if self.times:
            return draws.choice(self.times) / self.mean
        if self.name == "exponential":
            return draws.expovariate(1)
        if self.name == "bimodal":
            return (100 if draws.randrange(10) == 0 else 10) / 19
        return 1.0

    def written(self, room):
        """The path of what zygos_tail reads: each time in nanoseconds, 4 bytes, the most significant first."""
        if not self.times:
            return os.devnull
        path = os.path.join(room, "times")
        if not os.path.exists(path):
            with open(path, "wb") as file:
                file.write(b"".join(round(time * 1000).to_bytes(4, "big") for time in self.times))
        return path


def law_of_file(path):
    """The law of a file: a time in microseconds on each line."""
    try:
        with open(path, encoding="utf-8") as file:
            lines = [line.strip() for line in file]
    except (OSError, UnicodeDecodeError) as error:
        common.stop(f"{path}: {getattr(error, 'strerror', None) or 'no text'}")
    times = []
    for at, line in enumerate(lines, 1):
        try:
            time = float(line)
        except ValueError:
            time = math.nan
        if not 0.001 <= time <= 4_000_000:
            common.stop(f"{path}: line {at}: a time is a number of microseconds, 0.001 to 4000000")
        times.append(time)
    if not 1 <= len(times) <= MOST:
        common.stop(f"{path}: 1 to {MOST} times are taken")
    return Law(os.path.basename(path).partition(".")[0], sum(times) / len(times), tuple(times))


def loads_of(load, cores, skewed):
    """The loads of the cores, of which the first has half of all requests if they are skewed."""
    if skewed and cores > 1:
        return [load * cores / 2] + [load * cores / 2 / (cores - 1)] * (cores - 1)
    return [load] * cores


# ---- exponential times: the share of requests that take longer than `time` means


def own_over(time, load):
    return math.exp(-time * (1 - load)) if load < 1 else 1.0


def shared_over(time, load, cores):
    offered = load * cores
    last = offered**cores / math.factorial(cores) / (1 - load)
    waits = last / (sum(offered**i / math.factorial(i) for i in range(cores)) + last)
    theta = cores * (1 - load)
    if abs(theta - 1) < 1e-9:
        both = (1 + time) * math.exp(-time)
    else:
        both = (theta * math.exp(-time) - math.exp(-theta * time)) / (theta - 1)
    return (1 - waits) * math.exp(-time) + waits * both


def by_formula(shares, load, cores, skewed, part):
    loads = loads_of(load, cores, skewed)

    def over(time):
        if shares:
            return shared_over(time, load, cores)
        return sum(own_over(time, each) * each for each in loads) / sum(loads)

    if over(1e6) > 1 - part:
        return math.inf
    low, high = 0.0, 1e6
    for _ in range(100):
        middle = (low + high) / 2
        low, high = (middle, high) if over(middle) > 1 - part else (low, middle)
    return high


# ---- other times


def queue(servers, load, law, requests, draws):
    """The times in means that requests take in one queue with this number of servers."""
    free, now = [0.0] * servers, 0.0
    for at in range(requests):
        now += draws.expovariate(load * servers)
        end = max(now, heapq.heappop(free)) + law.draw(draws)
        heapq.heappush(free, end)
        if at * 10 >= requests:
            yield end - now


@functools.lru_cache(maxsize=None)
def by_drawing(shares, load, cores, skewed, law, part):
    loads, draws = loads_of(load, cores, skewed), random.Random(1)
    if not shares and max(loads) >= 1:
        return math.inf
    if shares:
        found = list(queue(cores, load, law, REQUESTS, draws))
    else:
        found = [time for each in loads for time in queue(1, each, law, int(REQUESTS * each / sum(loads)), draws)]
    return sorted(found)[int(part * len(found))]


def quantile(shares, load, cores, skewed, law, part=0.99):
    """The quantile over the mean where cores share one queue or each has its own; infinite above their full load."""
    if law.shape == SHAPES["exponential"]:
        return by_formula(shares, load, cores, skewed, part)
    return by_drawing(shares, load, cores, skewed, law, part)


def carried(curve, bound):
    """The load at which a curve of points (load, quantile, ..) meets the bound, in percent."""
    before = None
    for load, value, *_ in curve:
        if value > bound:
            if before is None:
                return 0.0
            if math.isinf(value):
                return before[0]
            step = (math.log(bound) - math.log(before[1])) / (math.log(value) - math.log(before[1]))
            return before[0] + (load - before[0]) * step
        before = (load, value)
    return float(before[0]) if before else 0.0
