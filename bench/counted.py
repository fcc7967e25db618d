"""What runs of `zygos_tail` count."""
import math

# The parts of turns, in the order of zygos_tail.
PARTS = ("turn", "item", "collected", "hold", "theft", "command", "look", "moved")


def nanos_of(index):
    """The latency in the middle of a class: exact below 128, and then 64 for each doubling."""
    scale = max(0, index // 64 - 1)
    return (index - 64 * scale + (0.5 if scale else 0)) * 2**scale


class Counted:
    """What one or more runs have counted."""

    def __init__(self):
        self.latencies, self.holds = {}, {}
        self.served = self.away = self.rate = 0
        self.interrupted = 0.0
        # in virtual time: how often turns did each thing, and those that were measured
        self.parts, self.turns = dict.fromkeys(PARTS, 0), []

    def add(self, text, count):
        span = 1
        for line in text.splitlines():
            word, *numbers = line.split()
            if word in ("latency", "hold"):
                counts, (index, many) = (self.latencies if word == "latency" else self.holds), map(int, numbers)
                counts[index] = counts.get(index, 0) + many
            elif word == "served":
                self.served += int(numbers[0])
                self.away += int(numbers[2])
            elif word == "nanos":
                span = int(numbers[2])
                self.rate += count / span * 1e9
            elif word == "interrupted":
                self.interrupted = max(self.interrupted, (int(numbers[0]) + int(numbers[2])) / span)
            elif word == "parts":
                for name, many in zip(PARTS, numbers):
                    self.parts[name] += int(many)
            elif word == "turn":
                *did, nanos = map(int, numbers)
                self.turns.append((tuple(did), nanos))

    def quantile(self, part):
        left = part * self.served
        for index in sorted(self.latencies):
            left -= self.latencies[index]
            if left <= 0:
                return nanos_of(index)
        return math.nan
