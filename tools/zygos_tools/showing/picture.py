"""Draws a run from its journal: which core did what, as one SVG.

usage: tools/picture [--cores N] [FILE ..] > PICTURE.svg

    ./zygos run --cores 2 --out both < examples/client.cap | tools/picture --cores 2 > run.svg

FILE is standard input if it is left out or -. It is a journal, alone or before a replies file, as `zygos run --out
both` writes it. The pictures of several are one below the other. Each has four parts:

- which core executed the commands of which connection, ordered by home, with each connection's home core outlined.
  Every other shaded cell was stolen;
- the share of its commands and of its holds that each core stole. A hold is a batch of commands of one connection that
  a core executed at once;
- how many holds had how many commands, 1 to 64;
- by shard, the calls that get and that store, and the hits and misses of those that get.

--cores N  the number of cores of the run, 1 to 64. A journal only shows cores that held something, so without --cores
           no connection has a home, and nothing is said of stealing. If fewer cores held anything, standard error says
           so

With over 64 connections a row is several connections of one home, and with over 32 shards a bar is several shards; the
picture says so.
"""
from __future__ import annotations

from collections import Counter
from collections.abc import Iterable, Sequence
from typing import NamedTuple

from zygos_tools.cli import ends
from zygos_tools.cli.screen import say
from zygos_tools.files import inputs
from zygos_tools.files.formats import GETS, MOST_CORES, MOST_HOLD, SETS, Entry, Hold, journal_records
from zygos_tools.files.part import Fault
from zygos_tools.showing.svg import Drawing

MOST_ROWS, MOST_BARS, GROUPS = 64, 32, 128
BLUE, ORANGE, GREEN, GRAY, HOME = "#2a6cab", "#d1701e", "#3f8f4f", "#8a8a8a", "#111111"
WIDTH, LEFT, RIGHT, TOP = 980, 96, 560, 90


class Row(NamedTuple):
    """Some connections of one home, which is None where it is not known."""

    home: int | None
    connections: list[int]


class Run:
    """What is counted of a run as its journal is read; `cores` is None where their number is not given."""

    def __init__(self, records: Iterable[Entry | Hold], cores: int | None) -> None:
        self.calls: Counter[tuple[int, str, str]] = Counter()
        self.done: Counter[Hold] = Counter()
        connections: set[int] = set()
        for record in records:
            connections.add(record.connection)
            if isinstance(record, Entry):
                self.calls[record.shard, record.call.name, record.reply.name] += 1
            else:
                self.done[record] += 1
        self.connections = sorted(connections)
        self.seen = max((hold.core for hold in self.done), default=-1) + 1
        if cores and cores < self.seen:
            raise Fault(f"core {self.seen - 1} has holds, so there were more than {cores} cores")
        self.given, self.cores = cores, cores or max(1, self.seen)

    def home(self, connection: int) -> int | None:
        """The home core of a connection; None where it is not known."""
        return connection % GROUPS % self.cores if self.given else None

    def holds(self) -> int:
        return sum(self.done.values())

    def commands(self, stolen: bool = False) -> int:
        return sum(times * hold.count for hold, times in self.done.items()
                   if not stolen or hold.core != self.home(hold.connection))

    def by_core(self) -> Counter[tuple[int, int]]:
        """How many commands of each connection each core carried out."""
        found: Counter[tuple[int, int]] = Counter()
        for hold, times in self.done.items():
            found[hold.connection, hold.core] += times * hold.count
        return found

    def stolen(self) -> list[list[int]]:
        """Of each core its holds and its commands, and how many of them it stole."""
        found = [[0, 0, 0, 0] for _ in range(self.cores)]
        for hold, times in self.done.items():
            of_core, away = found[hold.core], hold.core != self.home(hold.connection)
            for at, number in enumerate((hold.count, hold.count * away, 1, int(away))):
                of_core[at] += times * number
        return found

    def hold_sizes(self) -> list[int]:
        """How many holds had each number of commands, from 1 on."""
        found = [0] * MOST_HOLD
        for hold, times in self.done.items():
            found[hold.count - 1] += times
        return found

    def counts(self) -> list[list[int]]:
        """Of each shard its calls that get and that store, and its hits and misses."""
        found = [[0, 0, 0, 0] for _ in range(max((shard for shard, _, _ in self.calls), default=0) + 1)]
        for (shard, call, reply), times in self.calls.items():
            got = call in GETS
            for at, one in enumerate((got, call in SETS, got and reply == "hit", got and reply == "miss")):
                found[shard][at] += times * one
        return found

    def rows(self) -> tuple[int, list[Row]]:
        """The connections in the order of their homes; beyond the most rows, several of one home in a row."""
        homes: dict[int | None, list[int]] = {}
        for one in self.connections:
            homes.setdefault(self.home(one), []).append(one)
        size = next(size for size in range(1, 1 << 13)
                    if sum(-(-len(some) // size) for some in homes.values()) <= MOST_ROWS)
        return size, [Row(core, some[at : at + size]) for core, some in sorted(homes.items(), key=lambda home: home[0] or 0)
                      for at in range(0, len(some), size)]


# ---- drawing


def legend(drawing: Drawing, x: float, y: float, names: Iterable[tuple[str, str]]) -> None:
    """Draws a row of colours, each with its meaning."""
    for color, name in names:
        drawing.box(x, y - 9, 10, 10, color)
        drawing.text(x + 14, y, name, size=11)
        x += 24 + 6.5 * len(name)


def svg(drawings: Iterable[tuple[Drawing, float]]) -> str:
    """The picture of drawings, each with its height, one below the other."""
    whole, height = Drawing(), 0.0
    for drawing, tall in drawings:
        whole.group(height, drawing)
        height += tall
    return whole.document(WIDTH, height)


def number(value: int) -> str:
    return f"{value:,}"


def counted(count: int, noun: str) -> str:
    return f"{number(count)} {noun}" + ("" if count == 1 else "s")


def share(part: int, whole: int) -> float:
    return 100 * part / whole if whole else 0


def spaced(count: int, room: float, least: float) -> int:
    """Every how many of `count` labels are written, so that each has `least` of the room."""
    return next(step for step in (1, 2, 4, 5, 8, 10, 16, 20, 32, 50, 64, 128, 256) if room / count * step >= least)


def shade(part: float) -> str:
    """A blue, the darker the greater its part of 1."""
    start, end = (226, 236, 246), (22, 74, 130)
    return "#" + "".join(f"{round(a + (b - a) * part):02x}" for a, b in zip(start, end))


def names(connections: Sequence[int]) -> str:
    """Numbers of connections or shards, which may be several apart."""
    first, last = connections[0], connections[-1]
    if len(connections) < 3:
        return ", ".join(map(str, connections))
    return f"{first}-{last}" if last - first == len(connections) - 1 else f"{first}, {connections[1]} .. {last}"


def grid(drawing: Drawing, run: Run, width: float) -> float:
    """Connections by cores, shaded by commands; gives the height."""
    size, rows = run.rows()
    drawing.text(16, TOP - 20, "Commands of each connection, by core", size=13)
    homes = ("", "") if run.given is None else (" of one home", "; outlined: the home core")
    each = "a row for each connection" if size == 1 else f"a row for up to {size} connections{homes[0]}"
    drawing.text(16, TOP - 5, each + homes[1], size=11)
    if not rows:
        drawing.text(LEFT, TOP + 40, "no commands")
        return 80
    tall, wide = min(26, max(9, 520 / len(rows))), width / run.cores
    by_core = run.by_core()
    done = [[sum(by_core[one, core] for one in row.connections) for core in range(run.cores)] for row in rows]
    most = max(count for counts in done for count in counts) or 1
    for at, row in enumerate(rows):
        y = TOP + 16 + at * tall
        if at % spaced(len(rows), tall * len(rows), 11) == 0:
            drawing.text(LEFT - 6, y + tall / 2 + 4, names(row.connections), "end", 10)
        for core, count in enumerate(done[at]):
            x = LEFT + core * wide
            if count:
                drawing.box(x + 0.5, y + 0.5, wide - 1, tall - 1, shade(count / most))
            if count and tall >= 12 and wide >= 6.5 * len(number(count)) + 4:
                drawing.text(x + wide / 2, y + tall / 2 + 4, number(count), "middle", 10, "white" if count / most > 0.5 else "")
        if row.home is not None:
            drawing.box(LEFT + row.home * wide + 0.75, y + 0.75, wide - 1.5, tall - 1.5, "none",
                        f' stroke="{HOME}" stroke-width="1.5"')
    bottom = TOP + 16 + len(rows) * tall
    for core in range(0, run.cores, spaced(run.cores, width, 18)):
        drawing.text(LEFT + (core + 0.5) * wide, TOP + 11, str(core), "middle", 10)
    drawing.text(LEFT - 6, TOP + 11, "connection | core", "end", 9)
    drawing.text(LEFT, bottom + 18, "0", "end", 10)
    for step in range(40):
        drawing.box(LEFT + 6 + step * 3, bottom + 9, 3, 10, shade((step + 1) / 40))
    drawing.text(LEFT + 130, bottom + 18, counted(most, "command"), size=10)
    return bottom + 30 - TOP


def bars(drawing: Drawing, y: float, title: str, groups: Sequence[Sequence[float]], colors: Sequence[str],
         labels: Sequence[str], marks: Sequence[int], unit: str = "") -> float:
    """A chart of bars: groups of values, from 0 to the last mark, a color for each of a group, and labels of groups."""
    x, width, height = RIGHT + 44, WIDTH - RIGHT - 60, 110
    drawing.text(RIGHT, y, title, size=13)
    base, top = y + 40 + height, marks[-1]
    for mark in marks:
        at = base - height * mark / top
        drawing.line(x, at, x + width, at, "#dddddd")
        drawing.text(x - 5, at + 4, number(mark) + unit, "end", 10)
    wide = width / max(1, len(groups))
    bar = max(1, wide * 0.86 / len(colors))
    for at, group in enumerate(groups):
        for which, value in enumerate(group):
            tall = height * value / top
            if tall:
                drawing.box(x + at * wide + wide * 0.07 + which * bar, base - tall, bar, tall, colors[which])
    longest = max((len(label) for label in labels), default=1)
    for at in range(0, len(labels), spaced(max(1, len(labels)), width, 7 * longest + 4)):
        drawing.text(x + (at + 0.5) * wide, base + 13, labels[at], "middle", 10)
    drawing.line(x, base, x + width, base)
    return base


def marks(value: int) -> list[int]:
    """The marks of an axis: up to five multiples of 1, 2 or 5 times a power of ten, from 0 to this value or past it."""
    step: int = next(first * 10**power for power in range(20) for first in (1, 2, 5) if 4 * first * 10**power >= value)
    return list(range(0, max(1, -(-value // step)) * step + 1, step))


def stolen_chart(drawing: Drawing, run: Run, y: float) -> float:
    found = run.stolen()
    groups = [(share(of[1], of[0]), share(of[3], of[2])) for of in found]
    base = bars(drawing, y, "Stolen of what each core carried out", groups, (BLUE, ORANGE),
                list(map(str, range(run.cores))), [0, 50, 100], " %")
    legend(drawing, RIGHT + 44, y + 20, ((BLUE, "of its commands"), (ORANGE, "of its holds")))
    drawing.text(WIDTH - 16, base + 27, "core", "end", 10)
    return base + 54


def holds_chart(drawing: Drawing, run: Run, y: float) -> float:
    found = run.hold_sizes()
    base = bars(drawing, y, "Holds by their number of commands", [(count,) for count in found], (BLUE,),
                list(map(str, range(1, MOST_HOLD + 1))), marks(max(found)))
    drawing.text(WIDTH - 16, base + 27, "commands of a hold", "end", 10)
    return base + 54


def shards_chart(drawing: Drawing, run: Run, y: float) -> float:
    found = run.counts()
    size = -(-len(found) // MOST_BARS)
    groups = [[sum(column) for column in zip(*found[at : at + size])] for at in range(0, len(found), size)]
    labels = [names(range(at, min(at + size, len(found)))) for at in range(0, len(found), size)]
    base = bars(drawing, y, "Calls by shard", groups, (BLUE, ORANGE, GREEN, GRAY), labels, marks(max(count for group in groups for count in group)))
    legend(drawing, RIGHT + 44, y + 20, ((BLUE, "gets"), (ORANGE, "sets"), (GREEN, "hits"), (GRAY, "misses")))
    drawing.text(WIDTH - 16, base + 27, "shard" if size == 1 else f"a bar for up to {size} shards", "end", 10)
    return base + 34


def drawn(run: Run) -> tuple[Drawing, float]:
    """The drawing of a run, and its height."""
    drawing = Drawing()
    commands, stolen, cores = run.commands(), "", f"; cores not given: {number(run.seen)} seen"
    charts = [holds_chart, shards_chart]
    if run.given:
        stolen = f"; {share(run.commands(True), commands):.1f} % of the commands were stolen"
        cores = f" on {counted(run.cores, 'core')}"
        charts.insert(0, stolen_chart)
    counts = (commands, "command"), (sum(run.calls.values()), "call"), (run.holds(), "hold")
    drawing.text(16, 24, f"A run of {counted(len(run.connections), 'connection')}{cores}", size=17)
    drawing.text(16, 43, ", ".join(counted(*one) for one in counts) + stolen)
    left = grid(drawing, run, RIGHT - LEFT - 40)
    y: float = TOP - 20
    for chart in charts:
        y = chart(drawing, run, y)
    return drawing, max(TOP + left, y) + 20


def run_of(name: str, cores: int | None) -> Run:
    """The run of an input, a journal that a replies file may follow."""
    found: Run | None = None
    for part in inputs.parts(name):
        if part.name != ("replies" if found else "journal"):
            raise part.fault("not expected here: one journal is drawn, which `zygos run --out both` writes")
        found = found or Run(journal_records(part), cores)
    if found and found.done and found.seen < found.cores:
        unseen = f"core {found.seen}" if found.seen + 1 == found.cores else f"cores {found.seen} to {found.cores - 1}"
        say(f"{inputs.name_of(name)}: {unseen} held nothing; were there {found.cores} cores?")
    if found is None:
        raise Fault(f"{inputs.name_of(name)}: no journal in it; `zygos run --out both` writes one")
    return found


def main(words: list[str]) -> None:
    given, files = ends.options(words, {"--cores": ends.number(1, MOST_CORES)})
    print(svg([drawn(run_of(name, given.get("--cores"))) for name in files or ["-"]]))
