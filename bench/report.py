#!/usr/bin/env python3
"""Makes traffic, serves it, reports on the journal, and prints what the report costs.

Microseconds of processor time an entry, the best of three reports, and resident memory, in bytes an entry and as a
multiple of the journal. The status is 1 where an entry of the largest journal costs more than 0.5 microseconds.

usage: bench/run report [PROGRAM]

PROGRAM       a program that is built (if left out, the repository's, which is proved and built first if it isn't)
"""
import os
import sys
import tempfile

import common
from zygos_tools.files.formats import cut
from zygos_tools.files.part import Part

# connections, and commands of each
SIZES = ((200, 500), (200, 5000), (4000, 250))
MOST = 0.5


def journal(program, connections, commands, room):
    """The path of the journal of a run of so much traffic."""
    served, path = (os.path.join(room, name) for name in ("served", "journal"))
    given = common.generated(program, os.path.join(room, "capture"), connections * commands, connections)
    common.run([program, "run", "--cores", 1, "--out", "both"], given, served)
    with open(served, "rb") as both, open(path, "wb") as taken:
        cut(Part("journal", more=both.read), taken.write)
    return path


def main():
    program = common.built("zygos", common.Words(__doc__, "program").given().program)
    each = []
    with tempfile.TemporaryDirectory() as room:
        for size in SIZES:
            path = journal(program, *size, room)
            entries, length = common.entries(program, *size), os.path.getsize(path)
            cost = common.least(3, [program, "report"], path)
            each.append(cost.used * 1e6 / entries)
            print(f"{size[0]} connections of {size[1]} commands, {entries} entries, {length / 1e6:.0f} MB: "
                  f"{each[-1]:.2f} microseconds of processor time an entry, "
                  f"{cost.resident / entries:.0f} bytes an entry resident, "
                  f"{cost.resident / length:.1f} times the journal", flush=True)
    sys.exit(max(each) > MOST)


main()
