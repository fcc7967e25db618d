#!/usr/bin/env python3
"""Makes traffic, serves it, checks the run, and prints what the check costs.

Microseconds of processor time an entry of the journal, the best of three checks, resident memory as a multiple of the
input, and how many times the input, the time and the memory are those of the least size. Ten times the connections are
ten times the input. Values grow by `append`, so ten times the commands of each connection are more than that.

usage: bench/run check [PROGRAM]

PROGRAM       a program that is built (if left out, the repository's, which is proved and built first if it isn't)
"""
import os
import shutil
import tempfile

import common

# connections, and commands of each
SIZES = ((200, 500), (2000, 500), (200, 5000))


def certify(program, connections, commands, room):
    """The bytes of the input, and what the check of a run of so much traffic costs."""
    path = os.path.join(room, f"{connections}-{commands}")
    given = common.generated(program, path + ".cap", connections * commands, connections)
    shutil.copy(given, path)
    common.run([program, "run", "--cores", 1, "--out", "both"], given, path, append=True)
    return os.path.getsize(path), common.least(3, [program, "check"], path)


def main():
    program = common.built("zygos", common.Words(__doc__, "program").given().program)
    least = None
    with tempfile.TemporaryDirectory() as room:
        for connections, commands in SIZES:
            size, cost = certify(program, connections, commands, room)
            entries = common.entries(program, connections, commands)
            least = least or (size, cost)
            print(f"{connections} connections of {commands} commands, {entries} entries, {size / 1e6:.0f} MB: "
                  f"{cost.used * 1e6 / entries:.2f} microseconds of processor time an entry, "
                  f"{cost.resident / size:.1f} times the input resident; the input is {size / least[0]:.1f}, "
                  f"the time {cost.used / least[1].used:.1f} and the memory "
                  f"{cost.resident / least[1].resident:.1f} times the least", flush=True)


main()
