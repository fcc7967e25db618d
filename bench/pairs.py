#!/usr/bin/env python3
"""Serves one connection with 100,000 and 1,000,000 pairs of `set` and `get`, and prints what they cost.

The values have 100 bytes, and there are 1,024 keys. Printed are seconds of processor time, resident memory and their
ratios. Ten times the input is to cost at most eleven times the time and the memory.

usage: bench/run pairs [PROGRAM]

PROGRAM       a program that is built (if left out, the repository's, which is proved and built first if it isn't)
"""
import os
import tempfile

import common
from zygos_tools.files.formats import capture, pieces

SIZES = (100_000, 1_000_000)


def sent(pairs):
    """The stream of a number of pairs."""
    value = b"v" * 100
    return b"".join(b"set key%04d 0 0 100\r\n%s\r\nget key%04d\r\n" % (i % 1024, value, i % 1024) for i in range(pairs))


def main():
    program = common.built("zygos", common.Words(__doc__, "program").given().program)
    figures = []
    with tempfile.TemporaryDirectory() as room:
        for pairs in SIZES:
            path = os.path.join(room, str(pairs))
            with open(path, "wb") as out:
                out.write(capture(1, pieces(0, sent(pairs), 60_000)))
            cost = common.run([program, "run"], path)
            figures.append(cost)
            print(f"{pairs:8d} pairs: {cost.used:6.2f} s  {cost.resident / 2**20:7.0f} MiB  "
                  f"{os.path.getsize(path) / cost.used / 1e6:5.1f} MB/s", flush=True)
    few, many = figures
    print(f"ratios: time {many.used / few.used:.1f}, memory {many.resident / few.resident:.1f}")


main()
