"""Cuts one file out of an input of several, one after the other.

usage: tools/part capture|journal|replies|items [FILE] > PART

    ./zygos run --out both < examples/first.cap | tools/part journal | ./zygos report

FILE is standard input if it is left out or -. The whole input is read. If it has none of these parts, two of them, or
an error, the status is 1; at an error the part is written up to it.
"""
from __future__ import annotations

import sys

from zygos_tools.cli import ends
from zygos_tools.files import inputs
from zygos_tools.files.formats import FORMATS, cut

# what writes a part that is missing
HINTS = {"capture": "; tools/record and tools/packets write one", "journal": "; `zygos run --out both` writes one",
         "replies": "; `zygos run` writes one", "items": ""}


def main(words: list[str]) -> None:
    _, names = ends.options(words, {})
    if not names or names[0] not in FORMATS.values() or len(names) > 2:
        ends.stop("which part is cut out: capture, journal or replies; --help says more", 2)
    wanted, name = names[0], names[1] if len(names) > 1 else "-"
    found = False
    for part in inputs.parts(name):
        if part.name != wanted:
            continue
        if found:
            raise part.fault("there are two of them")
        found = True
        cut(part, sys.stdout.buffer.write)
    if not found:
        ends.stop(f"{inputs.name_of(name)}: no {wanted} in it{HINTS[wanted]}")
