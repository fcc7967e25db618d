"""What --version prints: the version, and of each program its source, the prover and where it was proved."""
from __future__ import annotations

import os
import subprocess
from collections.abc import Iterator

from zygos_tools.repository import TOP


def lines(name: str) -> Iterator[str]:
    """The lines of a tool."""
    with open(os.path.join(TOP, "VERSION"), encoding="utf-8") as file:
        yield f"{name} of zygos {file.read().strip()}"
    ran = subprocess.run([os.path.join(TOP, "zygos"), "--version"], stdout=subprocess.PIPE, text=True, check=False)
    yield from ran.stdout.splitlines()[1:]
