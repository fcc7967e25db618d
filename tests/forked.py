"""Runs the tools in forks of this process, which has their modules: that takes a tenth of the time that Python needs to
start."""
from __future__ import annotations

import functools
import importlib
import io
import os
import re
import select
import signal
import subprocess
import sys
import tempfile
import threading
import traceback
import types
from collections.abc import Mapping
from typing import IO

from zygos_tools.cli import screen
from zygos_tools.repository import TOP

# seconds after which a program is ended: it hangs. Beside a hundred others it may take a hundred times as long as alone
LONGEST = 3600
# how a tool of Python begins, which sh starts
FIRST_LINES = "#!/bin/sh\n''':'"
IMPORT = re.compile(r"^from (zygos_tools[.\w]*) import (\w+)", re.MULTILINE)


def path_of(tool: str) -> str:
    return os.path.join(TOP, "tools", tool)


@functools.cache
def code_of(tool: str) -> types.CodeType | None:
    """Returns the code of a tool, and imports its modules here for all its processes; None if it is not written in Python."""
    with open(path_of(tool), encoding="utf-8") as file:
        text = file.read()
    if not text.startswith(FIRST_LINES):
        return None
    for package, name in IMPORT.findall(text):
        found = importlib.import_module(package)
        if not hasattr(found, name):
            importlib.import_module(f"{package}.{name}")
    return compile(text, path_of(tool), "exec")


def can_be_forked(tool: str) -> bool:
    """Checks whether a tool can be a fork of this process: it is written in Python, and no other thread may hold a lock here."""
    return threading.active_count() == 1 and code_of(tool) is not None


def run(tool: str, words: tuple[str, ...], given: bytes = b"",
        environment: Mapping[str, str] | None = None) -> "subprocess.CompletedProcess[bytes]":
    """Runs a tool with its words and standard input. Returns its status, its output and its messages."""
    with tempfile.TemporaryFile() as source, tempfile.TemporaryFile() as output, tempfile.TemporaryFile() as said:
        source.write(given)
        source.seek(0)
        child = os.fork()
        if not child:
            carry_out(tool, words, (source, output, said), environment or {})
        status = end_of(child)
        for file in output, said:
            file.seek(0)
        return subprocess.CompletedProcess([tool, *words], status, output.read(), said.read())


def end_of(child: int) -> int:
    """Waits for the end of a process, and ends it after a long time. Returns its status, as subprocess does."""
    ending = os.pidfd_open(child)
    try:
        if not select.select([ending], [], [], LONGEST)[0]:
            os.kill(child, signal.SIGKILL)
        return os.waitstatus_to_exitcode(os.waitpid(child, 0)[1])
    finally:
        os.close(ending)


def carry_out(tool: str, words: tuple[str, ...], files: tuple[IO[bytes], ...], environment: Mapping[str, str]) -> None:
    """Runs the tool in this process, which is its own."""
    path = path_of(tool)
    try:
        for number, file in enumerate(files):
            os.dup2(file.fileno(), number)
        os.environ.update(environment)
        sys.argv, screen.NAME = [path, *words], screen.name_of(path)
        sys.stdin, sys.stderr = open(0, encoding="utf-8", closefd=False), open(2, "w", 1, encoding="utf-8", closefd=False)
        sys.stdout = io.TextIOWrapper(open(1, "wb", closefd=False), encoding=environment.get("ENCODING", "utf-8"))
        sys.path.insert(0, os.path.dirname(os.path.realpath(path)))
        leave(tool)
    except BaseException:
        os.write(2, traceback.format_exc().encode())
    finally:
        os._exit(99)


def leave(tool: str) -> None:
    """Runs the code of a tool, and ends this process as Python does."""
    status: object = 0
    try:
        exec(code_of(tool) or "", {"__name__": "__main__", "__file__": path_of(tool)})
    except SystemExit as ended:
        status = ended.code or 0
    sys.stdout.flush()
    os._exit(status if isinstance(status, int) else 1)
