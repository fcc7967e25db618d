"""Makes the files of a recording, or of a window, of the parts that processes wrote (parts.py)."""
from __future__ import annotations

import os
import tempfile
from typing import NamedTuple

from zygos_tools.cli.screen import Screen
from zygos_tools.files.growing import Growing
from zygos_tools.files.outputs import Beside, naming
from zygos_tools.files.spool import replies_of
from zygos_tools.recording.parts import join, remove_parts


class Window(NamedTuple):
    """What is known of a window once all its parts are written."""

    capture: str
    replies: str
    parts: list[str]
    connections: int
    commands: int
    has_sessions: bool


def complete(window: Window, screen: Screen) -> None:
    """Writes both files, each at once: the replies, and then the capture. Then the parts are removed."""
    version = 2 if window.has_sessions else 1
    folder = os.path.dirname(os.path.realpath(window.replies))
    with Beside(window.capture, True) as one, Beside(window.replies, True) as other:
        with naming(window.replies), tempfile.TemporaryFile(dir=folder) as kept:
            sent, back = Growing(one.out), Growing(kept.fileno())
            join(window.parts, sent, back)
            sent.finish(version, window.connections)
            back.finish(version, window.connections)
            replies_of(kept.fileno(), other.out, version, window.connections, screen)
    remove_parts(window.parts)
