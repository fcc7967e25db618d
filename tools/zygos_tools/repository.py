"""Where the repository is, and its files."""
from __future__ import annotations

import glob
import os

TOP = os.path.dirname(os.path.dirname(os.path.dirname(os.path.realpath(__file__))))


def matching(pattern: str, top: str = TOP) -> list[str]:
    """Returns the paths below a folder that match a pattern, as seen from the folder, sorted."""
    return sorted(os.path.relpath(path, top) for path in glob.glob(os.path.join(glob.escape(top), pattern), recursive=True))
