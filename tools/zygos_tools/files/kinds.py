"""What a file is, by its first bytes, and what may be done about one that is not what is read."""
from __future__ import annotations

import re

# what a file may be, by its beginning; how many bytes say so
CAPTURE, REPLIES, JOURNAL, ITEMS = "a capture", "a replies file", "a journal", "an items file"
PACKETS, COMPRESSED, TEXT, EMPTY = "recorded packets", "a compressed file", "text", "an empty file"
CHANGED = "a file whose line ends were changed"
HEAD = 200
KINDS = ((rb"ZYG(CAP|JRN|REP|ITM)\d\r\n", CHANGED), (rb"ZYGCAP[12]\n", CAPTURE), (rb"ZYGJRN1\n", JOURNAL), (rb"ZYGREP[12]\n", REPLIES),
         (rb"ZYGITM1\n", ITEMS),
         (rb"\xa1\xb2[\xc3\x3c][\xd4\x4d]|[\xd4\x4d][\xc3\x3c]\xb2\xa1|\n\r\r\n", PACKETS),
         (rb"\x1f\x8b|\x28\xb5\x2f\xfd|BZh|\xfd7zXZ|PK\x03\x04|\x04\x22\x4d\x18", COMPRESSED),
         (rb"\Z", EMPTY), (rb"[\t\n\r -~\x80-\xff]+\Z", TEXT))
# what may be done about it
CURES = {CHANGED: "copy it again as a binary file", PACKETS: "tools/packets makes a capture and a replies file of them",
         COMPRESSED: "decompress it first", EMPTY: "nothing was recorded into it, or the recorder was killed"}


def kind_of(head: bytes) -> str | None:
    """What a file with these first bytes is; None if that is not known."""
    return next((kind for pattern, kind in KINDS if re.match(pattern, head[:HEAD])), None)


def is_packets(head: bytes) -> bool:
    """Whether a file with these first bytes has recorded packets."""
    return kind_of(head) == PACKETS


def told(head: bytes, cures: dict[str, str] = CURES) -> str | None:
    """What a file with these first bytes is, and what may be done about it, to be printed; None if that is not known."""
    kind = kind_of(head)
    if kind is None:
        return None
    cure = cures.get(kind, CURES.get(kind))
    return f"this is {kind}; {cure}" if cure else f"this is {kind}"
