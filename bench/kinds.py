"""The kinds of capture that are made of the same traffic."""
from zygos_tools.files.formats import capture, read_capture, segment
from zygos_tools.files.part import Part

NUMBERS, SEGMENT = 4096, 1400


def at_core_0(conn):
    """A number for each connection whose home is core 0 of 1, 2, 3 and 4 cores: the home of connection c of n cores is
    c modulo 128 modulo n."""
    return conn // 11 * 128 + conn % 11 * 12


def in_turn(records):
    """The streams of these segments, in segments of 1,400 bytes which come in turn."""
    streams = {}
    for conn, text in records:
        streams.setdefault(conn, bytearray()).extend(text)
    for at in range(0, max(map(len, streams.values())), SEGMENT):
        for conn, text in sorted(streams.items()):
            if at < len(text):
                yield conn, bytes(text[at : at + SEGMENT])


KINDS = {
    "even": lambda records: records,
    "skewed": lambda records: ((at_core_0(conn), text) for conn, text in records),
    "large": in_turn,
}


def segments(path):
    """The connections and bytes of the segments of a capture."""
    with open(path, "rb") as file:
        return read_capture(Part("capture", file.read())).records


def write(path, kind, records):
    """Writes the capture of a kind."""
    with open(path, "wb") as file:
        file.write(capture(NUMBERS, [segment(conn, text) for conn, text in KINDS[kind](records)]))
