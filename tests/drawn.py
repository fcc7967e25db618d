"""Drawn captures: a few connections that send commands of all kinds, classic and meta, on the same few keys or on many keys
of one line of an index, and some faulty lines."""
import functools
import itertools

from zygos_tools.files.formats import capture, close, segment
from zygos_tools.protocol.meaning import FORMS
from zygos_tools.protocol.model import hash_of, shard_of

KEYS = [b"a", b"b", b"c", b"k" * 250]
# the commands with a key and a number
COUNTING = [verb.encode() for verb, form in FORMS.items() if form == "key amount [noreply]"]
# lines without a call, faulty ones, and lines at the edges of the profile
LINES = """
version; version 1; verbosity 1; verbosity 4294967295 noreply; verbosity 4294967296; verbosity noreply; verbosity
flush_all; flush_all noreply; flush_all 00 noreply; flush_all 1; flush_all 0 0; flush_all noreply noreply
mn; mn q; mg; mg a v v; mg a vk; mg a O7; mg a q1; mg b q; mg b k q; MG a; mgx a; ma a; md; md a v; md a k k; md b k q
ms; ms a; ms a x; ms a 4294967296; ms a 000000000000000000001; ms a S1 F5; ms a 1 F; ms a 1 F4294967296; ms a 1 F1 F1
ms a 1 C; ms a 1 C18446744073709551616; ms a 1 C5 ME; ms a 1 M; ms a 1 Mset; ms a 1 T; ms a 1 T+1; ms a 1 v; ms a 1 q1
stats; stats; stats items; stats noreply; GET a; get; gets; quit now; delete; delete noreply; delete a noreply; delete a 1; delete b 00; delete a 0 a
delete b 00 noreply; incr a; incr a z; incr a noreply; incr a z noreply; decr a 1 1; incr a 18446744073709551615
incr a 18446744073709551616; incr a 00000000000000000001 noreply; incr a 000000000000000000001; decr a -1; get noreply
set a 0 0; set a 0 0 -1; set a 0 0 1 norepl; set a 4294967296 0 1; set a 0 0 4294967296; set a 0 +1 1; set a 0 - 1
set a 0 10000000000000000000 1; cas a 0 0 1; cas a 0 0 1 x; cas a 0 0 1 18446744073709551616; cas a 0 0 1 1 x
"""
OTHERS = [line.strip().encode() + b"\r\n" for line in LINES.strip().replace("\n", ";").split(";")] + [
    b"\r\n", b"\n", b"  \r\n", b"version\n", b"version\r\r\n", b" get  a  \r\n", b"get a\t\0\r\r\n",
    b"get " + b"k" * 251 + b"\r\n", b"gets a " + b"k" * 251 + b"\r\n", b"incr " + b"k" * 251 + b" z\r\n",
    b"set a 0 0 1 noreply \n5\r\n", b"set a 4294967295 -9999999999999999999 1\r\n5\r\n",
    b"set b 0 9999999999999999999 0\n\r\n", b"set c 0 0 3\r\n1 2\r\n", b"set c 0 0 21\r\n000000000000000000001\r\n",
    b"set c 0 0 20\r\n18446744073709551616\r\n", b"quit\r\n",
]


def storage(draw, shards, keys):
    """A storage line with its block, which now and then ends otherwise."""
    verb = draw.choice((b"set", b"set", b"add", b"replace", b"append", b"prepend", b"cas"))
    key, value = draw.choice(keys), draw.choice((b"", b"7", b"18446744073709551615", b"x" * draw.randrange(9)))
    # the unique of one of the first items of the key's shard
    unique = b" %d" % (shards * draw.randrange(1, 4) + shard_of(key, shards)) if verb == b"cas" else b""
    quiet, end = draw.choice((b"", b"", b" noreply")), b"\n\n" if draw.randrange(9) == 0 else b"\r\n"
    return b"%s %s %d 0 %d%s%s\r\n%s%s" % (verb, key, draw.randrange(9), len(value), unique, quiet, value, end)


def meta(draw, shards, keys):
    """A line of a meta command, with its block if it stores."""
    name = draw.choice((b"mg", b"mg", b"ms", b"ms", b"md", b"mn"))
    key, value = draw.choice(keys), b"7" * draw.randrange(3)
    letters = {b"mg": "vkfcsq", b"ms": "FCMTkq", b"md": "kq", b"mn": ""}[name]
    tokens = {"F": draw.randrange(9), "M": draw.choice("EAPRSsa"), "T": -1,
              "C": shards * draw.randrange(1, 4) + shard_of(key, shards)}
    flags = [f"{letter}{tokens.get(letter, '')}".encode() for letter in letters if draw.randrange(3) == 0]
    draw.shuffle(flags)
    end = b"\n\n" if draw.randrange(9) == 0 else b"\r\n"
    words = {b"mn": [name], b"ms": [name, key, b"%d" % len(value), *flags]}.get(name, [name, key, *flags])
    return b" ".join(words) + b"\r\n" + (value + end if name == b"ms" else b"")


def request(draw, shards, keys):
    key, quiet, kind = draw.choice(keys), draw.choice((b"", b"", b" noreply")), draw.randrange(14)
    if kind < 4:
        return storage(draw, shards, keys)
    if kind > 9:
        return meta(draw, shards, keys)
    if kind < 7:
        asked = [draw.choice(keys) for _ in range(draw.randrange(1, 4))]
        return b" ".join([draw.choice((b"get", b"gets")), *asked]) + b"\r\n"
    if kind == 7:
        return b"%s %s %d%s\r\n" % (draw.choice(COUNTING), key, draw.randrange(20), quiet)
    return b"delete %s%s\r\n" % (key, quiet) if kind == 8 else draw.choice(OTHERS)


def drawn_capture(draw, shards, keys=KEYS, first=()):
    """A capture whose segments cut requests; a close drops what was not sent of one."""
    version, count, records = draw.choice((1, 2)), draw.randrange(1, 5), [*first]
    left = [b""] * count
    for _ in range(draw.randrange(30)):
        connection = draw.randrange(count)
        text = left[connection] + request(draw, shards, keys)
        cut = draw.randrange(len(text) + 1)
        records.append(segment(connection, text[:cut]))
        left[connection] = text[cut:]
        if version == 2 and draw.randrange(6) == 0:
            records.append(close(connection))
            left[connection] = b""
    return capture(count, [*records, *(segment(connection, text) for connection, text in enumerate(left))], version)


@functools.lru_cache
def alike(count, bits, front=b"", shards=1):
    """Keys that begin alike, on one shard, and whose hashes have the same first bits: they are in one line of its index, as
    long as that has no more lines than there are numbers of so many bits."""
    found = (key for number in itertools.count() if hash_of(key := front + b"%d" % number) >> 32 - bits == 7)
    return list(itertools.islice((key for key in found if shard_of(key, shards) == 0), count))


def crowded_capture(draw, shards):
    """A drawn capture on keys of one line of an index, most of which are stored first."""
    keys = alike(40, draw.choice((8, 13)), shards=shards)
    stored = (b"set %s 0 0 1\r\n%d\r\n" % (key, draw.randrange(9)) for key in draw.sample(keys, draw.randrange(10, 41)))
    return drawn_capture(draw, shards, keys, [segment(0, b"".join(stored))])
