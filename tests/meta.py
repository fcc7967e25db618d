"""Lines of meta commands, and what answers them: by memcached 1.6.18, and by zygos where that differs.

The lines are those of memcached's protocol.txt, "Meta Commands", and of its meta tests, and lines at the edges of the
profile. memcached's answers were seen by sending each row to a new server.
"""
import re

# a name: what was sent => what both answer; `|` ends a line, `c{n}` is a byte repeated, and some answers are short for
# those of SHORT
SAME = r"""
command names in capitals are unknown: MN|MG a| => ERROR|ERROR|
meta commands without a key: mg|md|ms| => ERROR|ERROR|ERROR|
a key of 250 bytes: set w{250} 0 0 1|x|mg w{250} k|mg a| => STORED|HD kw{250}|EN|
keys of 251 bytes: mg w{251}|mg w{251} k q|md w{251} q|ms w{251} x| => BAD|BAD|BAD|BAD|
a long key is reported before a bad flag: mg w{251} z z|md w{251} 0| => BAD|BAD|
a long key of ms, whose block is read as a line: ms w{251} 1 q|x|mn| => BAD|ERROR|MN|
marks come in the order of the flags: set a 5 0 2|xy|mg a v k f s q|mg a q s f k v| => STORED|VA 2 ka f5 s2|xy|VA 2 s2 f5 ka|xy|
a hit without v, with and without marks: set a 5 0 2|xy|mg a|mg a k|mg a f s|mg a s f k| => STORED|HD|HD ka|HD f5 s2|HD s2 f5 ka|
a tab is no space: mg\ta|mn\t| => ERROR|ERROR|
a line of 3,000 bytes: mg a {2996}|mn| => EN|MN|
a faulty line between good ones: mn|ms a 1|x|mg w{251}|mn| => MN|HD|BAD|MN|
a miss shows no flags: mg a v f c s| => EN|
a hit with q is answered, a miss is not: set a 5 0 2|xy|mg b q|mg b v k q|mg a q|mg a q v|mn| => STORED|HD|VA 2|xy|MN|
md with q of an item is silent: set a 5 0 2|xy|md a q|mg a| => STORED|EN|
md shows its key where it deletes and where it does not: set a 5 0 2|xy|md a k|md a k| => STORED|HD ka|NF ka|
ms with q is silent only where it stores: ms a 1 q|x|ms a 1 q ME|x|ms a 1 q C0 k|x|ms b 1 k q C0|x|ms b 1 MA q|x|mn| => NS|EX ka|NF kb|NS|MN|
ms shows its key where it stores and where it does not: ms a 1 k|x|ms a 1 k ME|x|ms b 1 MR k|x| => HD ka|NS ka|NS kb|
an empty value: ms a 0||mg a v s|mg a s v k| => HD|VA 0 s0||VA 0 s0 ka||
a value that looks like a command: ms a 12|x|mg a v|z|mg a v| => HD|VA 12|x|mg a v|z|
mn is answered after a silent miss: mn|mn|mg a q|mn| => MN|MN|MN|
mode E stores where there is no item: ms a 1 F9 ME|x|mg a v f|set b 5 0 2|xy|ms b 1 F9 ME k|z|mg b v f s| => HD|VA 1 f9|x|STORED|NS kb|VA 2 f5 s2|xy|
mode A appends to an item: ms a 1 F9 MA|x|mg a v f|set b 5 0 2|xy|ms b 1 F9 MA k|z|mg b v f s| => NS|EN|STORED|HD kb|VA 3 f5 s3|xyz|
mode P prepends to an item: ms a 1 F9 MP|x|mg a v f|set b 5 0 2|xy|ms b 1 F9 MP k|z|mg b v f s| => NS|EN|STORED|HD kb|VA 3 f5 s3|zxy|
mode R replaces an item: ms a 1 F9 MR|x|mg a v f|set b 5 0 2|xy|ms b 1 F9 MR k|z|mg b v f s| => NS|EN|STORED|HD kb|VA 1 f9 s1|z|
mode S stores always: ms a 1 F9 MS|x|mg a v f|set b 5 0 2|xy|ms b 1 F9 MS k|z|mg b v f s| => HD|VA 1 f9|x|STORED|HD kb|VA 1 f9 s1|z|
mode S beside a unique: set a 5 0 2|xy|ms a 1 C99 MS|z|mg a v| => STORED|EX|VA 2|xy|
a length with leading zeros: ms a 01|x|ms a 00000000000000000001|y|mg a v| => HD|HD|VA 1|y|
a length that is no number, whose block is read as a line: ms a x|x|mn| => BAD|ERROR|MN|
a length that is no number, with q: ms a x q|mn| => BAD|MN|
a length of nearly 2^31 waits for its block: ms a 2147483645|mn| =>
flags 0, 05 and 4294967295: ms a 1 F0|x|mg a f|ms a 1 F05|x|mg a f|ms a 1 F4294967295|x|mg a f| => HD|HD f0|HD|HD f5|HD|HD f4294967295|
uniques that do not match: set a 5 0 2|xy|ms a 1 C0|z|ms a 1 C99|z|ms a 1 C18446744073709551615|z|ms b 1 C1|z| => STORED|EX|EX|EX|NF|
exptimes that have not passed: ms a 1 T0|x|ms a 1 T-0|x|ms a 1 T00600|x|ms a 1 T2592000|x|mg a v| => HD|HD|HD|HD|VA 1|x|
an exptime of 2^32: ms a 1 T4294967296|x|mg a v| => HD|VA 1|x|
a block that is too long, and one that is too short: ms a 1|xy|mn|ms a 2|x|mn| => CHUNK|ERROR|MN|CHUNK|ERROR|
a block that does not end as it should: ms a 1|xZZmn|ms a 1 q k|xZZmn| => CHUNK|MN|CHUNK|MN|
a block that does not end as it should keeps the old item: set a 5 0 2|xy|ms a 1|xZZmg a v| => STORED|CHUNK|VA 2|xy|
bad blocks in mode E and with a unique: ms a 1 ME|xZZms a 1 C5 k|xZZmn| => CHUNK|CHUNK|MN|
a block over 1 MiB: ms b 1048577|y{1048577}|mn| => LARGE|MN|
a block over 1 MiB, with q: ms b 1048577 q|y{1048577}|mn| => LARGE|MN|
a block over 1 MiB that does not end as it should: ms b 1048577|y{1048577}ZZmn| => LARGE|MN|
a block that never ends: mn|ms a 5|ab => MN|
meta and classic commands on the same items: set a 5 0 2|xy|mg a v f s k|ms b 2 F7|zw|get a b| => STORED|VA 2 f5 s2 ka|xy|HD|VALUE a 5 2|xy|VALUE b 7 2|zw|END|
a counter that ms stored: ms a 1 F3|9|incr a 1|mg a v f s| => HD|10|VA 2 f3 s2|10|
an item after md, add and delete: set a 5 0 2|xy|md a|add a 1 0 1|q|delete a|ms a 1 ME|r|mg a v| => STORED|HD|STORED|DELETED|HD|VA 1|r|
cas with another unique: set a 5 0 2|xy|cas a 0 0 1 99|z|mg a v| => STORED|EXISTS|VA 2|xy|
flush_all before mg and md: set a 5 0 2|xy|flush_all|mg a|md a| => STORED|OK|EN|NF|
"""

# a name: what was sent => what memcached 1.6.18 answers => what zygos answers
OTHER = r"""
mn with a further word: mn x| => MN| => ERROR|
ms without a length: ms a| => BAD| => ERROR|
ms with a long key and without a length: ms w{251}| => BAD| => ERROR|
a repeated flag of mg: set a 5 0 2|xy|mg a v v| => STORED|C duplicate flag| => STORED|BAD|
repeated flags of ms: ms a 1 F5 F6|x|mn| => C duplicate flag|MN| => BAD|ERROR|MN|
a repeated flag of md: md a k k| => C invalid or duplicate flag| => BAD|
letters that mg does not have: mg a z|mg a V|mg a S| => C invalid flag|C invalid flag|C invalid flag| => BAD|BAD|BAD|
a letter that ms does not have: ms a 1 z|x|mn| => C invalid flag|MN| => BAD|ERROR|MN|
letters that md does not have: md a 0|md a noreply| => C invalid or duplicate flag|C invalid or duplicate flag| => BAD|BAD|
a letter above 0x7f: mg a \x80| => C duplicate flag| => BAD|
a letter that ms does not have, before a block of three bytes: ms a 3 z|mn|mn| => C invalid flag|ERROR| => BAD|MN|MN|
noreply after ms: ms a 1 noreply|x| => C invalid flag| => BAD|ERROR|
tokens on flags of ms that have none: ms a 1 kx|x|ms a 1 q1|y|mg a v| => HD ka|VA 1|y| => BAD|ERROR|BAD|ERROR|EN|
a token on a flag of md: set a 5 0 2|xy|md a kx|mg a| => STORED|HD ka|EN| => STORED|BAD|HD|
the flags h and t of mg: set a 5 0 2|xy|mg a h|mg a t| => STORED|HD h0|HD t-1| => STORED|BAD|BAD|
the flag O of mg: set a 5 0 2|xy|mg a O7 v|mg b O7| => STORED|VA 2 O7|xy|EN O7| => STORED|BAD|BAD|
the flag b of mg: mg YQ== b| => EN| => BAD|
the flags s, v and f of ms: ms a 1 s v f|x| => HD| => BAD|ERROR|
the flag c of ms: ms a 1 c|x| => HD c1| => BAD|ERROR|
the flag c of ms in mode E: ms a 2 ME c|xy|md a| => HD c1|HD| => BAD|ERROR|NF|
the flag O of ms: ms a 1 O7 k|x| => HD O7 ka| => BAD|ERROR|
the flag I of ms: ms a 1 I|x| => HD| => BAD|ERROR|
the flag I of md: set a 5 0 2|xy|md a I|mg a| => STORED|HD|HD X W| => STORED|BAD|HD|
the flag v of md: md a v| => NF| => BAD|
a NUL in a key: set a 5 0 2|xy|mg a\x00b k| => STORED|HD| => STORED|EN|
a line of 70,000 bytes: mg a {69996}|mn| =>  => C line too long|MN|
a miss with k: mg a k| => EN ka| => EN|
md with q of no item: md a q|mn| => NF|MN| => MN|
md with q and k of no item: md a q k|mn| => NF ka|MN| => MN|
uniques, by mg with c: set a 5 0 2|xy|mg a c|ms b 1|x|mg b c| => STORED|HD c1|HD|HD c2| => STORED|HD c28|HD|HD c21|
mode e in a small letter: set a 5 0 2|xy|ms a 1 Me|z|mg a v| => STORED|C invalid mode for ms M token|VA 2|xy| => STORED|NS|VA 2|xy|
mode a in a small letter: set a 5 0 2|xy|ms a 1 Ma|z|mg a v| => STORED|C invalid mode for ms M token|VA 2|xy| => STORED|HD|VA 3|xyz|
mode r in a small letter: set a 5 0 2|xy|ms a 1 Mr|z|mg a v| => STORED|C invalid mode for ms M token|VA 2|xy| => STORED|HD|VA 1|z|
mode s in a small letter: set a 5 0 2|xy|ms a 1 Ms|z|mg a v| => STORED|C invalid mode for ms M token|VA 2|xy| => STORED|HD|VA 1|z|
mode z in a small letter: ms a 1 Mz|x|mn| => C invalid mode for ms M token|MN| => BAD|ERROR|MN|
two modes: ms a 1 ME MA|x| => C duplicate flag| => BAD|ERROR|
a unique beside mode E, with an item: set a 5 0 2|xy|ms a 1 C99 ME|z| => STORED|NS| => STORED|BAD|ERROR|
a unique beside mode E, without an item: ms a 1 C99 ME|z|mg a v| => HD|VA 1|z| => BAD|ERROR|EN|
a unique beside mode A: set a 5 0 2|xy|ms a 1 C1 MA|z|mg a v| => STORED|HD|VA 3|xyz| => STORED|BAD|ERROR|VA 2|xy|
a length of 21 digits: ms a 000000000000000000001|x| => HD| => BAD|ERROR|
a length with a plus: ms a +1|x| => HD| => BAD|ERROR|
a length with a tab: ms a 1\t|x| => HD| => BAD|ERROR|
a length of minus zero: ms a -0|| => HD| => BAD|ERROR|
a length of 2^31 - 2: ms a 2147483646|mn| => BAD|MN| =>
a length of 2^32 - 1: ms a 4294967295|mn| => BAD|MN| =>
a length of 2^32: ms a 4294967296||mn| => HD|MN| => BAD|ERROR|MN|
flags of 2^32: ms a 1 F4294967296|x|mg a f| => HD|HD f0| => BAD|ERROR|EN|
flags that are no number: ms a 1 F|x|ms a 1 Fx|x|ms a 1 F-1|x|mn| => BAD|BAD|BAD|MN| => BAD|ERROR|BAD|ERROR|BAD|ERROR|MN|
flags with a plus: ms a 1 F+1|x|mg a f| => HD|HD f1| => BAD|ERROR|EN|
flags that are no number, with q: ms a 1 q Fx|x|mn| => BAD|MN| => BAD|ERROR|MN|
a unique with a plus: set a 5 0 2|xy|ms a 1 C+1|z| => STORED|HD| => STORED|BAD|ERROR|
an exptime that has passed: ms a 1 T-1|x|mg a v| => HD|EN| => HD|VA 1|x|
no exptime after T: ms a 1 T|x|mn| => C bad token in command line format|MN| => BAD|ERROR|MN|
an exptime of 20 digits: ms a 1 T00000000000000000001|x| => HD| => BAD|ERROR|
an exptime of 19 nines: ms a 1 T9999999999999999999|x| => C bad token in command line format| => HD|
a value of exactly 1 MiB: ms b 1048576|y{1048576}|mg b s| => LARGE|EN| => HD|HD s1048576|
a value over 1 MiB in place of an item: set a 5 0 2|xy|ms a 1048577|y{1048577}|mg a v| => STORED|LARGE|EN| => STORED|LARGE|VA 2|xy|
a value over 1 MiB in place of an item, in mode R: set a 5 0 2|xy|ms a 1048577 MR|y{1048577}|mg a v| => STORED|LARGE|EN| => STORED|LARGE|VA 2|xy|
a value over 1 MiB after a faulty line: ms a 1048577 k k|y{1048577}|mn| => C duplicate flag|MN| => BAD|C line too long|MN|
an item over 1 MiB by appending: ms a 600000|y{600000}|ms a 600000 MA|y{600000}|mg a s| => HD|NS|HD s600000| => HD|LARGE|HD s600000|
an item over 1 MiB by prepending, with q: ms a 600000|y{600000}|ms a 600000 MP q|y{600000}|mg a s| => HD|NS|HD s600000| => HD|LARGE|HD s600000|
an answer before a block that never ends: mg a|ms a 5|ab =>  => EN|
decr to fewer digits: ms a 2|10|decr a 1|mg a v s| => HD|9|VA 2 s2|9 | => HD|9|VA 1 s1|9|
"""

SHORT = {
    "C ": "CLIENT_ERROR ", "BAD": "CLIENT_ERROR bad command line format", "CHUNK": "CLIENT_ERROR bad data chunk",
    "LARGE": "SERVER_ERROR object too large for cache", "|": "\r\n",
}

# a faulty line of each kind, and what memcached answers to it and to `mn` after it; here each is answered by this line, and
# what follows it is read as lines
BAD_LINE = b"CLIENT_ERROR bad command line format\r\n"
FAULTS = {
    "a repeated letter": (b"mg a k v k", "C duplicate flag|MN|"),
    "a repeated letter with tokens": (b"ms a 1 T1 q T1", "C duplicate flag|ERROR|"),
    "a letter that md lacks": (b"md a s", "NF|MN|"),
    "a letter that mg lacks": (b"mg a O1", "EN O1|MN|"),
    "a token on a letter without one": (b"mg a v1", "EN|MN|"),
    "a token on a letter of md": (b"md a q0", "NF|MN|"),
    "a token on a letter of ms": (b"ms a 1 k9", "CHUNK|ERROR|"),
    "a unique beside a mode": (b"ms a 1 C5 MA", "CHUNK|ERROR|"),
    "a mode beside a unique": (b"ms a 1 ME C5", "CHUNK|ERROR|"),
    "a key of 251 bytes": (b"mg " + b"k" * 251, "BAD|MN|"),
    "a key of 251 bytes after md": (b"md " + b"k" * 251, "BAD|MN|"),
    "a key of 251 bytes after ms": (b"ms " + b"k" * 251 + b" 1", "BAD|MN|"),
    "a datalen of 2^32": (b"ms a 4294967296", "CHUNK|ERROR|"),
    "a datalen of 21 digits": (b"ms a " + b"0" * 21, "CHUNK|ERROR|"),
    "a datalen with a sign": (b"ms a +1", "CHUNK|ERROR|"),
    "a datalen that is a flag": (b"ms a F5 1", "BAD|MN|"),
    "flags of 2^32": (b"ms a 1 F4294967296", "CHUNK|ERROR|"),
    "flags without a number": (b"ms a 1 F", "BAD|ERROR|"),
    "a unique of 2^64": (b"ms a 1 C18446744073709551616", "C bad token in command line format|ERROR|"),
    "a unique without a number": (b"ms a 1 C", "C bad token in command line format|ERROR|"),
    "no mode": (b"ms a 1 M", "C incorrect length for M token|ERROR|"),
    "a mode of two letters": (b"ms a 1 MSS", "C incorrect length for M token|ERROR|"),
    "another mode": (b"ms a 1 MX", "C invalid mode for ms M token|ERROR|"),
    "no exptime": (b"ms a 1 T", "C bad token in command line format|ERROR|"),
    "an exptime of 20 digits": (b"ms a 1 T" + b"0" * 20, "CHUNK|ERROR|"),
}


def text_of(cell):
    """The bytes of a cell of the tables."""
    for short, whole in SHORT.items():
        cell = cell.replace(short, whole)
    cell = re.sub(r"(.){(\d+)}", lambda many: many[1] * int(many[2]), cell)
    return cell.encode().decode("unicode_escape").encode("latin-1")


def rows():
    """The name, what was sent, memcached's answer, and that of zygos, of each row."""
    for row in f"{SAME.strip()}\n{OTHER.strip()}".split("\n"):
        name, cells = row.split(": ", 1)
        sent, *answers = [text_of(cell) for cell in re.split(" => ?", cells)]
        yield name, sent, answers[0], answers[-1]
    for name, (line, told) in FAULTS.items():
        yield name, line + b"\r\nmn\r\n", text_of(told), BAD_LINE + b"MN\r\n"


# memcached closes the connection at these lines, without an answer
MEMCACHED = dict.fromkeys(("a meta line of 65536 bytes, b'\\n'", "a meta line of 65535 bytes, b'\\r\\n'",
                           "a meta line of 65536 bytes, b'\\r\\n'", "a storage line of 65,536 bytes", "a key of 65,533 bytes"), b"")


def examples(lines):
    """Has `lines` compare the answers to what was sent, whole and byte at a time."""
    for name, sent, _, told in rows():
        lines(name, sent, told)
        if len(sent) < 1000:
            lines(f"{name}, byte at a time", sent, told, size=1)
    long = b"CLIENT_ERROR line too long"
    for count, end, told in ((65536, b"\n", b"EN"), (65535, b"\r\n", b"EN"), (65536, b"\r\n", long)):
        lines(f"a meta line of {count} bytes, {end!r}", b"mg a".ljust(count) + end + b"mn\r\n", told + b"\r\nMN\r\n")
    longest = b"mg a v".ljust(65534) + b" v\nmn\r\n"
    lines("a meta line of 65,536 bytes, byte at a time", longest, BAD_LINE + b"MN\r\n", size=1)
    lines("a storage line of 65,536 bytes", b"ms a 1 F5".ljust(65534) + b" k\nx\r\nmg a f v\r\n",
          b"HD ka\r\nVA 1 f5\r\nx\r\n")
    lines("a key of 65,533 bytes", b"md " + b"k" * 65533 + b"\nmn\r\n", BAD_LINE + b"MN\r\n")
    lines("a meta block that is too large", b"ms a 1048577 q\r\n" + b"y" * 1048577 + b"\r\nmg a\r\n",
          b"SERVER_ERROR object too large for cache\r\nEN\r\n", size=4093)
