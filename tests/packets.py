#!/usr/bin/env python3
"""Drawn files of recorded packets, and the capture that is made of them.

usage: tests/packets.py [--files N] [--from NUMBER] [PROGRAM | COMMAND ..]
       tests/packets.py --crowd COUNT

Draws N files (2,000 if not said), numbered from NUMBER (0) on, after cases of bad input. Each is given to the command
`pcap` of PROGRAM, or to COMMAND, with its port in the option `--port`; what comes back is compared byte for byte with
the model. Without either the model runs alone. At the end a recording is made by tcpdump, if it is installed and may
record.

With --crowd it says in how many of 200 draws of COUNT connections, of 8 clients with random ports, a group has over 32
flows, so that the file is rejected.

The model is that of the tools, tools/zygos_tools/recording/packets/recorded.py. It looks at whole files by their offsets,
and shares no code with the program.
"""

import os
import random
import shutil
import signal
import socket
import struct
import subprocess
import sys
import tempfile
import time

import checks
from zygos_tools.recording.packets.recorded import PacketFault, made, toeplitz

# ---- drawn files


def tcp_frame(draw, flow, sequence, flags, payload):
    """A frame of Ethernet, IPv4 and TCP, with options here and there and padding behind."""
    ip_options = bytes(4 * draw.choice([0, 0, 0, 0, 1, 10]))
    tcp_options = bytes(4 * draw.choice([0, 0, 0, 3, 10]))
    own = 20 + len(tcp_options)
    head = 20 + len(ip_options)
    tcp = flow[8:12] + struct.pack(
        ">IIBBHHH", sequence % 2**32, 0, own // 4 << 4, flags, 65535, 0, 0) + tcp_options
    fragment = draw.choice([0, 0x4000, 0x8000])
    ip = struct.pack(">BBHHHBBH", 64 + head // 4, 0, head + own + len(payload), 7, fragment, 64, 6,
                     0) + flow[:8] + ip_options
    frame = bytes(12) + b"\x08\x00" + ip + tcp + payload
    return frame + bytes(max(0, 60 - len(frame))) if draw.random() < 0.5 else frame


def other_frame(draw, port):
    """A frame that is passed over."""
    kind = draw.randrange(4)
    if kind == 0:
        return bytes(12) + b"\x08\x06" + bytes(28)
    if kind == 1:
        return bytes(12) + b"\x86\xdd" + bytes(draw.randrange(60))
    if kind == 2:
        ip = struct.pack(">BBHHHBBH", 69, 0, 28, 7, 0, 64, 17, 0) + bytes(8)
        return bytes(12) + b"\x08\x00" + ip + bytes(8)
    flow = bytes(8) + struct.pack(">HH", port, (port + 1) % 65536)
    return tcp_frame(draw, flow, 5, 16, b"x")


def session_packets(draw, base, syn):
    """The packets of one session: splits, copies, overlaps with other bytes, losses, disorder."""
    stream = bytes(draw.randrange(97, 123) for _ in range(draw.choice([0, 1, 5, 60, 400, 3000])))
    packets = []
    at = 0
    while at < len(stream):
        size = draw.choice([1, 2, 7, 64, 100, 1400])
        packets.append((base + at, 16, stream[at:at + size]))
        at += size
    for _ in range(draw.choice([0, 0, 1, 5])):
        if stream:
            begin = draw.randrange(-8, len(stream))
            size = draw.randrange(1, 90)
            bytes_ = bytes(draw.randrange(65, 91) for _ in range(size))
            packets.insert(draw.randrange(len(packets) + 1), (base + begin, 16, bytes_))
    for _ in range(draw.choice([0, 0, 1, 3])):
        if packets:
            packets.append(draw.choice(packets))
    if draw.random() < 0.3 and packets:
        packets.pop(draw.randrange(len(packets)))
    if draw.random() < 0.5:
        for _ in range(draw.choice([1, 3, 20])):
            if len(packets) > 1:
                i = draw.randrange(len(packets) - 1)
                packets[i], packets[i + 1] = packets[i + 1], packets[i]
    if draw.random() < 0.1:
        draw.shuffle(packets)
    if syn:
        first = (base - 1, 2, b"hello" if draw.random() < 0.1 else b"")
        packets.insert(0, first)
        if draw.random() < 0.2:
            packets.insert(draw.randrange(len(packets) + 1), first)
    if draw.random() < 0.5:
        packets.append((base + len(stream), draw.choice([17, 4]), b""))
    return packets


def drawn(number):
    """A file and its port."""
    draw = random.Random(number)
    port = draw.choice([1, 1766, 11211, 65535])
    order = draw.choice("<>")
    lines = []
    crowd = draw.random() < 0.05
    for i in range(40 if crowd else draw.randrange(6)):
        flow = draw.randbytes(10) + struct.pack(">H", port)
        while crowd and toeplitz(flow) % 128 != 5:
            flow = draw.randbytes(10) + struct.pack(">H", port)
        packets = []
        for _ in range(draw.choice([1, 1, 2, 4])):
            base = draw.choice([0, 1, 1000, 2**31, 2**32 - 5, 2**32 - 1500])
            packets += session_packets(draw, base, draw.random() < 0.8)
        lines.append([tcp_frame(draw, flow, *packet) for packet in packets])
    frames = []
    while any(lines):
        line = draw.choice([line for line in lines if line])
        frames.append(line.pop(0))
        if draw.random() < 0.1:
            frames.append(other_frame(draw, port))
    text = bytearray(struct.pack(order + "IHHIIII", 0xA1B2C3D4, 2, 4, 0, 0, 262144, 1))
    for frame in frames:
        text += struct.pack(order + "IIII", 0, 0, len(frame), len(frame)) + frame
    return spoiled(draw, bytes(text)), port


def spoiled(draw, text):
    """The file, in one of four cases with a wrong byte, a cut or bytes behind."""
    kind = draw.randrange(12)
    if kind == 0 and text:
        at = draw.randrange(len(text))
        return text[:at] + bytes([draw.randrange(256)]) + text[at + 1:]
    if kind == 1:
        return text[:draw.randrange(len(text) + 1)]
    if kind == 2:
        return text + draw.randbytes(draw.randrange(1, 40))
    return text


# ---- bad input, each with one answer by its place


def frame_of(payload=b"", sequence=1000, flags=16, flow=None, port=11211, **other):
    """A plain frame, of which some fields may be others."""
    flow = flow or bytes([10, 0, 0, 1, 10, 0, 0, 2]) + struct.pack(">HH", 40000, port)
    head, own = other.get("head", 20), other.get("own", 20)
    total = other.get("total", head + own + len(payload))
    ip = struct.pack(">BBHHHBBH", other.get("first", 64 + head // 4), 0, total, 7, other.get("fragment", 0), 64,
                     other.get("protocol", 6), 0) + flow[:8] + bytes(max(0, head - 20))
    tcp = flow[8:12] + struct.pack(">IIBBHHH", sequence % 2**32, 0, own // 4 << 4, flags, 65535, 0, 0)
    return bytes(12) + other.get("kind", b"\x08\x00") + ip + tcp + bytes(max(0, own - 20)) + payload


def file_of(*frames, order=">", magic=0xA1B2C3D4, version=(2, 4), link=1):
    """A file of these frames."""
    text = struct.pack(order + "IHHIIII", magic, *version, 0, 0, 262144, link)
    return text + b"".join(struct.pack(order + "IIII", 0, 0, len(f), len(f)) + f for f in frames)


def crowd(count):
    """As many packets of flows of one group."""
    frames, number = [], 0
    while len(frames) < count:
        flow = bytes([10, 0, 0, 1, 10, 0, 0, 2]) + struct.pack(">HH", number % 65536, 11211)
        flow = bytes([10, 1 + number // 65536]) + flow[2:]
        if toeplitz(flow) % 128 == 5:
            frames.append(frame_of(b"x", flow=flow))
        number += 1
    return frames


def talk(*skipped, more=()):
    """Frames of one client: a SYN, and five requests of 7 bytes, a packet each, some of which may be left out."""
    frames = [frame_of(b"", 999, 2), *(frame_of(b"get %d\r\n" % at, 1000 + 7 * at) for at in range(5)), *more]
    return [frame for at, frame in enumerate(frames) if at not in skipped]


def over_ipv6(port):
    return bytes(12) + b"\x86\xdd" + bytes(6) + b"\x06" + bytes(35) + struct.pack(">H", port)


def lost_and_late():
    """Files to port 11,211 whose packets were lost, late or doubled, as `said`."""
    cut = "  cut after byte {}, sequence number {}: {}, {} left out, about {}"
    yield "no lost packet", file_of(*talk()), 0, "all: 1 flow, 1 session, 5 requests, 35 bytes"
    yield "a lost packet", file_of(*talk(2)), 1, cut.format(
        7, 1007, "7 bytes lost", "21 bytes after that", "3 requests")
    yield "two lost packets", file_of(*talk(2, 4)), 1, cut.format(
        7, 1007, "7 bytes lost (and more at 1 later place)", "14 bytes after that", "2 requests")
    yield "two packets lost together", file_of(*talk(2, 3)), 1, cut.format(
        7, 1007, "14 bytes lost", "14 bytes after that", "2 requests")
    yield "the first packet lost", file_of(*talk(1)), 1, cut.format(
        0, 1000, "7 bytes lost", "28 bytes after that", "4 requests")
    yield "the last packet lost, as a later one without bytes shows", file_of(
        *talk(5, more=[frame_of(b"", 1035)])), 1, cut.format(
            28, 1028, "7 bytes lost", "0 bytes after that", "0 requests")
    yield "the end of a connection after its last byte", file_of(
        *talk(more=[frame_of(b"", 1035, 17), frame_of(b"", 1036)])), 0, "all: 1 flow, 1 session, 5 requests, 35 bytes"
    yield "a lost SYN", file_of(*talk(0)), 0, \
        "  it began before the recording: its first bytes may be the rest of a request"
    yield "a lost packet of the second session", file_of(
        *talk(), frame_of(b"", 5000, 2), frame_of(b"get b\r\n", 5008)), 1, \
        "  session 1:" + cut.format(0, 5001, "7 bytes lost", "7 bytes after that", "1 request")[1:]
    yield "a late packet", file_of(*talk(2), talk()[2]), 0, "  1 packet came late and 0 again, without harm"
    yield "a doubled packet", file_of(*talk(), talk()[2]), 0, "  0 packets came late and 1 again, without harm"
    yield "all packets twice", file_of(*talk(), *talk()), 0, "  0 packets came late and 5 again, without harm"
    yield "the order turned round", file_of(*talk()[:1], *talk()[:0:-1]), 0, \
        "  4 packets came late and 0 again, without harm"
    yield "the end of a request lost", file_of(*talk(more=[frame_of(b"set a 0 0 9\r\nx", 1035)])), 0, \
        "  it ends within a request, after 14 bytes of it"
    yield "a gap", file_of(frame_of(b"ab", 8), frame_of(b"ef", 12)), 1, cut.format(
        2, 10, "2 bytes lost", "2 bytes after that", "0 requests")
    yield "a gap that is filled", file_of(frame_of(b"ab", 8), frame_of(b"ef", 12), frame_of(b"CDE", 10)), 0, \
        "all: 1 flow, 1 session, 0 requests, 6 bytes"


def refused():
    """Files that are refused for their frames, their flows or their header, as `said`."""
    good, faulty = frame_of(b"get a\r\n"), "{}: fault {} in record 2, at byte 101: {}".format
    section = struct.pack("<IIIHHqI", 0x0A0D0D0A, 28, 0x1A2B3C4D, 1, 0, -1, 28)
    pcapng = section + struct.pack("<IIHHII", 1, 20, 1, 0, 262144, 20)
    begun = "tools/packets: standard input"
    yield "pcapng", pcapng, 1, "  it is pcapng: editcap -F pcap IN some.pcap, or tcpdump -r IN -w some.pcap"
    yield "times in nanoseconds", file_of(good, magic=0xA1B23C4D), 1, \
        "  its times have nanoseconds: editcap -F pcap IN some.pcap, or tcpdump -r IN -w some.pcap"
    yield "a capture", b"ZYGCAP1\n\0\0\0\0E", 1, "  it is a capture: give it to zygos run"
    yield "another version", file_of(good, version=(2, 5)), 1, f"{begun}: fault 10: the version of the file is not 2.4"
    yield "another link type", file_of(good, link=113), 1, \
        f"{begun}: fault 11: the frames are not of Ethernet, but of link type 113 (any interface)"
    yield "a captured length over 262,144", file_of(good) + struct.pack(">IIII", 0, 0, 262145, 262145), 1, \
        faulty(begun, 12, "a frame has more than 262144 bytes, so the file is damaged here")
    yield "IPv6", file_of(good, over_ipv6(11211), good), 1, faulty(begun, 13, "a packet goes to the port over IPv6")
    yield "a VLAN tag", file_of(good, frame_of(b"x", kind=b"\x81\x00"), good), 1, \
        faulty(begun, 14, "a frame has a VLAN tag")
    yield "three VLAN tags", file_of(good, *3 * [frame_of(b"x", kind=b"\x81\x00")]), 1, \
        faulty(begun, 14, "a frame has a VLAN tag; 3 frames are refused")
    yield "fragments", file_of(good, frame_of(b"x", fragment=0x2000), frame_of(b"y", fragment=1)), 1, \
        "  record with a filter, or leave such frames out by tcpdump -r IN -w some.pcap " \
        "'tcp port 11211 and ip[6:2] & 0x3fff = 0'; if requests are fragments, record where packets are whole"
    yield "a frame of 13 bytes", file_of(good, good[:13]), 1, \
        faulty(begun, 16, "a frame is shorter than its headers, or its lengths contradict each other")
    yield "a payload that was cut off", file_of(good, frame_of(b"a b c")[:-1]), 1, \
        faulty(begun, 17, "not all of a payload was recorded")
    yield "33 flows of one group", file_of(*crowd(33)), 1, f"{begun}: fault 18 in record 33, at byte 2296: " \
        "a flow begins in a group that has 32 flows, as happens with over 2,000 connections"
    yield "an offset of 2^30", file_of(frame_of(b"a" * 7, 0), frame_of(b"b", 2**30)), 1, \
        faulty(begun, 19, "a session has bytes at 1073741824 or later")
    yield "an empty file", b"", 1, f"{begun}: fault 20 at byte 0: the file ends within its header or a record"
    yield "a captured length past the end", file_of(good) + struct.pack(">IIII", 0, 0, 100, 100) + bytes(99), 1, \
        f"{begun}: fault 20 at byte 216: the file ends within its header or a record"


def elsewhere():
    """Files with nothing for port 11,211, or with other bytes than commands, as `said`."""
    begun = "tools/packets: standard input: no request goes to port 11211"
    back = frame_of(b"END\r\n", flow=bytes([10, 0, 0, 2, 10, 0, 0, 1]) + struct.pack(">HH", 11211, 40000))
    yield "a header alone", file_of(), 1, f"{begun}, nor to any other"
    yield "IPv6 to another port", file_of(over_ipv6(80)), 1, f"{begun}, nor to any other"
    yield "another port", file_of(*2 * [frame_of(b"get a\r\n", port=11222)], frame_of(b"x", port=80)), 1, \
        f"{begun}, but commands go to 11222 (2 packets)"
    yield "no commands", file_of(frame_of(b"x", port=80)), 1, f"{begun}, but other bytes go to 80 (1 packet)"
    yield "answers alone", file_of(back), 1, f"{begun}, and only what comes from it was recorded"
    for byte, name in ((0x80, "the binary protocol"), (0x16, "TLS")):
        yield name, file_of(*talk(1), frame_of(bytes([byte]) * 7, 1000)), 0, \
            f"  warning: its first byte is {byte:#x}, as in {name}; only text commands are served"


def said():
    """Files to port 11,211 by what they have, each with the status and a line of `tools/packets`."""
    yield from lost_and_late()
    yield from refused()
    yield from elsewhere()


def cases():
    """Files to port 11,211 by what is shown; the model says what each is."""
    for name, text, _, _ in said():
        yield name, text
    good = frame_of(b"get a\r\n")
    yield "the lowest byte first", file_of(good, order="<")
    yield "a record without a frame", file_of(b"")
    yield "no whole IP header", file_of(good[:33])
    yield "a header length of 0", file_of(frame_of(b"x", first=64))
    yield "a header length of 60, with options", file_of(frame_of(b"x", head=60))
    yield "a header length past the frame", file_of(good[:14] + bytes([79]) + good[15:])
    yield "another version of IP", file_of(frame_of(b"x", first=0x55))
    yield "a TCP header length of 16", file_of(frame_of(b"x", own=16))
    yield "a TCP header length of 60, with options", file_of(frame_of(b"x", own=60))
    yield "a TCP header past the total length", file_of(frame_of(b"", own=60, total=60))
    yield "a total length under the headers", file_of(frame_of(b"x", total=39))
    yield "padding after the payload", file_of(frame_of(b"x") + bytes(9))
    yield "an empty packet that was cut off", file_of(frame_of(b"")[:-1])
    yield "a later fragment", file_of(frame_of(b"x", fragment=1))
    yield "a fragment without TCP", file_of(frame_of(b"x", fragment=1, protocol=17))
    yield "32 flows of one group", file_of(*crowd(32))
    yield "a number that wraps", file_of(*(frame_of(b"abcd", sequence=2**32 - 6 + 4 * i) for i in range(4)))
    yield "a SYN with payload", file_of(frame_of(b"ab", 7, 2), frame_of(b"cd", 10))
    yield "the same SYN again", file_of(frame_of(b"", 7, 2), frame_of(b"ab", 8), frame_of(b"", 7, 2), frame_of(b"c", 10))
    yield "a SYN with another number", file_of(frame_of(b"", 7, 2), frame_of(b"ab", 8), frame_of(b"", 99, 2), frame_of(b"c", 100))
    yield "a SYN after a first packet without", file_of(frame_of(b"ab", 8), frame_of(b"", 7, 2), frame_of(b"c", 8))
    yield "RST and FIN without payload", file_of(frame_of(b"", 7, 4), frame_of(b"", 7, 17), frame_of(b"ab", 9))
    yield "an offset below 2^30", file_of(frame_of(b"a", 0), frame_of(b"b", 2**30 - 1))
    yield "an offset of 2^31", file_of(frame_of(b"a", 0), frame_of(b"b", 2**31))
    yield "a packet over the first offset", file_of(frame_of(b"ab", 8), frame_of(b"xyzAB", 5), frame_of(b"c", 10))
    yield "a stream of more than one segment", file_of(*(frame_of(bytes(1000), 1000 * i) for i in range(140)))
    whole = file_of(frame_of(b"", 7, 2), frame_of(b"get a\r\n", 8))
    for at in range(len(whole)):
        yield f"cut after {at} bytes", whole[:at]
    draw = random.Random(1)
    for _ in range(20):
        yield "random bytes", draw.randbytes(draw.randrange(200))
        yield "random bytes after a header", file_of() + draw.randbytes(draw.randrange(200))


# ---- flows of clients with random ports


def crowded(count, draw, parts):
    """Whether a group has more than 32 of `count` flows; `parts` has the hash of each byte at each place."""
    clients = [draw.randbytes(4) + bytes([10, 0, 0, 1]) for _ in range(8)]
    flows = set()
    while len(flows) < count:
        flows.add(draw.choice(clients) + struct.pack(">HH", draw.randrange(32768, 61000), 11211))
    groups = [0] * 128
    for flow in flows:
        number = 0
        for part, byte in zip(parts, flow):
            number ^= part[byte]
        groups[number % 128] += 1
    return max(groups) > 32


def crowds(count):
    draw = random.Random(1)
    parts = [[toeplitz(bytes(place) + bytes([byte]) + bytes(11 - place)) for byte in range(256)] for place in range(12)]
    found = sum(crowded(count, draw, parts) for _ in range(200))
    print(f"{count} connections of 8 clients with random ports: refused in {found} of 200 draws")


# ---- a recording


def recorded():
    """Two hundred lines of one client over loopback as tcpdump records them, with what was sent; or why there are none."""
    if not shutil.which("tcpdump"):
        return "no tcpdump is installed"
    with socket.create_server(("127.0.0.1", 0)) as server, tempfile.TemporaryDirectory() as room:
        port = server.getsockname()[1]
        path = os.path.join(room, "file.pcap")
        # as root, tcpdump would otherwise become a user who may not write there
        user = ["-Z", "root"] if os.geteuid() == 0 else []
        command = ["tcpdump", "-i", "lo", "-U", *user, "-w", path, "tcp", "port", str(port)]
        with subprocess.Popen(command, stderr=subprocess.PIPE) as dump:
            if not any(b"listening" in line for line in dump.stderr):
                return "tcpdump may not record"
            sent = b"".join(b"set k%d 0 0 1\r\nx\r\nget k%d\r\n" % (i, i) for i in range(100))
            with socket.create_connection(("127.0.0.1", port)) as client:
                far, _ = server.accept()
                with far:
                    for line in sent.splitlines(True):
                        client.sendall(line)
                        while line:
                            line = line[len(far.recv(len(line))):]
            for _ in range(12000):  # until both ends are in the file
                if ends_in(path) == 2:
                    break
                time.sleep(0.05)
            dump.send_signal(signal.SIGINT)
            dump.stderr.read()
        with open(path, "rb") as file:
            return file.read(), port, sent


def ends_in(path):
    """How many packets of a recording of the loopback device end a direction, as far as it is written."""
    with open(path, "rb") as file:
        text = file.read()
    count, at = 0, 24
    while at + 16 <= len(text):
        size = int.from_bytes(text[at + 8 : at + 12], sys.byteorder)
        packet, at = text[at + 16 : at + 16 + size], at + 16 + size
        count += len(packet) > 47 and packet[47] & 1
    return count


# ---- the comparison


def expected(text, port):
    """The status, and what the program is to write to its two outputs."""
    try:
        return 0, made(text, port), b""
    except PacketFault as fault:
        return 3, b"", b"zygos: pcap: fault %d\n" % fault.number


def answer(words, text, port):
    """What the program answers."""
    run = subprocess.run([*words, "--port", str(port)], input=text, capture_output=True, check=False)
    return run.returncode, run.stdout, run.stderr


def streams_in(text):
    """The bytes of the segments of a capture."""
    at, found = 12, b""
    while text[at:at + 1] == b"S":
        size = int.from_bytes(text[at + 5:at + 9], "big")
        found += text[at + 9:at + 9 + size]
        at += 9 + size
    return found


def compare(name, words, text, port, ask):
    """Ends with status 1 if the program and the model differ."""
    wanted = expected(text, port)
    if words and ask(words, text, port) != wanted:
        with open("packets.failed", "wb") as file:
            file.write(text)
        sys.exit(f"tests/packets.py: {name}, with port {port}: the program and the model differ (packets.failed)")
    return wanted[0]


def compared(words, count, first=0, ask=answer):
    """How many drawn files have no fault, after the cases of bad input."""
    for name, text in cases():
        compare(name, words, text, 11211, ask)
    return sum(compare(f"file {number}", words, *drawn(number), ask) == 0 for number in range(first, first + count))


def main(words):
    count, first = 2000, 0
    while words[:1] and words[0].startswith("--"):
        if words[0] == "--files":
            count, words = int(words[1]), words[2:]
        elif words[0] == "--from":
            first, words = int(words[1]), words[2:]
        elif words[0] == "--crowd":
            crowds(int(words[1]))
            return
        else:
            sys.exit(__doc__)
    words = [words[0], "pcap"] if len(words) == 1 else words
    good = compared(words, count, first)
    print(f"{len(list(cases()))} cases and {count} drawn files, {good} of these without a fault:",
          "no difference" if words else "the model alone")
    found = recorded()
    if isinstance(found, str):
        print("a recording: left out,", found)
        return
    text, port, sent = found
    compare("a recording", words, text, port, answer)
    if streams_in(made(text, port)) != sent:
        sys.exit("tests/packets.py: the recording has other bytes than were sent")
    print("a recording of 200 lines: no difference")


if __name__ == "__main__":
    checks.help_if_asked()
    main(sys.argv[1:])
