"""What each fault of recorded packets says of a file, and what to do about it."""
from __future__ import annotations

from zygos_tools.files import kinds
from zygos_tools.recording.packets import recorded

AGAIN = "tcpdump -r {name} -w some.pcap"
FILTER = f"record with a filter, or leave such frames out by {AGAIN} '{{which}}'"
SPLIT = "make several files of it by time, editcap -F pcap -i 60 {name} some.pcap"

# by the number of a fault
FAULTS = {
    recorded.MAGIC: ("no file of pcap with times in microseconds begins in this way", "{begin}"),
    recorded.VERSION: ("the version of the file is not 2.4", AGAIN),
    recorded.LINK_TYPE: ("the frames are not of Ethernet, but of link type {number}",
                         "record on one interface, with -i lo or -i eth0"),
    recorded.RECORD_LENGTH: ("a frame has more than 262144 bytes, so the file is damaged here",
                             f"keep what is before it by {AGAIN}"),
    recorded.IS_IPV6: ("a packet goes to the port over IPv6", f"let clients use IPv4; {FILTER}"),
    recorded.HAS_VLAN: ("a frame has a VLAN tag",
                        f"{FILTER}; if requests have tags, take these off by tcprewrite --enet-vlan=del"),
    recorded.FRAGMENT: ("a packet with TCP is a fragment, or has fragments after it",
                        f"{FILTER}; if requests are fragments, record where packets are whole"),
    recorded.SHORT: ("a frame is shorter than its headers, or its lengths contradict each other",
                     f"record without -s; {FILTER}"),
    recorded.MISSING: ("not all of a payload was recorded", "record without -s"),
    recorded.FLOW_COUNT: ("a flow begins in a group that has 32 flows, as happens with over 2,000 connections",
                          f"{SPLIT}; or by client, {AGAIN} 'host ADDRESS'"),
    recorded.FLOW_LENGTH: ("a session has bytes at 1073741824 or later", SPLIT),
    recorded.TRUNCATED: ("the file ends within its header or a record", f"keep what is whole by {AGAIN}"),
    recorded.TOO_LONG: ("the file has more than 4294967295 bytes", SPLIT),
}
# which packets a filter keeps, by the number of a fault
WHICH = {recorded.IS_IPV6: "ip and tcp port {port}", recorded.FRAGMENT: "tcp port {port} and ip[6:2] & 0x3fff = 0"}
# what a file is that begins in another way
PCAP = "editcap -F pcap {name} some.pcap, or " + AGAIN
BEGINNINGS = {
    b"\n\r\r\n": f"it is pcapng: {PCAP}", b"\xa1\xb2\x3c\x4d": f"its times have nanoseconds: {PCAP}",
    b"\x4d\x3c\xb2\xa1": f"its times have nanoseconds: {PCAP}", b"ZYGC": "it is a capture: give it to zygos run",
}
LINKS = {0: "BSD loopback", 101: "raw IP", 105: "WLAN", 113: "any interface", 127: "WLAN", 228: "raw IPv4",
         276: "any interface"}


def other_kind(begin: bytes) -> str | None:
    """What a file is that begins so, and what to do about it; None if that is not known, or if it is packets."""
    kind = kinds.kind_of(begin)
    if kind is None or kind in (kinds.PACKETS, kinds.EMPTY):
        return None
    return f"it is {kind}: {kinds.CURES.get(kind, 'give a file as tcpdump -w writes it')}"


def told(fault: recorded.PacketFault, begin: bytes, name: str, port: int) -> tuple[str, str]:
    """A fault of a file in words, and what to do; the file begins so, and has this name."""
    says, do = FAULTS[fault.number]
    which = WHICH.get(fault.number, "tcp port {port}").format(port=port)
    number = f"{fault.at} ({LINKS[fault.at]})" if fault.at in LINKS else fault.at
    other = BEGINNINGS.get(begin[:4], other_kind(begin) or "give a file as tcpdump -w writes it").format(name=name)
    return says.format(number=number), do.format(name=name, which=which, begin=other)
