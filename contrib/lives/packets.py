"""The fields of frames: ARP (RFC 826), DHCPv4 (RFC 2131) and DHCPv6 (RFC 8415), by their places in the frame."""

from __future__ import annotations

from dataclasses import dataclass, field
from enum import Enum, auto
from typing import Iterator, NamedTuple, Optional

from .options import OPTIONS4, OPTIONS6, Form

ARP, IP4, IP6 = 0x0806, 0x0800, 0x86DD
UDP = 17
COOKIE = bytes.fromhex("63825363")  # RFC 2131, section 3
KINDS4 = {1: "DISCOVER", 2: "OFFER", 3: "REQUEST", 4: "DECLINE", 5: "ACK", 6: "NAK", 7: "RELEASE", 8: "INFORM"}
KINDS6 = {
    1: "SOLICIT",
    2: "ADVERTISE",
    3: "REQUEST6",
    4: "CONFIRM",
    5: "RENEW",
    6: "REBIND",
    7: "REPLY",
    8: "RELEASE6",
    9: "DECLINE6",
    10: "RECONFIGURE",
    11: "INFORMATION-REQUEST",
}
OVERLOAD, KIND = 52, 53
HOLDERS = {3: 12, 4: 4, 5: 24, 25: 12, 26: 25}  # options that hold options, and how many bytes come before those


class Field(NamedTuple):
    """A field, whose bytes may stand in several places."""

    name: str
    form: Form
    spans: tuple[tuple[int, int], ...]

    def value(self, frame: bytes) -> bytes:
        return b"".join(frame[start:end] for start, end in self.spans)


class Sum(Enum):
    """What a checksum is of."""

    HEADER = auto()
    UDP4 = auto()
    UDP6 = auto()


class Checksum(NamedTuple):
    kind: Sum
    place: int
    start: int  # of the bytes that it is of
    end: int


@dataclass
class Packet:
    """A frame as it was understood."""

    frame: bytes
    name: str = "frame"
    fields: list[Field] = field(default_factory=list)
    sums: list[Checksum] = field(default_factory=list)

    def add(self, name: str, form: Form, start: int, length: int) -> None:
        self.fields.append(Field(name, form, ((start, start + length),)))

    def number(self, start: int, length: int = 2) -> int:
        return int.from_bytes(self.frame[start : start + length], "big")

    def get(self, name: str) -> bytes:
        """The bytes of the first field of that name, or none."""
        return next((one.value(self.frame) for one in self.fields if one.name == name), b"")

    def all(self, name: str) -> Iterator[bytes]:
        return (one.value(self.frame) for one in self.fields if one.name == name)

    def plain(self, start: int, *names: tuple[str, int]) -> int:
        """Fields that tell nothing of anybody, one after another: the place behind them."""
        for name, length in names:
            self.add(name, Form.PLAIN, start, length)
            start += length
        return start


def read(frame: bytes) -> Packet:
    """The fields that are understood; what isn't has no field."""
    packet = Packet(frame)
    if len(frame) < 14:
        return packet
    packet.add("to", Form.MAC, 0, 6)
    packet.add("from", Form.MAC, 6, 6)
    packet.plain(12, ("ethertype", 2))
    kind = packet.number(12)
    reader = {ARP: read_arp, IP4: read_ip4, IP6: read_ip6}.get(kind)
    if reader:
        reader(packet)
    return packet


def read_arp(packet: Packet) -> None:
    frame = packet.frame
    if len(frame) < 42 or frame[14:20] != bytes.fromhex("000108000604"):
        return
    packet.plain(14, ("hardware", 2), ("protocol", 2), ("lengths", 2), ("operation", 2))
    packet.add("sender hardware", Form.MAC, 22, 6)
    packet.add("sender", Form.IP4, 28, 4)
    packet.add("target hardware", Form.MAC, 32, 6)
    packet.add("target", Form.IP4, 38, 4)
    packet.name = arp_name(packet.number(20), frame[28:32], frame[38:42])


def arp_name(operation: int, sender: bytes, target: bytes) -> str:
    """As RFC 5227 has it."""
    if operation == 2:
        return "ARP reply"
    if sender == bytes(4):
        return "ARP probe"
    return "ARP announcement" if sender == target else "ARP request"


def read_ip4(packet: Packet) -> None:
    frame = packet.frame
    header = (frame[14] & 15) * 4 if len(frame) >= 34 else 0
    total = packet.number(16)
    if header < 20 or frame[14] >> 4 != 4 or not header <= total <= len(frame) - 14:
        return
    packet.plain(14, ("version", 1), ("service", 1), ("total length", 2), ("id", 2), ("fragment", 2))
    packet.plain(22, ("time to live", 1), ("ip protocol", 1))
    packet.sums.append(Checksum(Sum.HEADER, 24, 14, 14 + header))
    packet.add("source", Form.IP4, 26, 4)
    packet.add("destination", Form.IP4, 30, 4)
    packet.name = "IPv4"
    if frame[23] == UDP and not packet.number(20) & 0x3FFF:
        read_udp(packet, Sum.UDP4, 14 + header, 14 + total)


def read_ip6(packet: Packet) -> None:
    frame = packet.frame
    if len(frame) < 54 or frame[14] >> 4 != 6 or packet.number(18) > len(frame) - 54:
        return
    packet.plain(14, ("version", 4), ("payload length", 2), ("next header", 1), ("hop limit", 1))
    packet.add("source", Form.IP6, 22, 16)
    packet.add("destination", Form.IP6, 38, 16)
    packet.name = "IPv6"
    if frame[20] == UDP:
        read_udp(packet, Sum.UDP6, 54, 54 + packet.number(18))


def read_udp(packet: Packet, kind: Sum, start: int, end: int) -> None:
    length = packet.number(start + 4) if end - start >= 8 else 0
    if not 8 <= length <= end - start:
        return
    packet.plain(start, ("source port", 2), ("destination port", 2), ("udp length", 2))
    packet.sums.append(Checksum(kind, start + 6, start, start + length))
    packet.name = "UDP"
    ports = {packet.number(start), packet.number(start + 2)}
    family = {67: read_dhcp4, 68: read_dhcp4} if kind is Sum.UDP4 else {546: read_dhcp6, 547: read_dhcp6}
    for port in ports & set(family):
        family[port](packet, start + 8, start + length)
        return


def read_dhcp4(packet: Packet, base: int, end: int) -> None:
    """A message of RFC 2131, section 2."""
    frame = packet.frame
    if end - base < 240 or frame[base + 236 : base + 240] != COOKIE:
        return
    packet.name = "BOOTP"
    place = packet.plain(base, ("op", 1), ("htype", 1), ("hlen", 1), ("hops", 1), ("xid", 4), ("secs", 2), ("flags", 2))
    for name in ("ciaddr", "yiaddr", "siaddr", "giaddr"):
        packet.add(name, Form.IP4, place, 4)
        place += 4
    packet.add("chaddr", Form.MAC, place, 6)
    packet.plain(base + 236, ("cookie", 4))
    instances = read_areas4(packet, base, end)
    for code, spans in instances.items():
        name, form = OPTIONS4.get(code, (f"option {code}", Form.HIDDEN))
        packet.fields.append(Field(name, form, tuple(spans)))
    kinds = instances.get(KIND, [])
    if len(kinds) == 1 and kinds[0][1] - kinds[0][0] == 1:
        packet.name = KINDS4.get(frame[kinds[0][0]], "BOOTP")


Instances = dict[int, list[tuple[int, int]]]


def read_areas4(packet: Packet, base: int, end: int) -> Instances:
    """The places of each option's values, over the options and what they say is options too (RFC 2132, section 9.3)."""
    found: Instances = {}
    read_area4(packet, base + 240, end, found)
    overload = found.get(OVERLOAD, [(0, 0)])[0]
    more = packet.frame[overload[0]] if overload[1] - overload[0] == 1 else 0
    for bit, start, stop in ((1, 108, 236), (2, 44, 108)):
        if more <= 3 and more & bit:
            read_area4(packet, base + start, base + stop, found)
    return found


def read_area4(packet: Packet, place: int, end: int, found: Instances) -> None:
    frame = packet.frame
    while place < end and frame[place] != 255:
        if frame[place] == 0:
            place += 1
            continue
        packet.plain(place, ("code", min(2, end - place)))
        stop = place + 2 + frame[place + 1] if place + 1 < end else end + 1
        if stop > end:
            return
        found.setdefault(frame[place], []).append((place + 2, stop))
        place = stop
    if place < end:
        packet.plain(place, ("code", 1))


def read_dhcp6(packet: Packet, base: int, end: int) -> None:
    """A message of RFC 8415, section 8."""
    if end - base < 4:
        return
    packet.plain(base, ("type", 1), ("xid", 3))
    packet.name = KINDS6.get(packet.frame[base], "DHCPv6")
    read_options6(packet, base + 4, end)


def read_options6(packet: Packet, place: int, end: int) -> None:
    while place < end:
        packet.plain(place, ("code", min(4, end - place)))
        start = place + 4
        stop = start + packet.number(place + 2) if start <= end else end + 1
        if stop > end:
            return
        read_option6(packet, packet.number(place), start, stop)
        place = stop


def read_option6(packet: Packet, code: int, start: int, stop: int) -> None:
    held = HOLDERS.get(code)
    if held is None:
        name, form = OPTIONS6.get(code, (f"option {code}", Form.HIDDEN))
        packet.add(name, form, start, stop - start)
    elif stop - start >= held:
        head = start
        for name, form, length in HEADS6[code]:
            packet.add(name, form, head, length)
            head += length
        read_options6(packet, start + held, stop)


# The fields before the options that an option holds (RFC 8415, sections 21.4, 21.5, 21.6, 21.21 and 21.22).
ASSOCIATION = [("iaid", Form.PLAIN, 4), ("t1", Form.SECONDS, 4), ("t2", Form.SECONDS, 4)]
LIFETIMES = [("preferred", Form.SECONDS, 4), ("valid", Form.SECONDS, 4)]
HEADS6 = {
    3: ASSOCIATION,
    4: [("iaid", Form.PLAIN, 4)],
    5: [("address", Form.IP6, 16), *LIFETIMES],
    25: ASSOCIATION,
    26: [*LIFETIMES, ("prefix", Form.PREFIX, 17)],
}


def checksum(data: bytes) -> int:
    """The Internet checksum (RFC 1071)."""
    data += b"\0" * (len(data) % 2)
    total = sum(int.from_bytes(data[place : place + 2], "big") for place in range(0, len(data), 2))
    while total > 0xFFFF:
        total = (total & 0xFFFF) + (total >> 16)
    return ~total & 0xFFFF


def right_sum(frame: bytes, one: Checksum) -> int:
    """What a checksum is to be."""
    covered = frame[one.start : one.place] + b"\0\0" + frame[one.place + 2 : one.end]
    if one.kind is Sum.HEADER:
        return checksum(covered)
    length = one.end - one.start
    if one.kind is Sum.UDP4:
        ends = frame[26:34] + bytes([0, UDP]) + length.to_bytes(2, "big")
    else:
        ends = frame[22:54] + length.to_bytes(4, "big") + bytes([0, 0, 0, UDP])
    return checksum(ends + covered) or 0xFFFF


def kind_of_request(packet: Packet) -> Optional[str]:
    """In which state a REQUEST is said (RFC 2131, section 4.3.6)."""
    if packet.name != "REQUEST":
        return None
    if packet.get("server"):
        return "selecting"
    if packet.get("ciaddr") == bytes(4):
        return "rebooting"
    return "rebinding" if packet.get("destination") == b"\xff" * 4 else "renewing"
