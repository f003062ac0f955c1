"""Values of fields as text."""

from __future__ import annotations

import ipaddress
from typing import Callable

from .options import Form
from .packets import Field, Packet

FOREVER = 0xFFFFFFFF
WORDS = {"xid", "flags"}  # numbers that are shown by their digits
# What is no news to whom the name of the message is shown.
UNTOLD = {
    *"code ethertype cookie op htype hlen hops hardware protocol lengths version service id fragment message type".split(),
    *("total length", "payload length", "udp length", "time to live", "hop limit", "ip protocol", "next header"),
    *("source port", "destination port"),
}


def mac(value: bytes) -> str:
    return value.hex(":")


def ip6(value: bytes) -> str:
    """As RFC 5952 says, without a dotted tail."""
    groups = [format(int.from_bytes(value[place : place + 2], "big"), "x") for place in range(0, 16, 2)]
    best, length = 0, 1
    for start in range(8):
        run = next((place for place in range(start, 8) if groups[place] != "0"), 8) - start
        if run > length:
            best, length = start, run
    if length < 2:
        return ":".join(groups)
    return ":".join(groups[:best]) + "::" + ":".join(groups[best + length :])


def ip4(value: bytes) -> str:
    return ".".join(str(byte) for byte in value)


def pieces(value: bytes, length: int, show: Callable[[bytes], str]) -> str:
    if not value or len(value) % length:
        return value.hex()
    return ", ".join(show(value[place : place + length]) for place in range(0, len(value), length))


def seconds(value: bytes) -> str:
    number = int.from_bytes(value, "big")
    return "for ever" if number == FOREVER and len(value) == 4 else f"{number} s"


def number(value: bytes) -> str:
    return str(int.from_bytes(value, "big"))


def routes(value: bytes) -> str:
    shown, place = [], 0
    while place < len(value):
        width = value[place]
        used = (width + 7) // 8
        if width > 32 or place + 5 + used > len(value):
            return value.hex()
        dest = value[place + 1 : place + 1 + used].ljust(4, b"\0")
        gateway = value[place + 1 + used : place + 5 + used]
        shown.append(f"{ip4(dest)}/{width} via {ip4(gateway)}")
        place += 5 + used
    return ", ".join(shown)


def names(value: bytes) -> str:
    """Names of DNS; the digits where they can't be followed."""
    found, place = [], 0
    while place < len(value):
        name, place = one_name(value, place)
        if not name:
            return value.hex()
        found.append(name)
    return ", ".join(found)


def one_name(value: bytes, place: int) -> tuple[str, int]:
    """A name and the place behind it; pointers lead back alone, so that this ends."""
    labels: list[str] = []
    behind, bound = None, place
    while place < len(value):
        length = value[place]
        if length == 0:
            return ".".join(labels), behind or place + 1
        if length >= 0xC0 and place + 1 < len(value):
            target = (length & 0x3F) << 8 | value[place + 1]
            behind = behind or place + 2
            if target >= bound:
                break
            place = bound = target
            continue
        labels.append(value[place + 1 : place + 1 + length].decode("latin-1"))
        place += 1 + length
    return "", len(value)


def text(value: bytes) -> str:
    shown = value.decode("latin-1")
    return repr(shown)[1:-1] if shown.isprintable() else value.hex()


def prefix(value: bytes) -> str:
    return f"{ip6(value[1:])}/{value[0]}"


def status(value: bytes) -> str:
    words = value[2:].decode("utf8", "replace")
    return f"{int.from_bytes(value[:2], 'big')} {words}".rstrip()


def hidden(value: bytes) -> str:
    return text(value) if value and all(32 <= byte < 127 for byte in value) else value.hex()


def client(value: bytes) -> str:
    return mac(value[1:]) if len(value) == 7 and value[0] == 1 else hidden(value)


SHOWN: dict[Form, Callable[[bytes], str]] = {
    Form.PLAIN: number,
    Form.SECONDS: seconds,
    Form.MASK: lambda value: pieces(value, 4, ip4),
    Form.CODES: lambda value: " ".join(str(code) for code in value),
    Form.CODES6: lambda value: pieces(value, 2, number).replace(",", ""),
    Form.MAC: mac,
    Form.IP4: lambda value: pieces(value, 4, ip4),
    Form.IP6: lambda value: pieces(value, 16, ip6),
    Form.PREFIX: prefix,
    Form.ROUTES: routes,
    Form.NAME: text,
    Form.NAMES: names,
    Form.CLIENT: client,
    Form.DUID: lambda value: value.hex(),
    Form.STATUS: status,
    Form.HIDDEN: hidden,
}


def field(one: Field, frame: bytes) -> str:
    value = one.value(frame)
    return value.hex() if one.name in WORDS else SHOWN[one.form](value)


def fields(packet: Packet) -> list[tuple[str, str]]:
    """Names and values of the fields that tell something, in their order; those that are 0 tell nothing."""
    shown = [(one.name, field(one, packet.frame)) for one in packet.fields if one.name not in UNTOLD]
    return [(name, value) for name, value in shown if value not in ("0", "0000", "0.0.0.0") or name == "sender"]


def address(text: str) -> ipaddress._BaseAddress:
    """The address of a text; ValueError where it is none."""
    return ipaddress.ip_address(text)
