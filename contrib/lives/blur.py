"""A script with other values in place of private ones, which the daemon takes as it took these."""

from __future__ import annotations

import re
from typing import Callable, Optional

from . import packets, show
from .options import Form
from .others import Others
from .packets import Field, Packet, Sum

HEX = re.compile(r"([0-9a-f]{2})+")
PAIRS = re.compile(r"[0-9A-Fa-f]{2}(:[0-9A-Fa-f]{2})+")
WORDS = re.compile(r'"[^"]*"?|[^ \t"]+|[ \t]+')
# Directives whose arguments tell nothing of anybody.
PLAIN_DIRECTIVES = set("option nooption require metric timeout reboot ia_na".split())
ADDRESS_KEYS = {"ip_address", "routers", "domain_name_servers", "ip6_address"}
NAME_KEYS = {"domain_name", "domain_search"}
BLURRED = b"blurred\n"  # in place of a file that has no text of its kind


def address_bytes(text: str) -> Optional[bytes]:
    try:
        return show.address(text).packed
    except ValueError:
        return None


def address_text(value: bytes) -> str:
    return show.ip4(value) if len(value) == 4 else show.ip6(value)


class Blur:
    """Gives the lines of one script their other values."""

    def __init__(self, seed: Optional[str]):
        self.others = others = Others(seed)
        self.skipping = False  # whether the configuration's block is skipped
        self.forms: dict[Form, Callable[[bytes], bytes]] = {
            Form.MAC: others.mac,
            Form.IP4: lambda value: pieces(value, 4, others.ip),
            Form.IP6: lambda value: pieces(value, 16, others.ip),
            Form.PREFIX: self.prefix_value,
            Form.ROUTES: self.routes,
            Form.NAME: self.name_value,
            Form.NAMES: self.names,
            Form.CLIENT: others.client,
            Form.DUID: others.duid,
            Form.STATUS: lambda value: value[:2].ljust(len(value), b"\0"),
            Form.HIDDEN: lambda value: bytes(len(value)),
        }

    def line(self, line: bytes) -> bytes:
        if line.startswith(b"c:"):
            return b"c:" + self.directive(line[2:].decode("utf8", "surrogateescape")).encode("utf8", "surrogateescape")
        words = line.decode("ascii").split(" ")
        rewrite = {"if": self.interface, "row": self.row, "file": self.file, "turn": self.turn}.get(words[0])
        return " ".join(rewrite(words) if rewrite else words).encode("ascii")

    def interface(self, words: list[str]) -> list[str]:
        mac = self.others.mac(bytes.fromhex(words[3].replace(":", "")))
        return [*words[:2], self.others.interface(words[2]), show.mac(mac)]

    def row(self, words: list[str]) -> list[str]:
        rewrite = self.address if words[1] == "addr" else self.net
        kept = [self.address(word) if words[place] == "via" else word for place, word in enumerate(words[4:], 3)]
        return [*words[:3], rewrite(words[3]), *kept]

    def address(self, text: str) -> str:
        """An address, perhaps with a length; a text that is none stays."""
        plain, slash, length = text.partition("/")
        value = address_bytes(plain)
        return text if value is None else address_text(self.others.ip(value)) + slash + length

    def net(self, text: str) -> str:
        """A network."""
        plain, _, length = text.partition("/")
        value = address_bytes(plain)
        if value is None or not length.isdigit() or int(length) > 8 * len(value):
            return text
        return f"{address_text(self.others.net(value, int(length)))}/{length}"

    def prefix(self, text: str) -> str:
        """A delegated prefix."""
        plain, _, length = text.partition("/")
        value = address_bytes(plain)
        if value is None or len(value) != 16 or not length.isdigit() or int(length) > 128:
            return text
        return f"{show.ip6(self.others.prefix(value, int(length)))}/{length}"

    # Turns and their frames

    def turn(self, words: list[str]) -> list[str]:
        if words[3] == "dup":
            return [*words[:5], self.address(words[5])]
        if words[3] == "frame" and words[5] != "-":
            return [*words[:5], self.frame(bytes.fromhex(words[5])).hex()]
        return words

    def frame(self, frame: bytes) -> bytes:
        """What no field has is 0, and checksums are right where they were."""
        packet = packets.read(frame)
        other = bytearray(len(frame))
        for one in packet.fields:
            put(other, one, self.value(one, one.value(frame)))
        for covered in reversed(packet.sums):
            self.checksum(packet, other, covered)
        return bytes(other)

    def checksum(self, packet: Packet, other: bytearray, one: packets.Checksum) -> None:
        given, right = packet.number(one.place), packets.right_sum(bytes(other), one)
        if given == 0 and one.kind is not Sum.HEADER:
            return
        if packets.right_sum(packet.frame, one) != given:
            right = right ^ 0x5555 or 0x1111
        other[one.place : one.place + 2] = right.to_bytes(2, "big")

    def value(self, one: Field, value: bytes) -> bytes:
        """The other value of a field; what tells nothing of anybody stays."""
        other = self.forms.get(one.form)
        return other(value) if other else value

    def prefix_value(self, value: bytes) -> bytes:
        return value[:1] + (self.others.prefix(value[1:], value[0]) if value[0] <= 128 else bytes(16))

    def routes(self, value: bytes) -> bytes:
        """Classless routes (RFC 3442); what is out of their form stays so."""
        made, place = b"", 0
        while place < len(value):
            width = value[place]
            used = (width + 7) // 8
            behind = place + 5 + used
            if width > 32 or behind > len(value):
                return made + value[place : place + 1] + bytes(len(value) - place - 1)
            dest = value[place + 1 : place + 1 + used].ljust(4, b"\0")
            made += value[place : place + 1] + self.others.net(dest, width)[:used]
            made += self.others.ip(value[behind - 4 : behind])
            place = behind
        return made

    def name_value(self, value: bytes) -> bytes:
        plain = value[:-1] if value[-1:] in (b"\0", b".") else value
        return self.others.name(plain.decode("latin-1")).encode("latin-1") + value[len(plain) :]

    def names(self, value: bytes) -> bytes:
        """Names of DNS, label by label in their places; what is out of their form is so afterwards."""
        other, place = bytearray(value), 0
        while place < len(value):
            length = value[place]
            label = value[place + 1 : place + 1 + length].decode("latin-1")
            if length >= 0xC0:
                place += 2
            elif length > 63 or len(label) != length:
                return bytes(len(value))
            else:
                other[place + 1 : place + 1 + length] = self.others.name(label).encode("latin-1") if label else b""
                place += 1 + length
        return bytes(other)

    # Files

    def file(self, words: list[str]) -> list[str]:
        content = b"" if words[2] == "-" else bytes.fromhex(words[2])
        other = self.content(words[1], content)
        return [words[0], self.file_name(words[1]), other.hex() or "-"]

    def file_name(self, name: str) -> str:
        stem, new = (name[:-4], ".new") if name.endswith(".new") else (name, "")
        if stem in ("duid", "resolv.conf"):
            return name
        front, dot, end = stem.rpartition(".")
        if dot and end in ("lease4", "lease6"):
            return f"{self.others.interface(front)}.{end}{new}"
        return self.others.word(stem) + new

    def content(self, name: str, content: bytes) -> bytes:
        if not content:
            return content
        if not content.isascii():
            return BLURRED
        rewrite = {"duid": self.duid_text, "resolv.conf": self.resolver_text}.get(name, self.lease_text)
        lines = content.decode("ascii").split("\n")
        return "\n".join(rewrite(line) if line else line for line in lines).encode("ascii")

    def duid_text(self, line: str) -> str:
        if not re.fullmatch(r"[0-9a-f]{2}(:[0-9a-f]{2})*", line):
            return "x" * len(line)
        return show.mac(self.others.duid(bytes.fromhex(line.replace(":", ""))))

    def resolver_text(self, line: str) -> str:
        word, *rest = line.split(" ")
        if word == "search":
            return " ".join([word, *(self.others.name(name) for name in rest)])
        if word == "nameserver" and len(rest) == 1:
            plain, mark, zone = rest[0].partition("%")
            return f"{word} {self.address(plain)}{mark}{self.others.interface(zone)}"
        return "x" * len(line)

    def lease_text(self, line: str) -> str:
        """A line of a lease; one that is none stays none."""
        word, *rest = line.split(" ")
        rewrite = LEASE_WORDS.get(word)
        if rewrite is None:
            return "x" * len(line)
        return " ".join([word, *(rewrite(self, rest) if rest else rest)])

    def lease_server(self, rest: list[str]) -> list[str]:
        """An address of DHCPv4, or a DUID of DHCPv6."""
        if HEX.fullmatch(rest[0]) and "." not in rest[0]:
            return [self.others.duid(bytes.fromhex(rest[0])).hex()]
        return [self.address(rest[0])]

    def lease_mac(self, rest: list[str]) -> list[str]:
        plain = rest[0].replace(":", "")
        return [show.mac(self.others.mac(bytes.fromhex(plain)))] if re.fullmatch("[0-9a-f]{12}", plain) else ["x"]

    def lease_option(self, rest: list[str]) -> list[str]:
        code, value = rest[0], rest[-1]
        known = {**packets.OPTIONS4, 23: packets.OPTIONS6[23], 24: packets.OPTIONS6[24]}
        if not code.isdigit() or not HEX.fullmatch(value):
            return ["x"]
        name, form = known.get(int(code), ("", Form.HIDDEN))
        return [code, self.value(Field(name, form, ()), bytes.fromhex(value)).hex()]

    # The configuration

    def directive(self, text: str) -> str:
        ended = text.endswith("\r")
        words = WORDS.findall(text.rstrip("\r"))
        places = [place for place, word in enumerate(words) if word.strip(" \t")]
        if not places:
            return text
        first = words[places[0]]
        if first in ("interface", "profile", "ssid"):
            self.skipping = first != "interface"
        elif first[0] in "#;" or self.skipping:
            return "#"
        for number, place in enumerate(places[1:]):
            words[place] = quoted(words[place], lambda word: self.argument(first, number, word))
        if first == "static":
            words = [*words[: places[0] + 1], *self.static("".join(words[places[0] + 1 :]), text)]
        return "".join(words) + ("\r" if ended else "")

    def argument(self, directive: str, number: int, word: str) -> str:
        """An argument, by the directive and its place behind it."""
        if directive in PLAIN_DIRECTIVES or directive == "static":
            return word
        rewrite = DIRECTIVES.get(directive)
        return rewrite(self, word, number) if rewrite else "x" * len(word)

    def static(self, blurred: str, text: str) -> list[str]:
        """What stands behind `static`."""
        match = re.match(r'([ \t]*"?)([^=]*)(=?)(.*)', blurred)
        if match is None:
            return [blurred]
        front, key, equals, value = match.groups()
        if key.strip() in ADDRESS_KEYS:
            value = re.sub(r'[^ \t"]+', lambda one: self.address(one.group()), value)
        elif key.strip() in NAME_KEYS:
            value = re.sub(r'[^ \t"]+', lambda one: self.others.name(one.group()), value)
        else:
            value = re.sub(r'[^ \t"]', "x", value)
        return [front, key, equals, value]

    def pattern(self, word: str, _: int) -> str:
        """The name of an interface, or the front of one and a star."""
        front = word[:-1] if word.endswith("*") else word
        return self.others.interface(front) + word[len(front) :]

    def share(self, word: str, number: int) -> str:
        """Of `ia_pd` the IAID with its hint, or a share."""
        first, slash, rest = word.partition("/")
        if number > 0:
            return self.others.interface(first) + slash + rest
        plain, _, length = rest.partition("/")
        return f"{first}/{self.prefix(f'{plain}/{length}')}" if slash else word

    def client_text(self, word: str, _: int) -> str:
        if not PAIRS.fullmatch(word):
            return self.others.word(word)
        return show.mac(self.others.client(bytes.fromhex(word.replace(":", ""))))

    def path(self, word: str, _: int) -> str:
        return word if word in ("", "/dev/null") else "/" + "x" * (len(word) - 1)

    def variable(self, word: str, _: int) -> str:
        name, equals, value = word.partition("=")
        return name + equals + "x" * len(value)


LEASE_WORDS: dict[str, Callable[[Blur, list[str]], list[str]]] = {
    "interface": lambda blur, rest: [blur.others.interface(rest[0]), *rest[1:]],
    "address": lambda blur, rest: [blur.address(rest[0]), *rest[1:]],
    "addr": lambda blur, rest: [blur.address(rest[0]), *rest[1:]],
    "prefix": lambda blur, rest: [blur.prefix(rest[0]), *rest[1:]],
    "server": Blur.lease_server,
    "servermac": Blur.lease_mac,
    "mac": Blur.lease_mac,
    "option": Blur.lease_option,
    **dict.fromkeys(
        ["dhcpcd-lease4", "dhcpcd-lease6", "first", "confirmed", "lease", "t1", "t2", "ia", "end"],
        lambda blur, rest: rest,
    ),
}
DIRECTIVES: dict[str, Callable[[Blur, str, int], str]] = {
    "interface": Blur.pattern,
    "allowinterfaces": Blur.pattern,
    "denyinterfaces": Blur.pattern,
    "hostname": lambda blur, word, _: blur.others.name(word),
    "clientid": Blur.client_text,
    "ia_pd": Blur.share,
    "script": Blur.path,
    "env": Blur.variable,
    "blacklist": lambda blur, word, _: blur.address(word),
}


def put(frame: bytearray, one: Field, value: bytes) -> None:
    """Puts a value where the field stands, which may be in several places."""
    for start, end in one.spans:
        frame[start:end] = value[: end - start]
        value = value[end - start :]


def pieces(value: bytes, length: int, other: Callable[[bytes], bytes]) -> bytes:
    """Values of one length, one after another; where they aren't, nothing stays but the length."""
    if len(value) % length:
        return bytes(len(value))
    return b"".join(other(value[place : place + length]) for place in range(0, len(value), length))


def quoted(word: str, other: Callable[[str], str]) -> str:
    """The other word, in the marks that this one stands in."""
    if not word.startswith('"'):
        return other(word)
    ended = len(word) > 1 and word.endswith('"')
    return '"' + other(word[1:-1] if ended else word[1:]) + ('"' if ended else "")


def blurred(lines: list[bytes], seed: Optional[str] = None) -> list[bytes]:
    """The lines of a script with other values; with a seed with the same ones each time."""
    blur = Blur(seed)
    for line in lines:
        blur.line(line)
    blur.others.learning = False
    return [blur.line(line) for line in lines]
