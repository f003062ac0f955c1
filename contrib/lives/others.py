"""Other values in place of private ones, alike throughout: addresses, names, hardware addresses, and bytes.

A script is gone through twice. The first time each value is only learnt; the second time it is given another one. Other
addresses keep their order, and which of them lie in one network, so that the same rows come in the same order.
"""

from __future__ import annotations

import ipaddress
import random
import re
import string
from dataclasses import dataclass, field
from typing import Optional

# What is no public address stays (RFC 6890 and others), and so does what lies beside it in the tree of addresses.
KEPT4 = """0.0.0.0/8 10.0.0.0/8 100.64.0.0/10 127.0.0.0/8 169.254.0.0/16 172.16.0.0/12 192.0.0.0/24 192.0.2.0/24
    192.168.0.0/16 198.18.0.0/15 198.51.100.0/24 203.0.113.0/24 224.0.0.0/3"""
KEPT6 = "::/8 2001:db8::/32 3fff::/20 fc00::/7 fe80::/10 ff00::/8"
KEPT_LABELS = set("com net org local lan home arpa internal localdomain test example invalid".split())
KEPT_NAMES = re.compile(
    r"(eth|wlan|lan|wan|br|bond|veth|vlan|tap|tun|dummy|usb|wwan|en[ops]|wl[ops])\d+([a-z]\d+)*(\.\d+)?"
)
KEPT_FRONTS = re.compile(r"(eth|wlan|lan|wan|br|bond|veth|vlan|tap|tun|dummy|usb|wwan|en[ops]?|wl[ops]?)\d*")
NAME = re.compile(r"[A-Za-z0-9_-]{1,63}(\.[A-Za-z0-9_-]{1,63})*")
SOLICITED = bytes.fromhex("3333ff")  # the group of a solicited node (RFC 4291, section 2.7.1)
EUI64 = b"\xff\xfe"  # in the middle of an interface identifier (RFC 4291, appendix A)


@dataclass
class Node:
    """A bit of addresses; `still` where those below stay as they are."""

    ways: list[Optional["Node"]] = field(default_factory=lambda: [None, None])
    turned: int = 0
    still: bool = False


class Tree:
    """The addresses of one family, bit by bit from the first."""

    def __init__(self, width: int, kept: str, chance: random.Random):
        self.width, self.chance, self.root = width, chance, Node()
        for text in kept.split():
            net = ipaddress.ip_network(text)
            self.keep(int(net.network_address), net.prefixlen)

    def learn(self, number: int, length: int) -> Node:
        """The node of a net, which is there from now on; a way that nobody else has may turn."""
        node = self.root
        for bit in self.bits(number, length):
            if node.still:
                break
            below = node.ways[bit]
            if below is None:
                below = node.ways[bit] = Node()
                node.turned = self.chance.getrandbits(1) if node.ways[1 - bit] is None else 0
            node = below
        return node

    def keep(self, number: int, length: int) -> None:
        """Has a net, and what is in it, stay as it is."""
        self.learn(number, length).still = True
        node: Optional[Node] = self.root
        for bit in self.bits(number, length):
            if node is not None:
                node.turned = 0
                node = node.ways[bit]

    def bits(self, number: int, length: int) -> list[int]:
        return [number >> (self.width - 1 - place) & 1 for place in range(length)]

    def other(self, number: int, length: int) -> int:
        """The other number of a net, whose further bits are 0."""
        node: Optional[Node] = self.root
        found = 0
        for bit in self.bits(number, length):
            if node is None or node.still:
                found = found << 1 | bit
                continue
            found = found << 1 | (bit ^ node.turned)
            node = node.ways[bit]
        return found << (self.width - length)


class Others:
    """The other values, all of one choice."""

    def __init__(self, seed: Optional[str]):
        self.chance = random.SystemRandom() if seed is None else random.Random(seed)
        self.trees = {4: Tree(32, KEPT4, self.chance), 16: Tree(128, KEPT6, self.chance)}
        self.learning = True
        self.macs: dict[bytes, bytes] = {}
        self.groups: dict[bytes, bytes] = {}
        self.tokens: dict[bytes, bytes] = {}
        self.words: dict[str, str] = {}
        self.taken: set[object] = set()
        self.letters: dict[str, dict[str, str]] = {}  # by the front of an interface's name its next letters

    def mac(self, value: bytes) -> bytes:
        if value[:3] == SOLICITED:
            return self.groups.setdefault(value, SOLICITED + (len(self.groups) + 1).to_bytes(3, "big"))
        if len(value) != 6 or value == bytes(6) or value[0] & 1:
            return value
        return self.macs.setdefault(value, b"\x02" + (len(self.macs) + 1).to_bytes(5, "big"))

    def ip(self, value: bytes) -> bytes:
        """An address of either family."""
        if len(value) == 16 and value[11:13] == EUI64:
            own = bytes([value[8] ^ 2]) + value[9:11] + value[13:]
            other = self.mac(own)
            return self.net(value, 64)[:8] + bytes([other[0] ^ 2]) + other[1:3] + EUI64 + other[3:]
        return self.net(value, 8 * len(value))

    def net(self, value: bytes, length: int) -> bytes:
        """A net, whose bits past its length are 0."""
        tree = self.trees[len(value)]
        number = int.from_bytes(value, "big")
        if self.learning:
            tree.learn(number, length)
            return value
        return tree.other(number, length).to_bytes(len(value), "big")

    def prefix(self, value: bytes, length: int) -> bytes:
        """A delegated prefix: what is below it stays, since subnets are counted there."""
        if self.learning:
            self.trees[16].learn(int.from_bytes(value, "big"), length).still = True
            return value
        return self.net(value, length)

    def token(self, value: bytes) -> bytes:
        """Other bytes, as many."""
        while value not in self.tokens:
            other = bytes(self.chance.getrandbits(8) for _ in value)
            if other not in self.taken:
                self.taken.add(other)
                self.tokens[value] = other
        return self.tokens[value]

    def duid(self, value: bytes) -> bytes:
        """Of its type, with the other hardware address where it has one (RFC 8415, section 11)."""
        kind = value[:4]
        if kind == b"\0\3\0\1" and len(value) == 10:
            return kind + self.mac(value[4:])
        if kind == b"\0\1\0\1" and len(value) == 14:
            return kind + self.token(value[4:8]) + self.mac(value[8:])
        return value[:2] + self.token(value[2:])

    def client(self, value: bytes) -> bytes:
        """A client identifier (RFC 2132, section 9.14; RFC 4361)."""
        if value[:1] == b"\1" and len(value) == 7:
            return value[:1] + self.mac(value[1:])
        if value[:1] == b"\xff" and len(value) > 6:
            return value[:5] + self.duid(value[5:])
        text = value[1:].decode("latin-1")
        if value[:1] == b"\0" and text.isprintable() and text.isascii():
            return value[:1] + self.word(text).encode("ascii")
        return value[:1] + self.token(value[1:])

    def word(self, text: str) -> str:
        """Letters, as many."""
        while text not in self.words:
            other = "".join(self.chance.choice(string.ascii_letters) for _ in text)
            other = other if len(text) == 1 else other.lower()
            if other not in self.taken:
                self.taken.add(other)
                self.words[text] = other
        return self.words[text]

    def name(self, text: str) -> str:
        """A name of DNS, label by label; another text is none afterwards either."""
        if not NAME.fullmatch(text) or len(text) > 253:
            return "".join("." if letter == "." else "?" for letter in text)
        return ".".join(label if label in KEPT_LABELS else self.word(label) for label in text.split("."))

    def interface(self, text: str) -> str:
        """The name of an interface, or the front of one: those with one front have one afterwards."""
        kept = KEPT_NAMES.fullmatch(text) or KEPT_FRONTS.fullmatch(text)
        if self.learning and not kept:
            return text
        return "".join(self.letter(text[:place], letter, bool(kept)) for place, letter in enumerate(text))

    def letter(self, front: str, letter: str, kept: bool) -> str:
        known = self.letters.setdefault(front, {})
        if letter not in known:
            free = [other for other in string.ascii_letters + string.digits if other not in known.values()]
            known[letter] = letter if kept or not free else free[self.chance.randrange(min(26, len(free)))]
        return known[letter]
