"""The states of an interface's machines, as a reader of the transcript can know them: by frames, files and rows.

What no line tells is UNKNOWN. A state is known from the line that shows it; where a machine left it without a word, what
follows its last sign is unknown until the next one.
"""

from __future__ import annotations

from bisect import bisect_right
from dataclasses import dataclass, field
from typing import NamedTuple, Optional

from . import packets
from .packets import Packet

UNKNOWN, OFF, INIT = "not known", "off", "begins"
SELECTING, REQUESTING, REBOOTING, CHECKING = "selecting", "requesting", "rebooting", "checking"
BOUND, RENEWING, REBINDING, WAITING = "bound", "renewing", "rebinding", "waiting"
SOLICITING, DECLINING = "soliciting", "declining"
PROBING, HELD = "probing", "held"
UP, DOWN = "carrier", "no carrier"
LOCAL = bytes([169, 254])  # RFC 3927

BY_REQUEST = {"selecting": REQUESTING, "rebooting": REBOOTING, "renewing": RENEWING, "rebinding": REBINDING}
BY_MESSAGE4 = {"DISCOVER": SELECTING, "DECLINE": WAITING, "RELEASE": OFF}
BY_MESSAGE6 = {
    "SOLICIT": SOLICITING,
    "REQUEST6": REQUESTING,
    "RENEW": RENEWING,
    "REBIND": REBINDING,
    "DECLINE6": DECLINING,
    "RELEASE6": OFF,
}


class Band(NamedTuple):
    """A state from one moment to another, or to the end of the life, and the line that shows it."""

    state: str
    start: int
    end: Optional[int]
    line: int


class Sent(NamedTuple):
    packet: Packet
    line: int


@dataclass
class Seen:
    """What one turn shows of one interface."""

    at: int
    line: int
    event: str  # the first word of what came, `quiet` where it was another interface's
    up: bool  # the carrier, after the turn
    heard: Optional[Packet] = None
    sent: list[Sent] = field(default_factory=list)
    added: list[tuple[bytes, int]] = field(default_factory=list)  # addresses, with their lines
    removed: list[tuple[bytes, int]] = field(default_factory=list)
    written: dict[str, tuple[str, int]] = field(default_factory=dict)  # by the end of the file's name text and line
    cleared: dict[str, int] = field(default_factory=dict)


class Machine:
    """The bands of one lane."""

    def __init__(self, first: str, at: int, line: int):
        self.bands: list[Band] = []
        self.state, self.since, self.line = first, at, line
        self.sign = at  # the moment of the last line that shows the state
        self.turns: list[int] = []  # the moments of all turns

    def become(self, state: str, at: int, line: int) -> None:
        self.sign = at
        if state == self.state:
            return
        self.close(at)
        self.state, self.since, self.line = state, at, line

    def lose(self) -> None:
        """From the first turn on that came after the last sign the state isn't known."""
        behind = bisect_right(self.turns, self.sign)
        at = self.turns[behind] if behind < len(self.turns) else self.sign
        self.become(UNKNOWN, at, self.line)

    def regain(self) -> None:
        """What wasn't known was the state before: a later line shows that it lasted."""
        if self.state == UNKNOWN and self.bands:
            self.state, self.since, _, self.line = self.bands.pop()

    def close(self, at: Optional[int]) -> None:
        if at is None or at > self.since:
            self.bands.append(Band(self.state, self.since, at, self.line))

    def closed(self) -> list[Band]:
        self.close(None)
        return self.bands


def carrier(up: bool, at: int, line: int) -> Machine:
    return Machine(UP if up else DOWN, at, line)


class Client(Machine):
    """What the machines of both families have alike: off without carrier, and a lease kept in a file."""

    ending = ""  # of the file's name

    def __init__(self, up: bool, at: int, line: int):
        super().__init__(INIT if up else OFF, at, line)
        self.kept = ""

    def follow(self, seen: Seen) -> None:
        if seen.event in ("carrier", "start"):
            self.become(INIT if seen.up else OFF, seen.at, seen.line)
        elif seen.event == "rebind" and self.state == OFF and seen.up:
            self.become(INIT, seen.at, seen.line)
        for sent in seen.sent:
            self.follow_sent(sent, seen.at)
        self.follow_file(seen)
        if seen.event in ("stop", "release") or not seen.up:
            self.become(OFF, seen.at, seen.line)

    def follow_sent(self, sent: Sent, at: int) -> None:
        raise NotImplementedError

    def follow_file(self, seen: Seen) -> None:
        text, line = seen.written.get(self.ending, ("", 0))
        if text and text != self.kept:
            self.kept = text
            self.take(seen, line)
        if self.ending in seen.cleared and self.kept:
            self.kept = ""
            self.drop(seen, seen.cleared[self.ending])

    def take(self, seen: Seen, line: int) -> None:
        self.become(BOUND, seen.at, line)

    def drop(self, seen: Seen, line: int) -> None:
        raise NotImplementedError


class Dhcp4(Client):
    """DHCPv4, by RFC 2131, section 4.4."""

    ending = "lease4"

    def __init__(self, up: bool, at: int, line: int):
        super().__init__(up, at, line)
        self.acks: dict[bytes, tuple[int, int]] = {}  # when an ACK last gave an address

    def follow(self, seen: Seen) -> None:
        if seen.heard is not None and seen.heard.name == "ACK":
            self.acks[seen.heard.get("yiaddr")] = seen.at, seen.line
        if seen.heard is not None and seen.heard.name == "NAK" and self.state in (REQUESTING, REBOOTING):
            self.become(UNKNOWN, seen.at, seen.line)
        super().follow(seen)
        for address, line in seen.added:
            if address in self.acks and self.state in (REQUESTING, REBOOTING, CHECKING):
                self.become(BOUND, seen.at, line)

    def take(self, seen: Seen, line: int) -> None:
        self.regain()
        super().take(seen, line)

    def follow_sent(self, sent: Sent, at: int) -> None:
        request = packets.kind_of_request(sent.packet)
        if sent.packet.name == "ARP probe":
            self.follow_probe(sent, at)
            return
        state = BY_REQUEST[request] if request else BY_MESSAGE4.get(sent.packet.name)
        if state is None:
            return
        if state == SELECTING and self.state in (REQUESTING, CHECKING):
            self.lose()
        self.become(state, at, sent.line)

    def follow_probe(self, sent: Sent, at: int) -> None:
        """A probe of a leased address: it is checked since its ACK."""
        target = sent.packet.get("target")
        if self.state == UNKNOWN and target in self.acks:
            self.regain()
        if self.state in (REQUESTING, REBOOTING) and target in self.acks:
            self.become(CHECKING, *self.acks[target])
        if self.state == CHECKING:
            self.sign = at

    def drop(self, seen: Seen, line: int) -> None:
        if self.state in (BOUND, RENEWING, REBINDING, REBOOTING):
            refused = seen.heard is not None and seen.heard.name == "NAK"
            self.become(WAITING if refused else INIT, seen.at, line)


class Dhcp6(Client):
    """DHCPv6, by RFC 8415, section 18.2."""

    ending = "lease6"

    def follow(self, seen: Seen) -> None:
        super().follow(seen)
        if self.state == DECLINING and seen.heard is not None and seen.heard.name == "REPLY":
            self.become(UNKNOWN, seen.at, seen.line)

    def follow_sent(self, sent: Sent, at: int) -> None:
        state = BY_MESSAGE6.get(sent.packet.name)
        if state is None:
            return
        if state == SOLICITING and self.state in (REQUESTING, DECLINING, REBINDING):
            self.lose()
        self.become(state, at, sent.line)

    def take(self, seen: Seen, line: int) -> None:
        if not any(sent.packet.name == "DECLINE6" for sent in seen.sent):
            super().take(seen, line)

    def drop(self, seen: Seen, line: int) -> None:
        if self.state in (BOUND, RENEWING, REBINDING):
            self.become(INIT, seen.at, line)


class LinkLocal(Machine):
    """Link-local addresses of IPv4, by RFC 3927: nothing is known before the first probe."""

    def __init__(self, up: bool, at: int, line: int):
        super().__init__(UNKNOWN if up else OFF, at, line)
        self.probed = b""
        self.shown = False

    def follow(self, seen: Seen, bound: bool) -> None:
        for sent in seen.sent:
            target = sent.packet.get("target")
            if sent.packet.name == "ARP probe" and target[:2] == LOCAL:
                self.probed, self.shown = target, True
                self.become(PROBING, seen.at, sent.line)
        for address, line in seen.added:
            if address[:2] == LOCAL:
                self.shown = True
                self.become(HELD, seen.at, line)
        for address, line in seen.removed:
            if address[:2] == LOCAL and self.state == HELD:
                self.become(UNKNOWN, seen.at, line)
        if self.contested(seen):
            self.become(UNKNOWN, seen.at, seen.line)
        if bound and self.state != OFF:
            self.become(OFF, seen.at, seen.line)
        if seen.event in ("stop", "release") or not seen.up:
            self.become(OFF, seen.at, seen.line)
        elif self.state == OFF and seen.event in ("carrier", "rebind"):
            self.become(UNKNOWN, seen.at, seen.line)

    def contested(self, seen: Seen) -> bool:
        """Whether another host spoke of the address that is probed, and no probe follows at once."""
        if self.state != PROBING or seen.heard is None or not seen.heard.name.startswith("ARP"):
            return False
        said = (seen.heard.get("sender"), seen.heard.get("target"))
        return self.probed in said and not any(sent.packet.name == "ARP probe" for sent in seen.sent)
