"""What a page draws: lanes of bands, bars and marks, made of the runs of a text."""

from __future__ import annotations

import ipaddress
from dataclasses import dataclass, field
from functools import lru_cache
from typing import NamedTuple, Optional

from . import machines, packets, show
from .machines import Band, Dhcp4, Dhcp6, LinkLocal, Machine, Seen, Sent
from .packets import Packet
from .transcript import Call, Interface, Life, Run, Turn

# Of which group a mark is, by the name of its message.
ARP, DHCP4, DHCP6, OTHER, CALL = "arp", "dhcp4", "dhcp6", "other", "call"
# In a basis the number behind these is that of an association or of an interface; all others are turns.
NO_TURN_BEHIND = ("lease6", "share")


class Mark(NamedTuple):
    """Something at one moment; `shape` says how it is drawn."""

    at: int
    line: int
    label: str
    shape: str
    failed: bool


@dataclass
class Bar:
    """Something from one moment to another, or to the end of the life."""

    start: int
    line: int
    label: str
    kind: str
    note: str = ""
    end: Optional[int] = None
    failed: bool = False


@dataclass
class Lane:
    name: str
    kind: str  # `bands`, `marks` or `bars`
    title: str
    bands: list[Band] = field(default_factory=list)
    marks: list[Mark] = field(default_factory=list)
    bars: list[Bar] = field(default_factory=list)


@dataclass
class Group:
    """The lanes of an interface, or those of the whole life."""

    title: str
    note: str
    lanes: list[Lane]


@dataclass
class Panel:
    """One life."""

    title: str
    notes: list[str]
    line: int  # of its opening
    moments: list[int]  # of the turns in which something happens
    end: int
    stops: list[Mark]
    groups: list[Group]
    failures: list[int] = field(default_factory=list)  # their lines


Notes = dict[int, str]  # what is told of a line beside it
Bases = dict[tuple[int, str], str]  # by life and row what it rests on


@lru_cache(maxsize=4096)
def packet_of(digits: str) -> Packet:
    return packets.read(b"" if digits == "-" else bytes.fromhex(digits))


@lru_cache(maxsize=4096)
def told(digits: str) -> str:
    return "\n".join(f"{name}\t{value}" for name, value in show.fields(packet_of(digits)))


def family(packet: Packet) -> str:
    if packet.name.startswith("ARP"):
        return ARP
    if packet.name in packets.KINDS4.values() or packet.name == "BOOTP":
        return DHCP4
    return DHCP6 if packet.name in packets.KINDS6.values() else OTHER


def message(packet: Packet) -> str:
    """Its name as it is shown; a REQUEST with the state it is said in."""
    request = packets.kind_of_request(packet)
    return f"{packet.name} ({request})" if request else packet.name.removesuffix("6")


def address_of(row: list[str]) -> bytes:
    return show.address(row[2].partition("/")[0]).packed


class InterfaceView:
    """Follows one interface through one life."""

    def __init__(self, interface: Interface, opening: Turn, follower: "LifeView"):
        self.interface, self.follower = interface, follower
        told_up = opening.event[1].split(",")
        self.up = str(interface.index) in told_up
        self.stopped = False
        at, line = opening.at, opening.line
        reads = {call.words[0] for call in opening.calls if call.verb == "read"}
        self.carrier = machines.carrier(self.up, at, line)
        self.four = Dhcp4(self.up, at, line) if f"{interface.name}.lease4" in reads else None
        self.six = Dhcp6(self.up, at, line) if f"{interface.name}.lease6" in reads else None
        self.local = LinkLocal(self.up, at, line)
        for machine in (self.four, self.six, self.local):
            if machine is not None:
                machine.turns = follower.moments
        self.marks: list[Mark] = []
        self.bars: list[Bar] = []
        self.held: dict[str, Bar] = {}  # those that last, by their net

    def follow(self, turn: Turn) -> None:
        seen = self.seen(turn)
        for machine in (self.four, self.six):
            if machine is not None:
                machine.follow(seen)
        self.local.follow(seen, self.four is not None and self.four.state == machines.BOUND)

    def seen(self, turn: Turn) -> Seen:
        """What the turn shows of this interface; frames become marks on the way."""
        own = str(self.interface.index)
        mine = turn.event[0] in ("start", "stop") or turn.event[1:2] == [own]
        seen = Seen(turn.at, turn.line, turn.event[0] if mine else "quiet", self.up)
        if mine:
            self.come(turn, seen)
        for call in turn.calls:
            self.call(call, seen, own)
        return seen

    def come(self, turn: Turn, seen: Seen) -> None:
        """What came in; a carrier that is so already, and all that comes after a stop, is nothing to the machines."""
        name = turn.event[0]
        if name == "carrier":
            changed, self.up = self.up != (turn.event[2] == "up"), turn.event[2] == "up"
            self.carrier.become(machines.UP if self.up else machines.DOWN, turn.at, turn.line)
            seen.up, seen.event = self.up, "carrier" if changed else "quiet"
        elif name == "frame":
            seen.heard = packet_of(turn.event[2])
            self.follower.note(turn.line, told(turn.event[2]))
            self.mark(turn.at, turn.line, message(seen.heard), "in " + family(seen.heard), False)
        elif name in ("dup", "release", "rebind"):
            self.mark(turn.at, turn.line, " ".join([name, *turn.event[2:]]), "asked", False)
        if self.stopped:
            seen.event = "quiet"
        self.stopped = self.stopped or name == "stop"

    def call(self, call: Call, seen: Seen, own: str) -> None:
        if call.device == "link" and call.words[0] == own:
            packet = packet_of(call.words[1])
            self.follower.note(call.line, told(call.words[1]))
            seen.sent.append(Sent(packet, call.line))
            self.mark(seen.at, call.line, message(packet), "out " + family(packet), not call.ok)
        elif call.device == "host" and call.words[:2] == ["addr", own]:
            kept = seen.added if call.verb == "add" else seen.removed
            kept.append((address_of(call.words), call.line))
        elif call.device == "store" and call.verb in ("write", "remove"):
            self.stored(call, seen)

    def stored(self, call: Call, seen: Seen) -> None:
        front, _, end = call.words[0].rpartition(".")
        if front != self.interface.name:
            return
        if call.verb == "write":
            seen.written[end] = call.words[1], call.line
        else:
            seen.cleared[end] = call.line

    def mark(self, at: int, line: int, label: str, shape: str, failed: bool) -> None:
        self.marks.append(Mark(at, line, label, shape, failed))

    # Addresses

    def hold(self, net: str, at: int, line: int, kind: str) -> Bar:
        """An address that is held from now on, or isn't known to be."""
        self.leave(net, at)
        bar = Bar(at, line, net, kind)
        self.held[net] = bar
        self.bars.append(bar)
        return bar

    def leave(self, net: str, at: int) -> None:
        bar = self.held.pop(net, None)
        if bar is not None:
            bar.end = at

    def lanes(self) -> list[Lane]:
        found = [Lane("carrier", "bands", "Carrier", bands=self.carrier.closed())]
        shown: list[tuple[str, str, Optional[Machine]]] = [("dhcp4", "DHCPv4", self.four)]
        shown.append(("local", "link-local", self.local if self.local.shown else None))
        shown.append(("dhcp6", "DHCPv6", self.six))
        found += [Lane(name, "bands", title, bands=one.closed()) for name, title, one in shown if one is not None]
        if self.marks:
            found.append(Lane("frames", "marks", "frames", marks=self.marks))
        if self.bars:
            found.append(Lane("addresses", "bars", "addresses", bars=self.bars))
        return found


class LifeView:
    """Follows one life."""

    def __init__(self, run: Run, life: Life, notes: Notes, bases: Bases):
        self.run, self.life, self.notes, self.bases = run, life, notes, bases
        self.host: list[Mark] = []
        self.files: list[Mark] = []
        self.drops: list[Mark] = []
        self.jobs: list[Bar] = []
        self.job: Optional[Bar] = None  # the hook that runs
        self.stops: list[Mark] = []
        self.failures: list[int] = []
        self.moments = [turn.at for turn in life.turns]
        opening = life.turns[0]
        self.views = {str(one.index): InterfaceView(one, opening, self) for one in run.interfaces}
        self.names = {one.name: str(one.index) for one in run.interfaces}
        self.leases: dict[str, str] = {}  # by name of the file

    def note(self, line: int, text: str) -> None:
        if text:
            self.notes[line] = text

    def follow(self) -> Panel:
        for turn in self.life.turns:
            self.turn(turn)
        for view in self.views.values():
            self.found(view)
        turns = self.life.turns
        lanes = [Lane("host", "marks", "host calls", marks=self.host)]
        lanes.append(Lane("files", "marks", "files", marks=self.files))
        if self.jobs or self.drops:
            lanes.append(Lane("hooks", "bars", "hooks", bars=self.jobs, marks=self.drops))
        groups = [Group(view.interface.name, view.interface.mac, view.lanes()) for view in self.views.values()]
        groups.append(Group("the host", "", lanes))
        notes = [f"{len(turns) - 1} turns"]
        if self.life.end is None:
            notes.append("told without its end")
        moments = sorted({turn.at for turn in turns if turn.calls or turn.event != ["quiet"]})
        title = f"Life {self.life.number}"
        return Panel(title, notes, turns[0].line, moments, turns[-1].at, self.stops, groups, self.failures)

    def turn(self, turn: Turn) -> None:
        for view in self.active(turn):
            view.follow(turn)
        if turn.event[0] == "stop":
            self.stops.append(Mark(turn.at, turn.line, "stop", "stop", False))
        for call in turn.calls:
            if call.ok is False:
                self.failures.append(call.line)
            if call.device == "host":
                self.host_call(turn, call)
            elif call.device == "hooks":
                self.hook_call(turn.at, call)
        self.store_calls(turn)

    def active(self, turn: Turn) -> list[InterfaceView]:
        """The interfaces of which a turn may show something."""
        if turn.event[0] in ("start", "stop"):
            return list(self.views.values())
        indexes = set(turn.event[1:2])
        for call in turn.calls:
            if call.device == "link":
                indexes.add(call.words[0])
            elif call.device == "host" and call.words[:1] == ["addr"]:
                indexes.add(call.words[1])
            elif call.device == "store" and call.verb in ("write", "remove"):
                indexes.add(self.names.get(call.words[0].rpartition(".")[0], ""))
        return [self.views[index] for index in sorted(indexes) if index in self.views]

    # The host

    def host_call(self, turn: Turn, call: Call) -> None:
        failed = not call.ok
        if call.verb == "list":
            label = "listing failed" if failed else f"listing of {len(call.more)} rows"
            self.host.append(Mark(turn.at, call.line, label, "list", failed))
            self.note(call.line, "\n".join(call.more))
            if not failed:
                self.listed(turn, call)
            return
        row = " ".join(call.words)
        self.host.append(Mark(turn.at, call.line, f"{call.verb} {row}", call.verb, failed))
        if call.words[0] == "addr" and call.words[1] in self.views:
            self.changed(turn, call, self.views[call.words[1]])

    def changed(self, turn: Turn, call: Call, view: InterfaceView) -> None:
        """An address that is added or taken away; where the call failed nobody knows until the next listing."""
        net = call.words[2]
        if call.verb == "del":
            view.leave(net, turn.at)
        if not call.ok:
            view.hold(net, turn.at, call.line, "unknown").note = "the call failed: held or not, until the next listing"
        elif call.verb == "add":
            self.describe(view.hold(net, turn.at, call.line, "other"), turn, view)

    def listed(self, turn: Turn, call: Call) -> None:
        rows = [row.split(" ") for row in call.more]
        for index, view in self.views.items():
            there = {words[2] for words in rows if words[:2] == ["addr", index]}
            for net in list(view.held):
                if net not in there or view.held[net].kind == "unknown":
                    view.leave(net, turn.at)
            for net in sorted(there - set(view.held)):
                self.describe(view.hold(net, turn.at, call.line, "other"), turn, view)

    def describe(self, bar: Bar, turn: Turn, view: InterfaceView) -> None:
        """What an address rests on, as far as lines tell it."""
        written = {call.words[0]: call.words[1] for call in turn.calls if call.verb == "write"}
        bar.kind, bar.note = self.origin(bar.label, view.interface, {**self.leases, **written})

    def found(self, view: InterfaceView) -> None:
        """Puts at the addresses that last to the end what was found of them."""
        for net, bar in view.held.items():
            basis = self.bases.get((self.life.number, f"addr {view.interface.index} {net}"))
            if basis:
                bar.note += f"\nfound: {self.reason(basis)}"

    def reason(self, basis: str) -> str:
        """A basis, with the line of each turn that it names."""
        words = basis.split(" ")
        pairs = zip(["", *words], words)
        return " ".join(word if before in NO_TURN_BEHIND else self.with_line(word) for before, word in pairs)

    def with_line(self, word: str) -> str:
        """The number of a turn with its line; another word alone."""
        if not word.isdigit() or int(word) >= len(self.life.turns):
            return word
        return f"turn {word} (line {self.life.turns[int(word)].line})"

    def origin(self, net: str, interface: Interface, leases: dict[str, str]) -> tuple[str, str]:
        plain = net.partition("/")[0]
        if any(f"address={plain}".encode() in text for text in self.run.configuration):
            return "static", "a static line of the configuration"
        lease = lease_lines(leases.get(interface.name + ".lease4", ""))
        if lease.get("address") == net and {"server", "lease", "first"} <= lease.keys():
            return "lease", f"DHCPv4 lease of {lease['server']}, {lease['lease']} s from {lease['first']} on"
        if plain.startswith("169.254."):
            return "local", "a link-local address"
        if plain in lease_lines(leases.get(interface.name + ".lease6", "")).get("addr", ""):
            return "lease", "an address of a DHCPv6 lease"
        for name, text in leases.items():
            prefix = lease_lines(text).get("prefix", "").partition(" ")[0]
            if name.endswith(".lease6") and prefix and holds(prefix, plain):
                return "share", f"out of {prefix}, which is delegated to {name[: -len('.lease6')]}"
        return "other", "no line tells on what it rests"

    # Files

    def store_calls(self, turn: Turn) -> None:
        """A mark for each file that is read, saved or removed; what belongs to one saving is one mark."""
        calls = [call for call in turn.calls if call.device == "store"]
        place = 0
        while place < len(calls):
            group = saving(calls, place)
            place += len(group)
            self.store_mark(turn.at, group)

    def store_mark(self, at: int, group: list[Call]) -> None:
        call, failed = group[0], [one for one in group if not one.ok]
        name = call.words[0] if call.words else ""
        words = {"list": "listing of asides", "settle": "settling", "read": f"read {name}", "write": f"save {name}"}
        label = words.get(call.verb, f"{call.verb} {name}")
        if call.verb == "read" and call.words[1] == "none":
            label += ": none"
        if failed:
            label += f": {failed[0].verb} failed"
        self.files.append(Mark(at, (failed or group)[0].line, label, call.verb, bool(failed)))
        if call.verb in ("read", "write") and call.words[1] not in ("none", "failed"):
            self.leases[name] = call.words[1]
            self.note(call.line, content(call.words[1]))
        elif call.verb == "remove":
            self.leases.pop(name, None)

    # Hooks

    def hook_call(self, at: int, call: Call) -> None:
        if call.verb == "start":
            _, reason, name = call.words
            self.note(call.line, "\n".join(call.more))
            if call.ok:
                self.job = Bar(at, call.line, f"{reason} {name}", "job")
                self.jobs.append(self.job)
            else:
                self.drops.append(Mark(at, call.line, f"not started: {reason} {name}", "drop", True))
        elif call.verb == "drop":
            _, reason, name = call.words
            self.drops.append(Mark(at, call.line, f"dropped: {reason} {name}", "drop", True))
            self.failures.append(call.line)
        elif self.job is not None:
            self.hook_answer(at, call, self.job)

    def hook_answer(self, at: int, call: Call, job: Bar) -> None:
        said = "abandoned" if call.verb == "abandon" else " ".join(call.words[1:])
        if said == "run":
            return
        if said != "ended 0":
            job.failed = True
            self.failures.append(call.line)
        job.note = said if said != "failed" else "a poll failed"
        if said != "failed":
            job.end = at


def saving(calls: list[Call], place: int) -> list[Call]:
    """The calls of one saving or removal, from this place on."""
    followers = {"write": ["sync", "rename", "settle"], "remove": ["settle"]}.get(calls[place].verb, [])
    group = [calls[place]]
    for verb in followers:
        behind = place + len(group)
        if behind == len(calls) or calls[behind].verb != verb or not group[-1].ok:
            break
        group.append(calls[behind])
    return group


def content(digits: str) -> str:
    """The text of a file, line by line."""
    return "\n".join(show.hidden(line.encode("latin-1")) for line in decoded(digits).split("\n"))


def decoded(digits: str) -> str:
    return "" if digits == "-" else bytes.fromhex(digits).decode("latin-1")


@lru_cache(maxsize=256)
def lease_lines(digits: str) -> dict[str, str]:
    """What stands behind the first word of each line of a lease; of repeated words all, parted by commas."""
    found: dict[str, str] = {}
    for line in decoded(digits).split("\n"):
        word, _, rest = line.partition(" ")
        found[word] = f"{found[word]}, {rest}" if word in found else rest
    return found


def holds(prefix: str, address: str) -> bool:
    try:
        return show.address(address) in ipaddress.ip_network(prefix)
    except ValueError:
        return False


def bases_of(text: str) -> Bases:
    """What lines `basis LIFE TURN ROW ..` say, as `dhcpcd audit why` prints them."""
    found = {}
    for words in (line.split(" ") for line in text.split("\n")):
        if len(words) > 6 and words[0] == "basis" and words[3] == "addr":
            found[int(words[1]), " ".join(words[3:6])] = " ".join(words[6:])
    return found


def panels(runs: list[Run], bases: Bases) -> tuple[list[Panel], Notes]:
    """The panels of all lives, and what is told beside lines."""
    notes: Notes = {}
    found = []
    for number, run in enumerate(runs, 1):
        for life in run.lives:
            if life.turns:
                panel = LifeView(run, life, notes, bases).follow()
                if len(runs) > 1:
                    panel.title = f"Run {number}, life {life.number}"
                found.append(panel)
    return found, notes
