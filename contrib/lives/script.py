"""The script whose replay is a transcript, and what of the transcript no script can bring about."""

from __future__ import annotations

from dataclasses import dataclass
from typing import Iterator, Optional

from .images import Stores
from .rows import in_order
from .transcript import Call, Life, Run, Turn, each

INPUT_LIMIT = 16_777_216
DEVICES = ("link", "store", "host", "hooks")
LAST_ANSWER = "ended 0"  # what polls say when a script has no further answer


@dataclass
class Remark:
    """A line that the replay of the script won't have so, and why."""

    line: int
    why: str

    def __str__(self) -> str:
        return f"line {self.line}: {self.why}"


class Host:
    """The rows of the host, from its first listing on."""

    def __init__(self) -> None:
        self.first: Optional[list[str]] = None
        self.rows: set[str] = set()

    def follow(self, call: Call) -> Optional[str]:
        """Does what a call did, and says what of it can't be."""
        if not call.ok:
            return None
        if call.verb == "list":
            return self.list(call.more)
        row = " ".join(call.words)
        (self.rows.add if call.verb == "add" else self.rows.discard)(row)
        return None

    def list(self, rows: list[str]) -> Optional[str]:
        known, self.rows = self.rows, set(rows)
        if self.first is None:
            self.first, known = rows, self.rows
        if not in_order(rows):
            return "its rows aren't in their order"
        return None if known == self.rows else "its rows aren't those that the calls before leave"


class Writer:
    """Follows a run line by line."""

    def __init__(self, run: Run):
        self.run = run
        self.known = {str(interface.index) for interface in run.interfaces}
        self.stores, self.host = Stores(), Host()
        self.counts = dict.fromkeys(DEVICES, 0)
        self.fails: dict[str, list[int]] = {device: [] for device in DEVICES}
        self.polls: list[str] = []
        self.lives: list[list[str]] = []
        self.cuts: list[str] = []  # the calls that crashes let pass
        self.remarks: list[Remark] = []
        self.notes: list[Remark] = []

    def remark(self, line: int, why: str) -> None:
        self.remarks.append(Remark(line, why))

    def follow(self) -> None:
        for life in self.run.lives:
            self.follow_life(life, life is self.run.lives[-1])
        if not self.run.lives:
            self.remark(self.run.line, "no life is told")

    def follow_life(self, life: Life, last: bool) -> None:
        passed = None if last else passed_calls(life)
        begun = self.counts["store"]
        lines = []
        for turn in life.turns:
            lines.append(self.turn_line(turn))
            for call in turn.calls:
                self.follow_call(call, passed is not None and self.counts["store"] - begun >= passed)
            if not turn.whole:
                self.remark(turn.line, "this turn isn't told to its end")
        if not life.turns:
            self.remark(self.run.line, f"life {life.number} has no start")
        elif life.end is None:
            self.remark(life.turns[-1].line, "the life isn't told to its end, or it was ended from outside")
        self.lives.append(lines)
        if not last:
            self.cuts.append("-" if passed is None else str(passed))
            self.stores.crash()

    def turn_line(self, turn: Turn) -> str:
        at = f"{turn.at} {turn.salt}"
        if turn.event[0] == "start":
            return f"start {at} up {self.carriers(turn)}"
        index = turn.event[1] if len(turn.event) > 1 else None
        if index is None or index in self.known:
            return f"turn {at} {' '.join(turn.event)}"
        self.remark(turn.line, f"there is no interface {index}; the script says quiet in its place")
        return f"turn {at} quiet"

    def carriers(self, turn: Turn) -> str:
        """Those of the interfaces that there are: `live` says that all 64 that may be have carrier."""
        told = [] if turn.event[1] == "-" else turn.event[1].split(",")
        kept = [index for index in told if index in self.known]
        if kept != told:
            why = "live names all carriers that may be, and a script those of its interfaces alone"
            self.notes.append(Remark(turn.line, why))
        return ",".join(kept) or "-"

    def follow_call(self, call: Call, cut: bool) -> None:
        """Follows a call; those that a crash cuts off fail without a line of their own."""
        if call.verb == "poll":
            self.poll(call)
        if call.ok is None:
            return
        self.counts[call.device] += 1
        if not call.ok and not (cut and call.device == "store"):
            self.fails[call.device].append(self.counts[call.device])
        why = None
        if call.device == "store":
            why = self.stores.follow(call)
        elif call.device == "host":
            why = self.host.follow(call)
        if why:
            self.remark(call.line, why)

    def poll(self, call: Call) -> None:
        answer = " ".join(call.words[1:])
        if answer.startswith("ended ") and int(call.words[2]) > 255:
            self.remark(call.line, "a script has no status above 255")
            answer = "ended 255"
        self.polls.append(answer)

    def lines(self) -> Iterator[bytes]:
        yield b"dhcpcd-script 1"
        for text in self.run.configuration:
            yield b"c:" + text
        for line in self.text_lines():
            yield line.encode("ascii")

    def text_lines(self) -> Iterator[str]:
        for interface in self.run.interfaces:
            yield f"if {interface.index} {interface.name} {interface.mac}"
        for row in self.host.first or []:
            yield f"row {row}"
        for name, content in self.stores.files():
            yield f"file {name} {content}"
        for device in DEVICES:
            for number in self.fails[device]:
                yield f"fail {device} {number}"
        for answer in self.said_answers():
            yield f"hook {answer}"
        for number, life in enumerate(self.lives):
            yield from life
            if number < len(self.cuts):
                yield f"crash {self.cuts[number]} {self.stores.picks()[number]}"

    def said_answers(self) -> list[str]:
        """The answers of polls, but for the last ones, which come without being said."""
        answers = list(self.polls)
        while answers and answers[-1] == LAST_ANSWER:
            answers.pop()
        return answers


def passed_calls(life: Life) -> Optional[int]:
    """How many calls of the store a crash let pass, None where the last one was answered well."""
    answers = [call.ok for call in each(life, lambda call: call.device == "store")]
    while answers and not answers[-1]:
        answers.pop()
    total = sum(1 for _ in each(life, lambda call: call.device == "store"))
    return len(answers) if len(answers) < total else None


@dataclass
class Script:
    """Its lines, what its replay won't have so, and what is no more than to be known."""

    lines: list[bytes]
    remarks: list[Remark]
    notes: list[Remark]


def script_of(run: Run) -> Script:
    writer = Writer(run)
    writer.follow()
    lines = list(writer.lines())
    if sum(len(line) + 1 for line in lines) > INPUT_LIMIT:
        writer.remark(run.line, f"its script has more than {INPUT_LIMIT} bytes, which replay doesn't read")
    return Script(lines, sorted(writer.remarks, key=lambda remark: remark.line), writer.notes)
