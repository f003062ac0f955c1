"""Reads transcripts (docs/FORMATS.md): runs of the program, their lives, turns and calls, each with its line."""

from __future__ import annotations

import re
from dataclasses import dataclass, field
from typing import Callable, Iterator, NamedTuple, Optional

from .rows import FORM, NUMBER, is_row

HEAD = b"dhcpcd-transcript 1"


class NoTranscript(Exception):
    """A line that stands in no transcript, or not in its place."""

    def __init__(self, line: int, why: str):
        super().__init__(f"line {line}: {why}")
        self.line = line


@dataclass(frozen=True)
class Interface:
    index: int
    name: str
    mac: str


class Call(NamedTuple):
    """One call of a device: its words between the verb and the outcome, which is None where a call can't fail."""

    line: int
    device: str
    verb: str
    words: list[str]
    ok: Optional[bool]
    more: list[str]  # the rows of a listing, or the variables of a hook


@dataclass
class Turn:
    """A turn, or the opening, whose event is `start` and its carriers."""

    line: int
    at: int
    salt: int
    event: list[str]
    calls: list[Call] = field(default_factory=list)
    until: Optional[int] = None
    whole: bool = False  # whether its line `until` is there


@dataclass
class Life:
    number: int
    turns: list[Turn]
    holds: list[tuple[int, str]] = field(default_factory=list)  # lines and rows
    end: Optional[int] = None  # the line `end`


@dataclass
class Run:
    """What one run of the program wrote."""

    line: int
    configuration: list[bytes] = field(default_factory=list)
    notices: list[tuple[int, str]] = field(default_factory=list)
    interfaces: list[Interface] = field(default_factory=list)
    lives: list[Life] = field(default_factory=list)


HEX = "(?:-|(?:[0-9a-f]{2})+)"
OUT = "(?:ok|failed)"
FILE = "[A-Za-z0-9._-]+"
INTERFACE_LINE = re.compile(rf"if {NUMBER} {FILE} (?:[0-9a-f]{{2}}:){{5}}[0-9a-f]{{2}}")
EVENTS = rf"""quiet|stop|(?:release|rebind)\ {NUMBER}|carrier\ {NUMBER}\ (?:up|down)|dup\ {NUMBER}\ \S+
    |frame\ {NUMBER}\ {HEX}"""
TURN_LINE = re.compile(rf"turn\ {NUMBER}\ {NUMBER}\ (?:{EVENTS})|start\ {NUMBER}\ {NUMBER}\ up\ (?:-|[0-9,]+)", re.X)
CALL_LINE = re.compile(
    rf"""send\ {NUMBER}\ {HEX}\ {OUT}
    |host\ list\ (?:ok\ {NUMBER}|failed)|host\ (?:add|del)\ {FORM.replace(" ", chr(92) + " ")}\ {OUT}
    |store\ (?:list\ (?:ok(?:\ {FILE})*|failed)|read\ {FILE}\ (?:{HEX}|none|failed)|write\ {FILE}\ {HEX}\ {OUT})
    |store\ (?:(?:sync|rename|remove)\ {FILE}|settle)\ {OUT}
    |hook\ (?:poll\ {NUMBER}\ (?:run|failed|ended\ {NUMBER})|abandon\ {NUMBER})
    |hook\ (?:drop\ {NUMBER}\ \w+\ \S+|start\ {NUMBER}\ \w+\ \S+\ {OUT})""",
    re.X,
)
NO_FORM = "it has no form of such a line"
DEVICES = {"send": "link", "host": "host", "store": "store", "hook": "hooks"}
# By device and verb how many words come before the outcome, None where there is no outcome.
OUTCOMES = {"write": 2, "sync": 1, "rename": 1, "remove": 1, "settle": 0, "start": 3}


class Reader:
    """Reads the lines of one text in their order."""

    def __init__(self, text: bytes):
        # what stands behind the last line feed was cut off
        self.lines = text.split(b"\n")[:-1]
        self.place = 0
        self.runs: list[Run] = []

    def peek(self) -> bytes:
        return self.lines[self.place] if self.place < len(self.lines) else b""

    def refuse(self, why: str) -> NoTranscript:
        return NoTranscript(self.place + 1, why)

    def take(self, form: re.Pattern[str] | None = None) -> tuple[int, list[str]]:
        """The number and the words of the next line, which is of that form."""
        self.place += 1
        text = self.lines[self.place - 1].decode("latin-1")
        if form is not None and not form.fullmatch(text):
            raise NoTranscript(self.place, NO_FORM)
        return self.place, text.split(" ")

    def take_all(self, begin: bytes) -> list[str]:
        """What stands behind `begin` in the lines that begin so."""
        found = []
        while self.peek().startswith(begin):
            found.append(self.peek()[len(begin) :].decode("latin-1"))
            self.place += 1
        return found

    def take_rows(self) -> list[str]:
        first = self.place
        rows = self.take_all(b"row ")
        for number, row in enumerate(rows, first + 1):
            if not is_row(row):
                raise NoTranscript(number, NO_FORM)
        return rows

    def read(self) -> list[Run]:
        while self.place < len(self.lines):
            self.read_run()
        return self.runs

    def read_run(self) -> None:
        if self.peek() != HEAD:
            raise self.refuse("no transcript begins so, and no life goes on so")
        self.place += 1
        run = Run(self.place)
        self.runs.append(run)
        while self.peek().startswith(b"c:"):
            run.configuration.append(self.peek()[2:])
            self.place += 1
        for text in self.take_all(b"notice "):
            number, _, word = text.partition(" ")
            run.notices.append((int(number), word))
        while self.peek().startswith(b"if "):
            _, words = self.take(INTERFACE_LINE)
            run.interfaces.append(Interface(int(words[1]), *words[2:]))
        while self.peek().startswith(b"life "):
            run.lives.append(self.read_life())

    def read_life(self) -> Life:
        _, words = self.take()
        life = Life(int(words[1]), [])
        if self.peek().startswith(b"start "):
            line, words = self.take(TURN_LINE)
            life.turns.append(self.read_turn(Turn(line, int(words[1]), int(words[2]), ["start", words[4]])))
        while life.turns and self.peek().startswith(b"turn "):
            line, words = self.take(TURN_LINE)
            life.turns.append(self.read_turn(Turn(line, int(words[1]), int(words[2]), words[3:])))
        while self.peek().startswith(b"hold "):
            line, words = self.take()
            life.holds.append((line, " ".join(words[1:])))
        if self.peek() == b"end":
            life.end, _ = self.take()
        return life

    def read_turn(self, turn: Turn) -> Turn:
        while self.peek().partition(b" ")[0].decode("latin-1") in DEVICES:
            turn.calls.append(self.read_call())
        if self.peek().startswith(b"until "):
            _, words = self.take()
            turn.until = None if words[1] == "none" else int(words[1])
            turn.whole = True
        return turn

    def read_call(self) -> Call:
        line, words = self.take(CALL_LINE)
        device = DEVICES[words[0]]
        if device == "link":
            return Call(line, device, "send", words[1:-1], words[-1] == "ok", [])
        verb, rest = words[1], words[2:]
        if verb == "list":
            rows = self.take_rows() if device == "host" else []
            return Call(line, device, verb, rest[1:], rest[0] == "ok", rows)
        if verb == "read":
            return Call(line, device, verb, rest, rest[1] != "failed", [])
        if verb in ("add", "del"):
            if not is_row(" ".join(rest[:-1])):
                raise NoTranscript(line, NO_FORM)
            return Call(line, device, verb, rest[:-1], rest[-1] == "ok", [])
        more = self.take_all(b"var ") if verb == "start" else []
        if verb in OUTCOMES:
            return Call(line, device, verb, rest[: OUTCOMES[verb]], rest[-1] == "ok", more)
        return Call(line, device, verb, rest, None, more)


def read(text: bytes) -> list[Run]:
    """The runs of a text: transcripts, one after another."""
    reader = Reader(text)
    try:
        runs = reader.read()
    except (IndexError, ValueError) as error:
        raise NoTranscript(reader.place, NO_FORM) from error
    if not runs:
        raise NoTranscript(1, "there is no transcript")
    return runs


def each(life: Life, wanted: Callable[[Call], bool]) -> Iterator[Call]:
    """The calls of a life that are wanted, in their order."""
    return (call for turn in life.turns for call in turn.calls if wanted(call))
