"""One page of the panels: data, style and script in one file, with nothing fetched."""

from __future__ import annotations

import base64
import gzip
import html
import json
import os
from typing import Any, Iterable

from .model import Group, Lane, Mark, Notes, Panel

SCRIPTS = ["scale.js", "life.js", "page.js"]
HERE = os.path.dirname(os.path.realpath(__file__))


class Words:
    """Words by their numbers, each once."""

    def __init__(self) -> None:
        self.numbers: dict[str, int] = {}

    def number(self, word: str) -> int:
        return self.numbers.setdefault(word, len(self.numbers))

    def all(self) -> list[str]:
        return list(self.numbers)


def steps(numbers: Iterable[int]) -> list[int]:
    """Each number as its distance from the one before."""
    last, found = 0, []
    for number in numbers:
        found.append(number - last)
        last = number
    return found


def marks(found: list[Mark], begin: int, words: Words) -> dict[str, Any]:
    return {
        "at": steps(mark.at - begin for mark in found),
        "line": steps(mark.line for mark in found),
        "label": [words.number(mark.label) for mark in found],
        "shape": [words.number(mark.shape) for mark in found],
        "failed": steps(place for place, mark in enumerate(found) if mark.failed),
    }


def lane(one: Lane, begin: int, words: Words) -> dict[str, Any]:
    def end(moment: int | None) -> int:
        return -1 if moment is None else moment - begin

    return {
        "name": one.name,
        "kind": one.kind,
        "title": one.title,
        "bands": [[words.number(band.state), band.start - begin, end(band.end), band.line] for band in one.bands],
        "marks": marks(one.marks, begin, words),
        "bars": [
            [words.number(bar.label), bar.start - begin, end(bar.end), bar.line, words.number(bar.kind),
             words.number(bar.note), int(bar.failed)]
            for bar in one.bars
        ],
    }  # fmt: skip


def group(one: Group, begin: int, words: Words) -> dict[str, Any]:
    return {"title": one.title, "note": one.note, "lanes": [lane(each, begin, words) for each in one.lanes]}


def panel(one: Panel, words: Words) -> dict[str, Any]:
    begin = one.moments[0]
    return {
        "title": one.title,
        "notes": one.notes,
        "line": one.line,
        "begin": begin,
        "moments": steps(moment - begin for moment in one.moments),
        "end": one.end - begin,
        "stops": [[stop.at - begin, stop.line] for stop in one.stops],
        "failures": one.failures,
        "groups": [group(each, begin, words) for each in one.groups],
    }


def model(panels: list[Panel]) -> dict[str, Any]:
    words = Words()
    made = [panel(one, words) for one in panels]
    return {"panels": made, "words": words.all()}


def packed(text: bytes) -> str:
    return base64.b64encode(gzip.compress(text, 6, mtime=0)).decode("ascii")


def part(name: str) -> str:
    with open(os.path.join(HERE, name), encoding="utf8") as file:
        return file.read()


def page(title: str, text: bytes, panels: list[Panel], notes: Notes) -> str:
    """The page, whole."""
    beside = "\n".join(f"{line} " + note.replace("\n", "\x1f") for line, note in notes.items())
    parts = {
        "%TITLE%": html.escape(title),
        "%STYLE%": part("page.css"),
        "%SCRIPT%": "\n".join(map(part, SCRIPTS)),
        "%MODEL%": packed(json.dumps(model(panels), separators=(",", ":")).encode()),
        "%TEXT%": packed(text.decode("utf8", "replace").encode()),
        "%NOTES%": packed(beside.encode()),
    }
    made = part("page.html")
    for mark, value in parts.items():
        made = made.replace(mark, value)
    return made
