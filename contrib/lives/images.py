"""What a life's calls say of the files at first, and of what a crash left of them."""

from __future__ import annotations

from dataclasses import dataclass, field
from typing import Iterator, Optional, Union

from .transcript import Call

ASIDE = ".new"
EMPTY = "-"


class First:
    """What a file held before the first life, where no line has told it yet."""


FIRST = First()
Content = Union[str, None, First]  # the digits of its bytes, None where there is no such file


@dataclass
class Images:
    """The store as it reads now, and as a crash leaves it where nothing unsettled was done."""

    now: dict[str, Content] = field(default_factory=dict)
    old: dict[str, Content] = field(default_factory=dict)
    unsynced: set[str] = field(default_factory=set)
    first: dict[str, Optional[str]] = field(default_factory=dict)
    listed: bool = False  # whether all asides of the first life are known
    picks: tuple[str, ...] = ()

    def get(self, name: str) -> Content:
        unknown = None if self.listed and name.endswith(ASIDE) else FIRST
        content = self.now.get(name, FIRST)
        return self.first.get(name, unknown) if content is FIRST else content

    def learn(self, name: str, content: Optional[str]) -> bool:
        """Whether the file may hold this; where nothing was known of it, it does so from the first."""
        known = self.get(name)
        if known is FIRST:
            self.first[name] = content
            return True
        self.now[name] = content
        return known == content

    def learn_aside(self, name: str) -> bool:
        """Whether there may be this aside, whatever it holds."""
        content = self.get(name)
        return self.learn(name, content if isinstance(content, str) else EMPTY)

    def crash(self) -> Iterator["Images"]:
        """What may be left."""
        for pick, image in (("old", self.old), ("new", self.now)):
            yield Images(dict(image), dict(image), set(), dict(self.first), self.listed, (*self.picks, pick))

    def same(self, other: "Images") -> bool:
        mine = (self.now, self.old, self.unsynced, self.first, self.listed)
        return mine == (other.now, other.old, other.unsynced, other.first, other.listed)

    def follow(self, call: Call) -> Optional[str]:
        """Does what a call did, and says what of it can't be."""
        if not call.ok:
            return None
        return getattr(self, call.verb)(*call.words)

    def list(self, *names: str) -> Optional[str]:
        there = [name for name in {*self.now, *self.first} if name.endswith(ASIDE) and self.get(name) is not None]
        kept = [self.learn_aside(name) for name in names]
        gone = [self.learn(name, None) for name in there if name not in names]
        self.listed = True
        if list(names) != sorted(set(names)):
            return "the asides aren't in their order"
        fits = all(kept) and all(gone)
        return None if fits else "these aren't the asides that the calls before leave"

    def read(self, name: str, content: str) -> Optional[str]:
        fits = self.learn(name, None if content == "none" else content)
        return None if fits else f"{name} isn't what the calls before leave of it"

    def write(self, name: str, content: str) -> None:
        aside = name + ASIDE
        self.now[aside], self.old[aside] = content, EMPTY
        self.unsynced.add(aside)

    def sync(self, name: str) -> None:
        aside = name + ASIDE
        if self.get(aside) is not None:
            self.old[aside] = self.get(aside)
            self.unsynced.discard(aside)

    def rename(self, name: str) -> Optional[str]:
        aside = name + ASIDE
        content = self.get(aside)
        self.now[name], self.now[aside] = content, None
        return "there is no aside to rename" if content is None else None

    def remove(self, name: str) -> None:
        self.now[name] = None

    def settle(self) -> None:
        self.old = {name: EMPTY if name in self.unsynced else content for name, content in self.now.items()}


class Stores:
    """All stores that the lines so far allow, by what crashes left."""

    def __init__(self) -> None:
        self.images = [Images()]

    def follow(self, call: Call) -> Optional[str]:
        """Follows a call; where it can't be, says so and goes on with what it told."""
        told = [(images.follow(call), images) for images in self.images]
        kept = [images for why, images in told if why is None]
        self.images = kept or self.images
        return None if kept else told[0][0]

    def crash(self) -> None:
        kept: list[Images] = []
        for images in (left for before in self.images for left in before.crash()):
            if not any(images.same(other) for other in kept):
                kept.append(images)
        self.images = kept

    def picks(self) -> tuple[str, ...]:
        return self.images[0].picks

    def files(self) -> list[tuple[str, str]]:
        """Names and contents at first."""
        return [(name, content) for name, content in self.images[0].first.items() if content is not None]
