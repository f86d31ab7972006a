"""Random choices for generated cases, and lawful frames chosen at random."""

from __future__ import annotations

import random
from typing import Any, Dict, List, NamedTuple, Sequence, Tuple, TypeVar

from frame import LONGEST_BODY, MAC_OCTETS, MODES, frame_chips, frame_length
from notation import chips_text, octets_text
from words import LONGEST_MESSAGE, Change, changed, parity

T = TypeVar("T")

EDGES = sorted(
    {0, 1, LONGEST_BODY - 1, LONGEST_BODY}
    | {LONGEST_MESSAGE * k + j for k in range(1, 10) for j in (-1, 0, 1)}
)
MODE_EDGES = [(mode, length) for mode in MODES for length in (0, 1, 224, 225)]
LARGE = ((6, 2048), (1, 2048), (7, 2047), (2, 2016), (4, 1793), (5, 1792), (3, 2048), (6, 2047))
MOSTLY_ONE = (1,) * 8 + (2, 3, 4, 5, 6, 7)
MENDERS = (
    "still",
    "single",
    "full",
    "then(single,full)",
    "then(still,single)",
    "then(full,still)",
    "then(then(still,single),full)",
    "then(still,then(single,then(still,full)))",
)


class Sample(NamedTuple):
    """A lawful frame; the fields are the arguments of frame_chips."""

    mode: int
    seed: int
    aggregation: bool
    mac: List[int]
    body: List[int]

    @property
    def n(self) -> int:
        """The channels of the frame's mode."""
        return MODES[self.mode].channels

    @property
    def length(self) -> int:
        """The length of the body."""
        return len(self.body)

    @property
    def size(self) -> int:
        """How many chips the frame has."""
        return frame_length(self.mode, len(self.body))

    def chips(self) -> List[int]:
        """The chips of the frame."""
        return frame_chips(*self)


def call(*words: object) -> str:
    """A line of words."""
    return " ".join(str(word) for word in words)


def read_line(n: int, chips: Sequence[int], *rooms: int) -> str:
    """A line that reads a window."""
    return call("read", n, chips_text(chips), *rooms)


class Dealer(random.Random):
    """Random choices that follow from a seed alone."""

    def __init__(self, seed: int) -> None:
        super().__init__(seed)
        self.decks: Dict[str, List[Any]] = {}

    def deal(self, name: str, cards: Sequence[T]) -> T:
        """One of the cards; none comes again before all have come."""
        deck = self.decks.setdefault(name, [])
        if not deck:
            deck += self.sample(list(cards), len(cards))
        card: T = deck.pop()
        return card

    def octets(self, count: int) -> List[int]:
        """Octets at random."""
        return [self.randrange(256) for _ in range(count)]

    def chips(self, count: int) -> List[int]:
        """Chips at random."""
        return [self.randrange(2) for _ in range(count)]

    def body(self, count: int) -> List[int]:
        """Octets of a body, sometimes with a plain pattern."""
        pattern = self.deal("pattern", ("random", "random", "random", "zero", "ones", "rising"))
        if pattern == "random":
            return self.octets(count)
        if pattern == "rising":
            return [k % 256 for k in range(count)]
        return [0x00 if pattern == "zero" else 0xFF] * count

    def mender(self) -> str:
        """The name of a mender."""
        return self.deal("mender", MENDERS)

    def frame_size(self) -> Tuple[int, int]:
        """A mode and a length, at the boundaries or at random."""
        shares = ("edge",) * 4 + ("mode",) * 4 + ("short",) * 4 + ("any", "large")
        share = self.deal("share", shares)
        if share == "edge":
            return 1, self.deal("edge", EDGES)
        if share == "mode":
            return self.deal("mode edge", MODE_EDGES)
        if share == "large":
            return self.deal("large", LARGE)
        longest = LONGEST_BODY if share == "any" else 60
        return self.deal("mode", MOSTLY_ONE), self.randint(0, longest)

    def frame(self, mode: int, length: int) -> Sample:
        """A frame of a mode and a length."""
        mac, body = self.octets(MAC_OCTETS), self.body(length)
        return Sample(mode, self.randrange(16), self.randrange(2) == 1, mac, body)

    def short_frame(self) -> Sample:
        """A frame with few chips, most often of mode 1."""
        length = self.deal("short length", (0, 0, 1, 2, 16, 30))
        return self.frame(self.deal("short mode", MOSTLY_ONE), length)

    def window(self, n: int, size: int) -> List[int]:
        """A window of a size for n channels: an empty frame and chips at random."""
        mode = self.choice([m for m in MODES if MODES[m].channels == n])
        return (self.frame(mode, 0).chips() + self.chips(size))[:size]

    def codeword(self, length: int) -> List[int]:
        """A message of a length at random with its parity."""
        message = self.octets(length)
        return message + parity(message)

    def changes(self, length: int, count: int) -> List[Change]:
        """Changes other than zero in a word of a length, ascending."""
        places = sorted(self.sample(range(length), min(count, length)))
        return [Change(place, self.randrange(1, 256)) for place in places]

    def damaged(self, word: Sequence[int], count: int) -> List[int]:
        """A word with a count of octets changed."""
        return changed(word, self.changes(len(word), count))

    def opening(self) -> str:
        """A line that opens a station over some mender."""
        return call("open", self.mender())

    def build(self, mode: int, length: int, room: object = "", mac_octets: int = MAC_OCTETS) -> str:
        """A line that builds a frame."""
        mac, body = octets_text(self.octets(mac_octets)), octets_text(self.body(length))
        line = call("build", mode, self.randrange(2), mac, body)
        return line if room == "" else call(line, room)
