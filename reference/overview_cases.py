"""Generated groups that reach every mode, refusal and cause once, with few chips."""

from __future__ import annotations

from typing import List, Tuple

from damage import with_header
from dealer import Dealer, call, read_line
from frame import MODES, block_start
from notation import octets_text
from read_cases import damage_header, damage_word
from refusal_cases import (
    DoorBuild,
    DoorRead,
    HeaderCard,
    PreambleCard,
    crafted_header,
    door_build,
    door_read,
    preamble_line,
)
from run_cases import part_window
from station import LONGEST_WINDOW
from word_cases import accept_line, word_of

DOOR_BUILD_ROWS = (
    DoorBuild(0, 10, 0),
    DoorBuild(1, 9, 0),
    DoorBuild(1, 10, 2049),
    DoorBuild(1, 10, 0, 6655),
)
DOOR_READ_ROWS = (
    DoorRead(5, 0),
    DoorRead(1, 0, (2047, 10)),
    DoorRead(1, 6655),
    DoorRead(1, 6656, (), (9,)),
)
PREAMBLE_ROWS = (
    PreambleCard("code", 1, 0, "dark"),
    PreambleCard("code", 0, 0, "a"),
    PreambleCard("code", 0, 0, "-b"),
    PreambleCard("minus"),
    PreambleCard("mode", count=3),
)
HEADER_ROWS = (HeaderCard(octet=15, change=1), HeaderCard(reserved=1), HeaderCard(length=2049))
CAUSES = ("none", "nine", "outside", "twice", "zero", "wrong", "right")


def build_modes(dealer: Dealer) -> List[str]:
    """A build in every mode."""
    return [dealer.opening()] + [dealer.build(mode, dealer.randrange(4)) for mode in MODES]


def read_modes(dealer: Dealer) -> List[str]:
    """A read in every mode."""
    samples = [dealer.frame(mode, dealer.randrange(4)) for mode in MODES]
    return [dealer.opening()] + [read_line(sample.n, sample.chips()) for sample in samples]


def door_rows(dealer: Dealer) -> List[str]:
    """Refusals 1 to 8."""
    builds = [door_build(dealer, card) for card in DOOR_BUILD_ROWS]
    return [dealer.opening()] + builds + [door_read(dealer, card) for card in DOOR_READ_ROWS]


def preamble_rows(dealer: Dealer) -> List[str]:
    """Refusals 9 to 13, and a code with 31 and with 32 wrong chips."""
    sample = dealer.frame(1, 0)
    edges = [PreambleCard("wrong", dealer.randrange(4), count) for count in (31, 32)]
    cards = [*PREAMBLE_ROWS, *edges]
    return [dealer.opening()] + [preamble_line(dealer, sample, card) for card in cards]


def header_rows(dealer: Dealer) -> List[str]:
    """Refusals 14 to 17."""
    sample = dealer.frame(1, 0)
    chips = sample.chips()
    damage_header(dealer, chips, 1, 2)
    windows = [chips]
    for card in HEADER_ROWS:
        windows.append(with_header(sample.chips(), 1, crafted_header(sample, card)))
    return ["open single"] + [read_line(1, window) for window in windows]


def payload_rows(dealer: Dealer) -> List[str]:
    """Refusals 18 and 19."""
    sample = dealer.frame(1, 1)
    chips = sample.chips()
    damage_word(dealer, chips, sample, 0, 1)
    return ["open still", read_line(1, sample.chips()[:-1]), read_line(1, chips)]


def coder_edges(dealer: Dealer) -> List[str]:
    """Refusal 20, and messages and words at the edges of their lengths."""
    messages = [octets_text(dealer.octets(length)) for length in (0, 1, 224, 225)]
    words = [octets_text(word_of(dealer, length)) for length in (16, 17, 240, 241)]
    return [call("encode", text) for text in messages] + [call("codeword", text) for text in words]


def causes(dealer: Dealer) -> List[str]:
    """Causes 1 to 6, and changes that are accepted."""
    return [accept_line(dealer, name) for name in CAUSES]


def asked(dealer: Dealer) -> List[str]:
    """A mended read and a refused one, and questions about them."""
    sample = dealer.frame(1, 0)
    chips = sample.chips()
    damage_header(dealer, chips, 1, dealer.randint(1, 8))
    questions = ["mode 1", "mode 2", "refusal 5", "refusal 7"]
    return ["open full", read_line(1, chips), "read 5 -", *questions]


def block_edges(dealer: Dealer) -> List[str]:
    """The first block of windows that end with it, or one chip before."""
    sizes = [(mode, block_start(mode, 1) - short) for mode in (1, 2) for short in (0, 1)]
    return [call("block", mode, 0, part_window(dealer, size)) for mode, size in sizes]


def window_edges(dealer: Dealer) -> List[str]:
    """Reads of the longest window, and of one that is a chip longer."""
    chips = dealer.frame(1, 5).chips()
    chips += dealer.chips(LONGEST_WINDOW + 1 - len(chips))
    return [dealer.opening(), read_line(1, chips[:-1]), read_line(1, chips)]


def overview(dealer: Dealer) -> List[Tuple[str, List[str]]]:
    """The groups with their kinds."""
    return [
        ("build", build_modes(dealer)),
        ("read", read_modes(dealer)),
        ("door", door_rows(dealer)),
        ("preamble", preamble_rows(dealer)),
        ("header", header_rows(dealer)),
        ("payload", payload_rows(dealer)),
        ("parts", block_edges(dealer)),
        ("coder", coder_edges(dealer)),
        ("accept", causes(dealer)),
        ("questions", asked(dealer)),
    ]
