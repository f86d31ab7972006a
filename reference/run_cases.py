"""Generated runs of calls at one station, questions about them, and parts of windows."""

from __future__ import annotations

from typing import List

from dealer import Dealer, call, read_line
from frame import block_start, payload_start
from notation import chips_text
from read_cases import damaged_window, opened_reach
from refusal_cases import (
    PREAMBLE_CARDS,
    DoorBuild,
    DoorRead,
    door_build,
    door_read,
    header_window,
    preamble_line,
)
from station import LONGEST_WINDOW

CHEAP_BUILDS = (
    DoorBuild(0, 10, 0),
    DoorBuild(8, 10, 3),
    DoorBuild(1, 9, 0),
    DoorBuild(1, 10, 2049),
    DoorBuild(1, 10, 0, 6655),
)
CHEAP_READS = (
    DoorRead(0, 0),
    DoorRead(5, 2),
    DoorRead(1, 0, (2047, 10)),
    DoorRead(2, 0, (2048, 9)),
    DoorRead(4, 0),
)


def cheap_refusal(dealer: Dealer) -> str:
    """A short call that the door turns down."""
    if dealer.randrange(2) == 0:
        return door_build(dealer, dealer.deal("cheap build", CHEAP_BUILDS))
    return door_read(dealer, dealer.deal("cheap read", CHEAP_READS))


def questions() -> List[str]:
    """Questions about all modes and refusals, and their neighbours."""
    modes = [call("mode", mode) for mode in range(9)]
    return modes + [call("refusal", number) for number in range(21)]


def seed_run_group(dealer: Dealer) -> List[str]:
    """More than 16 builds at one station, with other calls between them, and all questions."""
    lines = [dealer.opening()]
    for k in range(dealer.randint(17, 20)):
        if dealer.randrange(4) == 0:
            lines.append(cheap_refusal(dealer))
        if k == 8:
            lines.append(read_line(1, dealer.frame(1, 0).chips()))
        lines.append(dealer.build(1 if dealer.randrange(10) else 3, dealer.randrange(3)))
    return lines + questions() + [dealer.opening(), dealer.build(1, 0), "refusal 1"]


def run_call(dealer: Dealer, reach: int) -> str:
    """A call of a run that is asked about: a cheap refusal, or a read of a small frame."""
    what = dealer.deal("run call", ("cheap",) * 5 + ("preamble", "header") + ("damaged",) * 3)
    if what == "cheap":
        return cheap_refusal(dealer)
    sample = dealer.frame(dealer.deal("run mode", (1, 1, 1, 1, 1, 1, 2, 3)), dealer.randrange(2))
    if what == "preamble":
        return preamble_line(dealer, sample, dealer.deal("preamble", PREAMBLE_CARDS))
    if what == "header":
        return read_line(sample.n, header_window(dealer, sample))
    return read_line(sample.n, damaged_window(dealer, sample, reach))


def questions_group(dealer: Dealer) -> List[str]:
    """A run of calls, and all questions about it."""
    lines, reach = opened_reach(dealer)
    lines += [run_call(dealer, reach) for _ in range(dealer.deal("run", (0, 8, 12, 16, 24)))]
    return lines + questions() + ["mode 255", "refusal 255"]


# Parts of windows


def part_window(dealer: Dealer, size: int) -> str:
    """A window of chips at random, at times with one above 1."""
    chips = dealer.chips(size)
    if chips and dealer.randrange(3) == 0:
        chips[dealer.randrange(size)] = dealer.randint(2, 9)
    return chips_text(chips)


def header_part(dealer: Dealer) -> str:
    """A call for the header's part."""
    n = dealer.deal("part n", (0, 1, 1, 1, 2, 3, 4, 5, 255))
    if not 1 <= n <= 4:
        return call("header", n, part_window(dealer, dealer.randrange(5)))
    start = payload_start(n)
    sizes = (0, start - 1, start, start, start + 1, start + 600, LONGEST_WINDOW, LONGEST_WINDOW + 1)
    size = sizes[dealer.deal("header size", range(len(sizes)))]
    return call("header", n, part_window(dealer, size))


def block_part(dealer: Dealer) -> str:
    """A call for a block's part, at the edges of the window."""
    mode = dealer.deal("part mode", (1, 1, 1, 2, 3, 4, 5, 6, 7))
    blocks = dealer.deal("part blocks", (0, 1, 1, 2, 3))
    size = block_start(mode, blocks) + dealer.deal("part offset", (0, 0, 0, 1, -1))
    last = max(0, blocks - 1)
    numbers = (0, last, last, blocks, 65535)
    number = numbers[dealer.deal("part number", range(len(numbers)))]
    return call("block", mode, number, part_window(dealer, size))


def parts_group(dealer: Dealer) -> List[str]:
    """Parts of windows and their refusals."""
    lines = [header_part(dealer), block_part(dealer), block_part(dealer)]
    mode, number, size = dealer.deal("part refusal", (
        (0, 0, 10), (8, 0, 0), (255, 65535, 6656), (1, 0, 6655), (7, 0, 14335),
        (1, 0, 65537), (1, 114, 65536), (1, 115, 65536),
    ))
    return lines + [call("block", mode, number, part_window(dealer, size))]
