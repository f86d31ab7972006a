"""Places of chips in frames, and changes to the chips of a frame."""

from __future__ import annotations

from typing import Iterable, List, Sequence

from frame import (
    BLOCK_BITS,
    CODE_CHIPS,
    HEADER_CHIPS,
    MODES,
    block_count,
    block_start,
    coded_octets,
    header_chips,
    header_start,
)


def flip(chips: List[int], spots: Iterable[int]) -> None:
    """Inverts chips."""
    for spot in spots:
        chips[spot] ^= 1


def flip_header(chips: List[int], n: int, octet: int, value: int) -> None:
    """Inverts all chips of the header word's bits that are set in a value."""
    for i in range(8):
        if value >> i & 1:
            start = header_start(n) + 16 * (8 * octet + i)
            flip(chips, range(start, start + 16))


def payload_spot(mode: int, k: int) -> int:
    """The first chip of payload bit k."""
    block, bit = divmod(k, BLOCK_BITS)
    return block_start(mode, block) + MODES[mode].spread * bit


def flip_payload(chips: List[int], mode: int, octet: int, value: int) -> None:
    """Inverts the first chip of a payload octet's bits that are set in a value."""
    flip(chips, [payload_spot(mode, 8 * octet + i) for i in range(8) if value >> i & 1])


def with_code(chips: Sequence[int], n: int, k: int, code: Sequence[int]) -> List[int]:
    """Chips with another code k in the first SFD group."""
    start = 2048 * n + CODE_CHIPS * k
    return list(chips[:start]) + list(code) + list(chips[start + CODE_CHIPS:])


def with_header(chips: Sequence[int], n: int, word: Sequence[int]) -> List[int]:
    """Chips with another header word."""
    start = header_start(n)
    return list(chips[:start]) + header_chips(word) + list(chips[start + HEADER_CHIPS:])


# Chips that are not judged


def sync_spots(mode: int) -> List[int]:
    """The chips of SYNC."""
    return list(range(2048 * MODES[mode].channels))


def later_group_spots(mode: int) -> List[int]:
    """The chips of the SFD groups behind the first."""
    n = MODES[mode].channels
    return list(range(2048 * n + 512, 2560 * n))


def pilot_spots(mode: int, length: int) -> List[int]:
    """The chips behind each block of a frame with a body of a length."""
    spots: List[int] = []
    for block in range(block_count(length)):
        start, end = block_start(mode, block), block_start(mode, block + 1)
        spots += range(start + BLOCK_BITS * MODES[mode].spread, end)
    return spots


def stuff_spots(mode: int, length: int) -> List[int]:
    """The chips of the stuff bits of a frame with a body of a length."""
    bits = range(8 * coded_octets(length), BLOCK_BITS * block_count(length))
    return [payload_spot(mode, k) + j for k in bits for j in range(MODES[mode].spread)]


def unjudged_spots(mode: int, length: int) -> List[int]:
    """All chips of a frame that are not judged, but for second chips of pairs."""
    in_preamble = sync_spots(mode) + later_group_spots(mode)
    return in_preamble + pilot_spots(mode, length) + stuff_spots(mode, length)
