"""The station: builds frames, reads windows, keeps a tally."""

from __future__ import annotations

from typing import Dict, List, NamedTuple, Optional, Sequence, Tuple, Union

from frame import (
    BLOCK_BITS,
    HEADER_CHIPS,
    LONGEST_BODY,
    MAC_OCTETS,
    MODES,
    PhyHeader,
    block_start,
    check_is_right,
    frame_chips,
    frame_length,
    header_start,
    mode_of_codes,
    payload_start,
    phy_fields,
    plain_body,
    plain_mac_and_check,
    read_body_word,
    read_codes,
    read_header_word,
    word_count,
)
from words import Mender, Refusal, mend

LONGEST_WINDOW = 65536
COUNT_END = 4294967295
LAST_COUNTED = 19

LAYERS = (
    ("door", range(1, 9)),
    ("preamble", range(9, 14)),
    ("header", range(14, 18)),
    ("payload", range(18, 20)),
)


class Built(NamedTuple):
    """The seed used and how many chips were written."""

    seed: int
    chips: int


class Delivery(NamedTuple):
    """The fields of a frame that was read, and how many octets were mended."""

    mode: int
    seed: int
    aggregation: bool
    length: int
    mended: int


class Delivered(NamedTuple):
    """Windows delivered in a mode, and octets mended in them."""

    windows: int
    mended: int


class Part(NamedTuple):
    """A part of a window with the place of its first chip."""

    place: int
    chips: List[int]


class Header(NamedTuple):
    """A header word that was read, and how many octets were mended."""

    word: List[int]
    phy: PhyHeader
    mended: int


def refusal(number: int, place: int = 0, cause: Optional[int] = None) -> Refusal:
    """A refusal with the layer of its number."""
    layer = next(name for name, numbers in LAYERS if number in numbers)
    return Refusal(number, layer, place, cause)


def raised(count: int, by: int) -> int:
    """A count raised; it stops at the counter's end."""
    return min(COUNT_END, count + by)


# Rows 1 to 8


def window_fits_channels(n: int, window: Sequence[int]) -> bool:
    """True when the window is long enough for a header and not too long."""
    return payload_start(n) <= len(window) <= LONGEST_WINDOW


def build_refusal(
    mode: int, mac: Sequence[int], body: Sequence[int], chips: Sequence[int]
) -> Optional[Refusal]:
    """The first of rows 1 to 4 that applies."""
    if mode not in MODES:
        return refusal(1)
    if len(mac) != MAC_OCTETS:
        return refusal(2)
    if len(body) > LONGEST_BODY:
        return refusal(3)
    if len(chips) < frame_length(mode, len(body)):
        return refusal(4)
    return None


def door_refusal(
    n: int, window: Sequence[int], body: Sequence[int], mac: Sequence[int]
) -> Optional[Refusal]:
    """The first of rows 5 to 8 that applies."""
    if not 1 <= n <= 4:
        return refusal(5)
    if len(body) < LONGEST_BODY or len(mac) != MAC_OCTETS:
        return refusal(6)
    if not window_fits_channels(n, window):
        return refusal(7)
    for place, chip in enumerate(window):
        if chip > 1:
            return refusal(8, place)
    return None


# Rows 9 to 19


def read_mode(n: int, window: Sequence[int]) -> Union[int, Refusal]:
    """The mode of the first SFD group, or the first of rows 9 to 13."""
    codes = read_codes(n, window)
    if None in codes:
        return refusal(9, codes.index(None) + 1)
    if codes[0] in ("a", "b"):
        return refusal(10)
    if codes[0] == "-b":
        return refusal(11)
    mode = mode_of_codes(codes)
    if mode is None:
        return refusal(12)
    return mode if MODES[mode].channels == n else refusal(13)


def read_header(mender: Mender, n: int, window: Sequence[int]) -> Union[Header, Refusal]:
    """The mended header word, or the first of rows 14 to 17."""
    word = read_header_word(n, window)
    mended = mend(mender, word)
    if mended.cause is not None:
        return refusal(14, cause=mended.cause)
    phy = phy_fields(word[:4])
    if not check_is_right(word):
        return refusal(15)
    if phy.reserved:
        return refusal(16)
    if phy.length > LONGEST_BODY:
        return refusal(17)
    return Header(word, phy, mended.count)


def read_words(
    mender: Mender, mode: int, window: Sequence[int], length: int
) -> Union[Tuple[List[List[int]], int], Refusal]:
    """The mended body words and octets mended, or the first of rows 18, 19."""
    if len(window) < frame_length(mode, length):
        return refusal(18)
    words, count = [], 0
    for k in range(word_count(length)):
        word = read_body_word(mode, window, length, k)
        mended = mend(mender, word)
        if mended.cause is not None:
            return refusal(19, k + 1, mended.cause)
        words.append(word)
        count += mended.count
    return words, count


def write_buffers(
    body: List[int], mac: List[int], new_body: Sequence[int], new_mac: Sequence[int]
) -> None:
    """Fills the first 2,048 octets of the body buffer, and the MAC buffer."""
    body[:LONGEST_BODY] = list(new_body) + [0] * (LONGEST_BODY - len(new_body))
    mac[:] = new_mac


class Station:
    """A station over a mender."""

    def __init__(self, mender: Mender) -> None:
        self.mender = mender
        self.seed = 0
        self.windows: Dict[int, int] = {mode: 0 for mode in MODES}
        self.mended: Dict[int, int] = {mode: 0 for mode in MODES}
        self.refusals: Dict[int, int] = {k: 0 for k in range(1, LAST_COUNTED + 1)}

    def build(
        self,
        mode: int,
        aggregation: bool,
        mac: Sequence[int],
        body: Sequence[int],
        chips: List[int],
    ) -> Union[Built, Refusal]:
        """Writes a frame under the station's seed to the front of the chips."""
        fault = build_refusal(mode, mac, body, chips)
        if fault is not None:
            return self._turn_down(fault)
        seed = self.seed
        frame = frame_chips(mode, seed, aggregation, mac, body)
        chips[: len(frame)] = frame
        self.seed = (seed + 1) % 16
        return Built(seed, len(frame))

    def read(
        self, n: int, window: Sequence[int], body: List[int], mac: List[int]
    ) -> Union[Delivery, Refusal]:
        """Reads a window into the body buffer and the MAC header buffer."""
        fault = door_refusal(n, window, body, mac)
        if fault is not None:
            return self._turn_down(fault)
        answer = self._read_inside(n, window, body, mac)
        if isinstance(answer, Refusal):
            write_buffers(body, mac, [], [0] * MAC_OCTETS)
            return self._turn_down(answer)
        self._count_delivery(answer)
        return answer

    def delivered(self, mode: int) -> Optional[Delivered]:
        """Windows delivered in a mode and octets mended in them."""
        if mode not in MODES:
            return None
        return Delivered(self.windows[mode], self.mended[mode])

    def refused(self, number: int) -> Optional[int]:
        """Builds and reads that a refusal turned down."""
        return self.refusals.get(number)

    def _read_inside(
        self, n: int, window: Sequence[int], body: List[int], mac: List[int]
    ) -> Union[Delivery, Refusal]:
        """Reads a window that passed the door; writes buffers on success only."""
        mode = read_mode(n, window)
        if isinstance(mode, Refusal):
            return mode
        header = read_header(self.mender, n, window)
        if isinstance(header, Refusal):
            return header
        phy = header.phy
        found = read_words(self.mender, mode, window, phy.length)
        if isinstance(found, Refusal):
            return found
        words, count = found
        write_buffers(body, mac, plain_body(words, phy.seed), plain_mac_and_check(header.word)[0])
        return Delivery(mode, phy.seed, phy.aggregation, phy.length, header.mended + count)

    def _turn_down(self, fault: Refusal) -> Refusal:
        """Counts a refusal and answers it."""
        self.refusals[fault.number] = raised(self.refusals[fault.number], 1)
        return fault

    def _count_delivery(self, delivery: Delivery) -> None:
        """Counts a delivered window and its mended octets."""
        mode = delivery.mode
        self.windows[mode] = raised(self.windows[mode], 1)
        self.mended[mode] = raised(self.mended[mode], delivery.mended)


# Parts of a window


def window_header(n: int, window: Sequence[int]) -> Union[Part, Refusal]:
    """The header chips, or the first of rows 5 and 7."""
    if not 1 <= n <= 4:
        return refusal(5)
    if not window_fits_channels(n, window):
        return refusal(7)
    start = header_start(n)
    return Part(start, list(window[start:start + HEADER_CHIPS]))


def window_block(mode: int, window: Sequence[int], block: int) -> Union[Part, Refusal, None]:
    """A block's data chips, or none, or the first of rows 1 and 7."""
    if mode not in MODES:
        return refusal(1)
    if not window_fits_channels(MODES[mode].channels, window):
        return refusal(7)
    start = block_start(mode, block)
    if block_start(mode, block + 1) > len(window):
        return None
    return Part(start, list(window[start:start + BLOCK_BITS * MODES[mode].spread]))
