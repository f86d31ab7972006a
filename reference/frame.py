"""The frame as a list of chips: building it bit by bit, and reading it."""

from __future__ import annotations

from functools import lru_cache
from typing import Dict, List, NamedTuple, Optional, Sequence, Tuple

from words import LONGEST_MESSAGE, PARITY_OCTETS, parity

CODE_CHIPS = 128
HEADER_CHIPS = 4096
HEADER_OCTETS = 32
MAC_OCTETS = 10
LONGEST_BODY = 2048
BLOCK_BITS = 508
BODY_START = 96  # scrambler position of the first body bit
CODE_ERRORS = 31  # most differing chips of a readable code
SEQUENCE_BITS = 18000  # beyond the last stuff bit of the longest frame


class Mode(NamedTuple):
    """Signs of SFD2 to SFD4, bonded channels and spreading factor."""

    signs: str
    channels: int
    spread: int


MODES: Dict[int, Mode] = {
    1: Mode("+++", 1, 1),
    2: Mode("++-", 2, 2),
    3: Mode("+-+", 2, 1),
    4: Mode("+--", 3, 2),
    5: Mode("-++", 3, 1),
    6: Mode("-+-", 4, 2),
    7: Mode("--+", 4, 1),
}


class PhyHeader(NamedTuple):
    """The fields of the PHY header."""

    seed: int
    aggregation: bool
    length: int
    reserved: int = 0


# Bits and octets


def octet_bits(octets: Sequence[int]) -> List[int]:
    """The bits of octets in line order, lowest bit first."""
    return [octet >> i & 1 for octet in octets for i in range(8)]


def bit_octets(bits: Sequence[int]) -> List[int]:
    """Octets filled lowest bit first; the number of bits is a multiple of 8."""
    return [
        sum(bits[start + i] << i for i in range(8)) for start in range(0, len(bits), 8)
    ]


# Sequences


def recurrence(start: Sequence[int], count: int) -> Tuple[int, ...]:
    """t(j) = t(j-14) + t(j-15) from t(-1) ... t(-15)."""
    row = list(reversed(start))  # row[j + 15] is t(j)
    for j in range(count):
        row.append(row[j + 15 - 14] ^ row[j + 15 - 15])
    return tuple(row[15:])


@lru_cache(maxsize=None)
def scrambler(seed: int) -> Tuple[int, ...]:
    """The scrambler sequence x of a seed, from x(0)."""
    seed_bits = [seed >> 3 & 1, seed >> 2 & 1, seed >> 1 & 1, seed & 1]
    return recurrence([1, 1, 0, 1, 0, 0, 0, 0, 1, 0, 1] + seed_bits, SEQUENCE_BITS)


@lru_cache(maxsize=None)
def spreader() -> Tuple[int, ...]:
    """The spreader sequence y, from y(0), one bit for each header chip."""
    return recurrence([0, 1, 0, 1, 0, 0, 0, 0, 0, 0, 1, 1, 1, 1, 1], HEADER_CHIPS)


def scrambled(octets: Sequence[int], seed: int, start: int) -> List[int]:
    """Octets scrambled from x(start) on; doing it twice restores them."""
    x = scrambler(seed)
    bits = octet_bits(octets)
    return bit_octets([bit ^ x[start + i] for i, bit in enumerate(bits)])


# Preamble


def code_of(number: int) -> List[int]:
    """The 128 chips of a number, leftmost bit first."""
    return [number >> (CODE_CHIPS - 1 - i) & 1 for i in range(CODE_CHIPS)]


def inverted(chips: Sequence[int]) -> List[int]:
    """Every chip inverted."""
    return [1 - chip for chip in chips]


CODE_A = code_of(0x0536635005C963AFFAC99CAF05C963AF)
CODE_B = code_of(0x0A396C5F0AC66CA0F5C693A00AC66CA0)
CODES: Dict[str, List[int]] = {
    "a": CODE_A,
    "-a": inverted(CODE_A),
    "b": CODE_B,
    "-b": inverted(CODE_B),
}


def group_codes(mode: int) -> List[str]:
    """The names of SFD1 to SFD4 of a mode."""
    return ["-a"] + ["a" if sign == "+" else "-a" for sign in MODES[mode].signs]


def preamble(mode: int) -> List[int]:
    """SYNC and the SFD groups."""
    n = MODES[mode].channels
    group = [chip for name in group_codes(mode) for chip in CODES[name]]
    return CODE_A * (16 * n) + group * n


# Header


def phy_octets(phy: PhyHeader) -> List[int]:
    """The four octets of the PHY header, the lowest first."""
    number = phy.seed | int(phy.aggregation) << 4 | phy.length << 5 | phy.reserved << 28
    return [number >> shift & 0xFF for shift in (0, 8, 16, 24)]


def phy_fields(octets: Sequence[int]) -> PhyHeader:
    """The fields of four PHY header octets."""
    number = sum(octet << 8 * i for i, octet in enumerate(octets))
    return PhyHeader(
        number & 0xF, bool(number >> 4 & 1), number >> 5 & 0x7FFFFF, number >> 28
    )


def header_check(octets: Sequence[int]) -> List[int]:
    """The header check sequence of octets, as the two octets sent."""
    bits = octet_bits(octets)
    value = 0
    for bit in bits:
        value = value << 1 | bit
    value = value << 16 ^ 0xFFFF << len(bits)
    for degree in range(len(bits) + 15, 15, -1):
        if value >> degree & 1:
            value ^= 0x11021 << (degree - 16)
    return bit_octets([1 - (value >> i & 1) for i in range(15, -1, -1)])


def header_word(phy: PhyHeader, mac: Sequence[int]) -> List[int]:
    """The 32 octets of the header word."""
    plain = phy_octets(phy)
    check = header_check(plain + list(mac))
    message = plain + scrambled(list(mac) + check, phy.seed, 0)
    return message + parity(message)


def header_chips(word: Sequence[int]) -> List[int]:
    """Each bit of the header word as 16 chips."""
    y = spreader()
    bits = octet_bits(word)
    return [bit ^ y[16 * i + j] for i, bit in enumerate(bits) for j in range(16)]


# Payload


def word_count(length: int) -> int:
    """How many words carry a body."""
    return -(-length // LONGEST_MESSAGE)


def coded_octets(length: int) -> int:
    """Octets of all words of a body."""
    return length + PARITY_OCTETS * word_count(length)


def block_count(length: int) -> int:
    """How many blocks carry the words of a body."""
    return -(-8 * coded_octets(length) // BLOCK_BITS)


def body_words(body: Sequence[int], seed: int) -> List[List[int]]:
    """The words of a body: scrambled messages with their parities."""
    row = scrambled(body, seed, BODY_START)
    starts = range(0, len(row), LONGEST_MESSAGE)
    messages = [row[start:start + LONGEST_MESSAGE] for start in starts]
    return [message + parity(message) for message in messages]


def stuff_bits(length: int, seed: int) -> List[int]:
    """The scrambler's bits behind the body, up to the end of the last block."""
    count = BLOCK_BITS * block_count(length) - 8 * coded_octets(length)
    start = BODY_START + 8 * length
    return list(scrambler(seed)[start:start + count])


def payload_bits(body: Sequence[int], seed: int) -> List[int]:
    """The bits of all words in line order, and the stuff bits."""
    bits = [bit for word in body_words(body, seed) for bit in octet_bits(word)]
    return bits + stuff_bits(len(body), seed)


def pilots(spread: int) -> List[int]:
    """The chips behind each block."""
    return [bit for bit in (1, 0, 1, 0) for _ in range(spread)]


def payload_chips(bits: Sequence[int], spread: int) -> List[int]:
    """Blocks with their pilots."""
    chips: List[int] = []
    for start in range(0, len(bits), BLOCK_BITS):
        for bit in bits[start:start + BLOCK_BITS]:
            chips += [bit] * spread
        chips += pilots(spread)
    return chips


# The whole frame


def header_start(n: int) -> int:
    """The first chip of the header."""
    return 2560 * n


def payload_start(n: int) -> int:
    """The first chip of the payload."""
    return header_start(n) + HEADER_CHIPS


def block_start(mode: int, block: int) -> int:
    """The first chip of a block, from 0."""
    return payload_start(MODES[mode].channels) + 512 * MODES[mode].spread * block


def frame_length(mode: int, length: int) -> int:
    """How many chips a frame has."""
    return block_start(mode, block_count(length))


def frame_chips(
    mode: int, seed: int, aggregation: bool, mac: Sequence[int], body: Sequence[int]
) -> List[int]:
    """The chips of a frame."""
    word = header_word(PhyHeader(seed, aggregation, len(body)), mac)
    payload = payload_chips(payload_bits(body, seed), MODES[mode].spread)
    return preamble(mode) + header_chips(word) + payload


# Reading


def read_code(chips: Sequence[int]) -> Optional[str]:
    """The code that differs from 128 chips in at most 31, if any."""
    for name, code in CODES.items():
        if sum(c != d for c, d in zip(chips, code)) <= CODE_ERRORS:
            return name
    return None


def read_codes(n: int, window: Sequence[int]) -> List[Optional[str]]:
    """The four codes of the first SFD group."""
    starts = [2048 * n + CODE_CHIPS * k for k in range(4)]
    return [read_code(window[start:start + CODE_CHIPS]) for start in starts]


def mode_of_codes(codes: Sequence[Optional[str]]) -> Optional[int]:
    """The mode that SFD2 to SFD4 tell, if any."""
    for mode in MODES:
        if group_codes(mode)[1:] == list(codes[1:]):
            return mode
    return None


def read_header_word(n: int, window: Sequence[int]) -> List[int]:
    """The header word, each bit by majority of its 16 chips."""
    y, start, bits = spreader(), header_start(n), []
    for i in range(8 * HEADER_OCTETS):
        ones = sum(window[start + 16 * i + j] ^ y[16 * i + j] for j in range(16))
        bits.append(1 if ones >= 9 else 0)
    return bit_octets(bits)


def payload_bit(mode: int, window: Sequence[int], k: int) -> int:
    """Payload bit k; with two chips a bit, the first of them."""
    block, bit = divmod(k, BLOCK_BITS)
    return window[block_start(mode, block) + MODES[mode].spread * bit]


def read_body_word(mode: int, window: Sequence[int], length: int, k: int) -> List[int]:
    """Body word k, from 0, of a body of a length."""
    octets = min(LONGEST_MESSAGE, length - LONGEST_MESSAGE * k) + PARITY_OCTETS
    start = 8 * (LONGEST_MESSAGE + PARITY_OCTETS) * k
    bits = [payload_bit(mode, window, start + i) for i in range(8 * octets)]
    return bit_octets(bits)


def plain_mac_and_check(word: Sequence[int]) -> Tuple[List[int], List[int]]:
    """The MAC header and the check sequence of a header word, unscrambled."""
    seed = phy_fields(word[:4]).seed
    plain = scrambled(word[4:16], seed, 0)
    return plain[:MAC_OCTETS], plain[MAC_OCTETS:]


def check_is_right(word: Sequence[int]) -> bool:
    """True when the header word carries the check sequence of its headers."""
    mac, check = plain_mac_and_check(word)
    return check == header_check(list(word[:4]) + mac)


def plain_body(words: Sequence[Sequence[int]], seed: int) -> List[int]:
    """The body of its words, unscrambled."""
    row = [octet for word in words for octet in word[:-PARITY_OCTETS]]
    return scrambled(row, seed, BODY_START)
