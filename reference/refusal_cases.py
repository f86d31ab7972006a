"""Generated builds and reads for the refusals: door, preamble, header and payload."""

from __future__ import annotations

from typing import Dict, List, NamedTuple, Optional, Tuple

from damage import flip, flip_payload, payload_spot, with_code, with_header
from dealer import MOSTLY_ONE, Dealer, Sample, call, read_line
from frame import (
    CODE_CHIPS,
    CODES,
    MODES,
    PhyHeader,
    group_codes,
    header_word,
    inverted,
    payload_start,
    word_count,
)
from read_cases import damage_header, damage_word, near_reach, opened_reach, word_places
from words import PARITY_OCTETS, parity

# The door


class DoorBuild(NamedTuple):
    """A build for the door: its mode, octets of MAC header and body, and the room."""

    mode: int
    mac: int
    length: int
    room: object = ""


class DoorRead(NamedTuple):
    """A read for the door: n, how many chips, rooms, and places of chips above 1."""

    n: int
    size: int
    rooms: Tuple[int, ...] = ()
    places: Tuple[int, ...] = ()


DOOR_BUILDS = (
    DoorBuild(0, 10, 0),
    DoorBuild(8, 10, 1),
    DoorBuild(255, 10, 0),
    DoorBuild(1, 9, 0),
    DoorBuild(1, 11, 0),
    DoorBuild(7, 0, 0),
    DoorBuild(1, 10, 2049),
    DoorBuild(6, 10, 2050, 1000000),
    DoorBuild(7, 10, 3000),
    DoorBuild(1, 10, 0, 6655),
    DoorBuild(1, 10, 1, 7167),
    DoorBuild(1, 10, 224, 8703),
    DoorBuild(1, 10, 225, 9215),
    DoorBuild(6, 10, 2048, 50175),
    DoorBuild(2, 10, 5, 0),
    DoorBuild(0, 9, 2049, 0),
    DoorBuild(8, 10, 2049, 0),
    DoorBuild(3, 11, 2049, 0),
    DoorBuild(4, 9, 3, 0),
    DoorBuild(5, 10, 2049, 0),
)
DOOR_READS = (
    DoorRead(0, 0),
    DoorRead(5, 0),
    DoorRead(255, 0),
    DoorRead(0, 0, (0, 0)),
    DoorRead(5, 6656, (2047, 9)),
    DoorRead(1, 0, (2047, 10)),
    DoorRead(1, 0, (2048, 9)),
    DoorRead(1, 0, (2048, 11)),
    DoorRead(1, 6656, (2049, 9)),
    DoorRead(1, 6656, (3000, 11)),
    DoorRead(4, 0, (0, 0)),
    DoorRead(2, 1, (2047, 11), (0,)),
    DoorRead(1, 0),
    DoorRead(1, 6655),
    DoorRead(2, 6656),
    DoorRead(2, 9215),
    DoorRead(3, 11775),
    DoorRead(4, 14335),
    DoorRead(1, 6655, (2049, 10), (9,)),
    DoorRead(1, 65537),
    DoorRead(4, 65537, (3000, 10), (0,)),
    DoorRead(1, 6656, (), (9,)),
    DoorRead(1, 6656, (2049, 10), (0,)),
    DoorRead(1, 6656, (), (6655,)),
    DoorRead(1, 6657, (2047, 10), (6656,)),
    DoorRead(1, 6700, (), (6699,)),
    DoorRead(1, 6700, (3000, 10), (2500, 2501, 6000)),
    DoorRead(2, 9216, (), (4700,)),
)


def door_build(dealer: Dealer, card: DoorBuild) -> str:
    """A build that the door turns down."""
    return dealer.build(card.mode, card.length, card.room, card.mac)


def door_read(dealer: Dealer, card: DoorRead) -> str:
    """A read that the door turns down."""
    chips = dealer.window(card.n if 1 <= card.n <= 4 else 1, card.size)
    for place in card.places:
        chips[place] = dealer.randint(2, 9)
    return read_line(card.n, chips, *card.rooms)


def door_group(dealer: Dealer) -> List[str]:
    """Builds and reads that the door turns down, and a question about them."""
    lines = [dealer.opening()]
    lines += [door_build(dealer, dealer.deal("door build", DOOR_BUILDS)) for _ in range(3)]
    lines += [door_read(dealer, dealer.deal("door read", DOOR_READS)) for _ in range(4)]
    return lines + [call("refusal", dealer.deal("door refusal", range(1, 9)))]


# The preamble

OTHER_CODES: Dict[str, List[int]] = {**CODES, "dark": [0] * CODE_CHIPS, "lit": [1] * CODE_CHIPS}


class PreambleCard(NamedTuple):
    """What is changed: code k (from 0) by a count of chips or to a name, mode, or channels."""

    what: str
    k: int = 0
    count: int = 0
    name: str = ""


PREAMBLE_CARDS = (
    *(PreambleCard("wrong", k, count) for k in range(4) for count in (30, 31, 32, 33)),
    *(PreambleCard("toward", k, count) for k in range(4) for count in (31, 32, 33)),
    *(PreambleCard("code", k, 0, name) for k in range(4) for name in OTHER_CODES),
    *(PreambleCard("two", k, 0, name) for k in range(4) for name in ("-b", "dark")),
    *(PreambleCard("mode", count=mode) for mode in MODES),
    *(PreambleCard("channels", count=n) for n in (1, 2, 3, 4)),
    PreambleCard("minus"),
)


def wrong_code(dealer: Dealer, name: str, count: int, other: List[int]) -> List[int]:
    """A code with a count of chips inverted in which another code differs."""
    code = list(CODES[name])
    places = [i for i in range(CODE_CHIPS) if code[i] != other[i]]
    flip(code, dealer.sample(places, count))
    return code


def changed_codes(dealer: Dealer, sample: Sample, card: PreambleCard) -> Dict[int, List[int]]:
    """The codes of the first SFD group that a card changes, by their place."""
    if card.what == "minus":
        return {k: CODES["-a"] for k in (1, 2, 3)}
    if card.what == "mode":
        return {k: CODES[group_codes(card.count)[k]] for k in (1, 2, 3)}
    if card.what in ("code", "two"):
        codes = {card.k: OTHER_CODES[card.name]}
        if card.what == "two":
            codes[dealer.randrange(4)] = OTHER_CODES[dealer.choice(("a", "b", "-b", "dark"))]
        return codes
    name = group_codes(sample.mode)[card.k]
    other = inverted(CODES[name])
    if card.what == "toward":
        other = CODES[dealer.choice(("b", "-b"))]
    return {card.k: wrong_code(dealer, name, card.count, other)}


def preamble_line(dealer: Dealer, sample: Sample, card: PreambleCard) -> str:
    """A read of a frame with its first SFD group changed, or for other channels."""
    chips, n = sample.chips(), sample.n
    if card.what == "channels":
        missing = max(0, payload_start(card.count) - len(chips))
        return read_line(card.count, chips + dealer.chips(missing))
    for k, code in changed_codes(dealer, sample, card).items():
        chips = with_code(chips, n, k, code)
    return read_line(n, chips)


def preamble_group(dealer: Dealer) -> List[str]:
    """Reads with wrong chips in the codes of the first SFD group."""
    lines = [dealer.opening()]
    sample = dealer.frame(dealer.deal("preamble mode", MOSTLY_ONE), dealer.randrange(2))
    for _ in range(5):
        lines.append(preamble_line(dealer, sample, dealer.deal("preamble", PREAMBLE_CARDS)))
    return lines + [call("refusal", dealer.deal("preamble refusal", range(9, 14)))]


# The header


class HeaderCard(NamedTuple):
    """Fields of a header, and a change to an octet of its message behind the check."""

    length: Optional[int] = None
    reserved: int = 0
    octet: int = 0
    change: int = 0


HEADER_CARDS = (
    *(HeaderCard(octet=octet, change=1 << bit) for octet in (14, 15) for bit in (0, 3, 7)),
    *(HeaderCard(octet=octet, change=2) for octet in (0, 1, 2, 4, 13)),
    *(HeaderCard(reserved=reserved) for reserved in (1, 2, 4, 8, 15)),
    *(HeaderCard(length=length) for length in (2049, 2050, 4096, 2**23 - 1)),
    HeaderCard(2049, 1),
    HeaderCard(2**23 - 1, 15),
    HeaderCard(2049, 3, 15, 1),
    HeaderCard(2049, 0, 2, 1),
    HeaderCard(2048),
    HeaderCard(0),
    HeaderCard(1),
    HeaderCard(5),
    HeaderCard(),
)


def crafted_header(sample: Sample, card: HeaderCard) -> List[int]:
    """A header word with a right parity and the fields of a card."""
    length = sample.length if card.length is None else card.length
    phy = PhyHeader(sample.seed, sample.aggregation, length, card.reserved)
    message = header_word(phy, sample.mac)[:-PARITY_OCTETS]
    message[card.octet] ^= card.change
    return message + parity(message)


def header_window(dealer: Dealer, sample: Sample) -> List[int]:
    """A frame with a header word that is a codeword but not always lawful."""
    word = crafted_header(sample, dealer.deal("header", HEADER_CARDS))
    return with_header(sample.chips(), sample.n, word)


def header_group(dealer: Dealer) -> List[str]:
    """Reads with header words that are not lawful, some damaged too."""
    lines, reach = opened_reach(dealer)
    for _ in range(4):
        sample = dealer.short_frame()
        chips = header_window(dealer, sample)
        if dealer.randrange(3) == 0:
            damage_header(dealer, chips, sample.n, near_reach(dealer, reach))
        lines.append(read_line(sample.n, chips))
    return lines + [call("refusal", dealer.deal("header refusal", range(14, 18)))]


# The payload


def replace_word(dealer: Dealer, chips: List[int], sample: Sample, k: int) -> None:
    """Puts another codeword in place of body word k."""
    places = word_places(sample.length, k)
    word = dealer.codeword(len(places) - PARITY_OCTETS)
    for place, octet in zip(places, word):
        found = sum(chips[payload_spot(sample.mode, 8 * place + i)] << i for i in range(8))
        flip_payload(chips, sample.mode, place, found ^ octet)


def payload_window(dealer: Dealer, sample: Sample, reach: int) -> List[int]:
    """A frame that is cut, or has body words beyond the reach, or another codeword."""
    chips, words = sample.chips(), word_count(sample.length)
    what = dealer.deal("payload", ("cut", "one", "one", "two", "all", "other", "other and one"))
    if what == "cut":
        return chips[: dealer.randint(payload_start(sample.n), sample.size - 1)]
    if what.startswith("other"):
        replace_word(dealer, chips, sample, dealer.randrange(words))
    hit = {"two": min(2, words), "all": words, "other": 0}.get(what, 1)
    for k in dealer.sample(range(words), hit):
        damage_word(dealer, chips, sample, k, reach + dealer.randint(1, 2))
    return chips


def payload_group(dealer: Dealer) -> List[str]:
    """Reads with windows that end early and body words that are not mended."""
    lines, reach = opened_reach(dealer)
    for _ in range(3):
        length = dealer.deal("payload length", (1, 7, 50, 225, 240, 448, 449, 500, 673))
        sample = dealer.frame(dealer.deal("payload mode", MOSTLY_ONE), length)
        lines.append(read_line(sample.n, payload_window(dealer, sample, reach)))
    return lines + [call("refusal", dealer.deal("payload refusal", (18, 19)))]
