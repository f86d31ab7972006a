"""Generated builds, and reads of frames that are whole, damaged or cut."""

from __future__ import annotations

from typing import List, NamedTuple, Sequence, Tuple

from damage import (
    flip,
    flip_header,
    flip_payload,
    later_group_spots,
    payload_spot,
    pilot_spots,
    stuff_spots,
    sync_spots,
    unjudged_spots,
)
from dealer import MOSTLY_ONE, Dealer, Sample, call, read_line
from frame import (
    HEADER_OCTETS,
    MODES,
    block_start,
    coded_octets,
    frame_length,
    header_start,
    octet_bits,
    payload_start,
    read_header_word,
    word_count,
)
from notation import octets_text, read_mender
from station import LONGEST_WINDOW
from words import LONGEST_MESSAGE, PARITY_OCTETS

WORD_OCTETS = LONGEST_MESSAGE + PARITY_OCTETS


# Lawful frames


def build_group(dealer: Dealer) -> List[str]:
    """Builds of frames into chip buffers with enough room or one chip less."""
    lines = [dealer.opening()]
    for _ in range(3):
        mode, length = dealer.frame_size()
        least = frame_length(mode, length)
        rooms = ("", "", "", "", least, least + 1, least + 700, least - 1, 1000000)
        lines.append(dealer.build(mode, length, rooms[dealer.deal("chip room", range(len(rooms)))]))
    return lines


def tail(dealer: Dealer, size: int) -> List[int]:
    """Chips that follow a frame of a size in its window."""
    cards = ("none",) * 5 + ("one", "block", "some", "some", "some", "most", "over")
    counts = {
        "none": 0,
        "one": 1,
        "block": 512,
        "some": dealer.randint(2, 1500),
        "most": LONGEST_WINDOW - size,
        "over": LONGEST_WINDOW + 1 - size,
    }
    return dealer.chips(counts[dealer.deal("tail", cards)])


def round_trip(dealer: Dealer, mode: int, length: int) -> List[str]:
    """The first build of a station, and a read of what it builds."""
    sample = dealer.frame(mode, length)._replace(seed=0)
    mac, body = octets_text(sample.mac), octets_text(sample.body)
    build = call("build", mode, int(sample.aggregation), mac, body)
    return [dealer.opening(), build, read_line(sample.n, sample.chips()), call("mode", mode)]


def read_group(dealer: Dealer) -> List[str]:
    """Reads of undamaged frames, with chips behind them."""
    if dealer.randrange(4) == 0:
        return round_trip(dealer, *dealer.frame_size())
    lines = [dealer.opening()]
    for _ in range(2):
        sample = dealer.frame(*dealer.frame_size())
        rooms = dealer.deal("read room", ((), (), (2048, 10), (2049, 10), (3000, 10)))
        chips = sample.chips() + tail(dealer, sample.size)
        lines += [read_line(sample.n, chips, *rooms), call("mode", sample.mode)]
    return lines


# Octets changed


def word_places(length: int, k: int) -> range:
    """The payload octets of body word k."""
    return range(WORD_OCTETS * k, min(WORD_OCTETS * (k + 1), coded_octets(length)))


def damage_header(dealer: Dealer, chips: List[int], n: int, count: int) -> None:
    """Changes octets of the header word."""
    for place, octet in dealer.changes(HEADER_OCTETS, count):
        flip_header(chips, n, place, octet)


def damage_word(dealer: Dealer, chips: List[int], sample: Sample, k: int, count: int) -> None:
    """Changes octets of body word k."""
    places = word_places(sample.length, k)
    for place, octet in dealer.changes(len(places), count):
        flip_payload(chips, sample.mode, places[place], octet)


def near_reach(dealer: Dealer, reach: int) -> int:
    """A number of octets to change, most often at the edge of a reach."""
    offset = dealer.deal("offset", (0, 0, 1, -1, None))
    return dealer.randint(0, 9) if offset is None else max(0, reach + offset)


def damaged_window(dealer: Dealer, sample: Sample, reach: int) -> List[int]:
    """A frame with octets changed in its header word, in one body word or in all."""
    chips, words = sample.chips(), range(word_count(sample.length))
    where = dealer.deal("where", ("header", "word", "all"))
    if where != "word":
        damage_header(dealer, chips, sample.n, near_reach(dealer, reach))
    if where == "all":
        for k in words:
            damage_word(dealer, chips, sample, k, near_reach(dealer, reach))
    if where == "word" and words:
        damage_word(dealer, chips, sample, dealer.choice(words), near_reach(dealer, reach))
    return chips


def opened_reach(dealer: Dealer) -> Tuple[List[str], int]:
    """A line that opens a station, and the reach of its mender."""
    name = dealer.mender()
    return [call("open", name)], read_mender(name.encode()).reach


def damaged_group(dealer: Dealer) -> List[str]:
    """Reads with 0 to 9 octets a word changed, and what the tally says of them."""
    lines, reach = opened_reach(dealer)
    for _ in range(3):
        length = dealer.deal("damaged length", (0, 1, 9, 30, 100, 224, 225, 300, 450))
        sample = dealer.frame(dealer.deal("damaged mode", MOSTLY_ONE), length)
        lines.append(read_line(sample.n, damaged_window(dealer, sample, reach)))
    return lines + [dealer.deal("damaged asked", ("mode 1", "refusal 14", "refusal 19"))]


# Chips changed


class ChipCard(NamedTuple):
    """A part of the frame, and for header bits how many of their chips are inverted."""

    part: str
    count: int = 0


CHIP_CARDS = (
    ChipCard("bits", 7),
    ChipCard("bits", 8),
    ChipCard("bits", 8),
    ChipCard("bits", 9),
    ChipCard("all bits"),
    ChipCard("first chips"),
    ChipCard("second chips"),
    ChipCard("sync"),
    ChipCard("later groups"),
    ChipCard("pilots"),
    ChipCard("stuff"),
    ChipCard("unjudged"),
)


def flip_header_bit(dealer: Dealer, chips: List[int], n: int, bit: int, count: int) -> None:
    """Inverts a count of the 16 chips of a header bit."""
    start = header_start(n) + 16 * bit
    flip(chips, dealer.sample(range(start, start + 16), count))


def change_bits(dealer: Dealer, chips: List[int], n: int, count: int) -> None:
    """Inverts a count of chips in each of some header bits."""
    few = dealer.choice((1, 1, 2, 8, 256 if count == 7 else 3))
    for bit in dealer.sample(range(8 * HEADER_OCTETS), few):
        flip_header_bit(dealer, chips, n, bit, count)


def change_all_bits(dealer: Dealer, chips: List[int], n: int) -> None:
    """Inverts as many chips of each header bit as leave it as it is."""
    for place, bit in enumerate(octet_bits(read_header_word(n, chips))):
        flip_header_bit(dealer, chips, n, place, 7 if bit else 8)


def pair_spots(dealer: Dealer, sample: Sample, part: str) -> List[int]:
    """First chips of few pairs, or second chips of all."""
    bits = range(8 * coded_octets(sample.length))
    if part == "first chips":
        few = dealer.sample(bits, dealer.choice((1, 2, 8)))
        return [payload_spot(sample.mode, k) for k in few]
    return [payload_spot(sample.mode, k) + 1 for k in bits]


def unjudged_part(dealer: Dealer, sample: Sample, part: str) -> List[int]:
    """Some or all chips of a part that is not judged."""
    mode, length = sample.mode, sample.length
    spots = {
        "sync": sync_spots(mode),
        "later groups": later_group_spots(mode),
        "pilots": pilot_spots(mode, length),
        "stuff": stuff_spots(mode, length),
        "unjudged": unjudged_spots(mode, length),
    }[part]
    few = dealer.choice((1, 5, len(spots), len(spots)))
    return dealer.sample(spots, min(few, len(spots)))


def chip_sample(dealer: Dealer, part: str) -> Sample:
    """A frame that has the part."""
    if part.endswith("bits"):
        return dealer.short_frame()
    modes: Sequence[int] = (1, 1, 1, 2, 3)
    if part in ("first chips", "second chips"):
        modes = (2, 2, 2, 4, 6)
    if part == "later groups":
        modes = (2, 3, 3, 5)
    length = dealer.deal("chip length", (1, 20, 47, 60))
    return dealer.frame(dealer.deal(f"{part} mode", modes), length)


def chip_line(dealer: Dealer, card: ChipCard) -> str:
    """A read of a frame with chips changed."""
    sample = chip_sample(dealer, card.part)
    chips = sample.chips()
    if card.part == "bits":
        change_bits(dealer, chips, sample.n, card.count)
    elif card.part == "all bits":
        change_all_bits(dealer, chips, sample.n)
    elif card.part in ("first chips", "second chips"):
        flip(chips, pair_spots(dealer, sample, card.part))
    else:
        flip(chips, unjudged_part(dealer, sample, card.part))
    return read_line(sample.n, chips)


def chips_group(dealer: Dealer) -> List[str]:
    """Reads with chips changed around the majority, in pairs and where none is judged."""
    lines = [dealer.opening()]
    for _ in range(3):
        lines.append(chip_line(dealer, dealer.deal("chip card", CHIP_CARDS)))
    return lines


# Windows that are cut


def cut_group(dealer: Dealer) -> List[str]:
    """Windows that are cut at the edges of their parts or inside them."""
    lines = [dealer.opening()]
    length = dealer.deal("cut length", (0, 1, 40, 48, 120))
    sample = dealer.frame(dealer.deal("cut mode", MOSTLY_ONE), length)
    chips, start, end = sample.chips(), payload_start(sample.n), sample.size
    data_end = end - 4 * MODES[sample.mode].spread
    second = block_start(sample.mode, 1)
    cuts = (
        0, 1, header_start(sample.n), start - 1, start, start + 1, second - 1, second,
        data_end - 1, data_end, end - 1, end, dealer.randint(start, end),
    )
    for _ in range(3):
        cut = cuts[dealer.deal("cut", range(len(cuts)))]
        lines.append(read_line(sample.n, chips[:cut]))
    return lines
