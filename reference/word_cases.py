"""Generated calls without a station on words: coder, menders and acceptance."""

from __future__ import annotations

from typing import Dict, List, Optional, Sequence, Tuple

from dealer import Dealer, call
from notation import changes_text, octets_text
from words import PARITY_OCTETS, Change, changed

LENGTHS = (0, 1, 16, 17, 32, 223, 224, 225, 239, 240, 241)
WORD_LENGTHS = tuple(length for length in LENGTHS if 17 <= length <= 240)


def word_of(dealer: Dealer, length: int) -> List[int]:
    """A message with its parity, of a length in all; too short ones are at random."""
    if length <= PARITY_OCTETS:
        return dealer.choice((dealer.octets(length), [0] * length))
    return dealer.codeword(length - PARITY_OCTETS)


def some_length(dealer: Dealer, name: str) -> int:
    """A length from the list, or at random."""
    if dealer.randrange(4) == 0:
        return dealer.randint(0, 245)
    return dealer.deal(name, LENGTHS)


def coder_group(dealer: Dealer) -> List[str]:
    """Parity, codewords and header check sequences."""
    message = octets_text(dealer.octets(some_length(dealer, "message")))
    lines = [call("encode", message)]
    if dealer.randrange(2) == 0:
        rooms = (0, 1, 15, 16, 16, 17, 32, 1000000)
        lines.append(call("encode", message, dealer.deal("parity room", rooms)))
    word = word_of(dealer, some_length(dealer, "codeword"))
    lines.append(call("codeword", octets_text(word)))
    lines.append(call("codeword", octets_text(dealer.damaged(word, dealer.choice((1, 1, 8, 17))))))
    lines.append(call("hcs", octets_text(dealer.octets(some_length(dealer, "hcs")))))
    return lines


def mend_group(dealer: Dealer) -> List[str]:
    """Menders on words with 0 to 9 octets changed and more, and on other rows."""
    lines = []
    counts = (0, 1, 1, 2, 3, 4, 5, 6, 7, 8, 8, 9, 9, 10, 12, 40)
    for _ in range(4):
        if dealer.randrange(5) == 0:
            word = word_of(dealer, some_length(dealer, "row"))
        else:
            word = word_of(dealer, dealer.deal("word", WORD_LENGTHS))
        word = dealer.damaged(word, dealer.deal("count", counts))
        name = dealer.deal("mend call", ("propose", "mend"))
        lines.append(call(name, dealer.mender(), octets_text(word)))
    return lines


Hostile = Sequence[Change]


def hostile_changes(dealer: Dealer, right: Hostile, length: int) -> Dict[str, Hostile]:
    """Lists of changes for a word of a length, most of which are not accepted."""
    free = next(p for p in range(length) if p not in [place for place, _ in right])
    far = dealer.choice((length + 1, 255, 256, 65536, 999999999))
    outside = [Change(length, 1), Change(far, 1)]
    zero = [Change(free, 0)]
    nine = [Change(p, 0) for p in range(9)]
    return {
        "none": [],
        "nine": nine,
        "nine and outside": nine + outside,
        "nine at one place": [Change(length, 0)] * 9,
        "most": [Change(p, 1) for p in range(240)],
        "eight": dealer.changes(length, 8),
        "outside": [outside[0]],
        "far outside": [*right, outside[1]],
        "outside twice": [outside[0], outside[0]],
        "twice": [*right, right[0]],
        "twice with zero": [*zero, *zero, *right],
        "twice around": [Change(free, 7), *right, Change(free, 7)],
        "zero": [*right, *zero],
        "only zero": zero,
        "wrong": [Change(right[0].place, right[0].octet ^ 0xFF or 1), *right[1:]],
        "too few": right[1:] or [Change(free, 1)],
        "too many": [*right, Change(free, 1)],
        "right": right,
        "reversed": right[::-1],
        "right once more": right,
    }


def accept_line(dealer: Dealer, name: Optional[str] = None) -> str:
    """A damaged word and changes of a name, or of any."""
    word = dealer.codeword(dealer.deal("accept word", WORD_LENGTHS) - PARITY_OCTETS)
    right = dealer.changes(len(word), dealer.randint(1, 7))
    hostile = hostile_changes(dealer, right, len(word))
    changes = hostile[name or dealer.deal("hostile", tuple(hostile))]
    return call("accept", octets_text(changed(word, right)), changes_text(changes))


def accept_group(dealer: Dealer) -> List[str]:
    """Changes that are accepted or fail by each cause."""
    return [accept_line(dealer) for _ in range(4)] + [foreign_accept(dealer)]


def foreign_accept(dealer: Dealer) -> str:
    """Changes to a codeword, or to a row that has not a word's length."""
    cards: Tuple[Tuple[int, Hostile], ...] = (
        (0, []),
        (0, [Change(0, 1)]),
        (1, [Change(0, 1)]),
        (16, [Change(15, 0)]),
        (16, [Change(15, 1)]),
        (241, [Change(240, 1)]),
        (241, [Change(241, 1)]),
        (32, []),
        (32, [Change(31, 1)]),
        (240, []),
    )
    length, changes = dealer.deal("foreign", cards)
    word = word_of(dealer, length)
    if length == 241 and changes[0].place < length:
        word = changed(word, changes)
    return call("accept", octets_text(word), changes_text(changes))
