"""How the words of a script line are written: numbers, octets, chips, changes, menders."""

from __future__ import annotations

import re
from typing import Callable, Dict, List, Sequence, Tuple

from words import Change, Full, Mender, Single, Still, Then

MOST_LISTED = 240  # changes in one list
MOST_NESTED = 3  # thens inside one another
EMPTY = "-"

NUMBER = re.compile(rb"[0-9]{1,9}")
OCTETS = re.compile(rb"(?:[0-9a-f]{2})+")
CHIPS = re.compile(rb"[0-9]+")
CHANGE = re.compile(rb"([0-9]{1,9}):([0-9a-f]{2})")

PLAIN_MENDERS: Dict[bytes, Callable[[], Mender]] = {
    b"still": Still,
    b"single": Single,
    b"full": Full,
}


class Wrong(Exception):
    """What is wrong with a line that is no call."""


# Reading


def number_upto(most: int) -> Callable[[bytes], int]:
    """A reader of numbers up to a limit."""

    def read(word: bytes) -> int:
        if not NUMBER.fullmatch(word) or int(word) > most:
            raise Wrong("bad number")
        return int(word)

    return read


def read_flag(word: bytes) -> bool:
    """0 or 1."""
    if word not in (b"0", b"1"):
        raise Wrong("bad number")
    return word == b"1"


def read_octets(word: bytes) -> List[int]:
    """Octets, two lowercase hexadecimal digits each."""
    if word == EMPTY.encode():
        return []
    if not OCTETS.fullmatch(word):
        raise Wrong("bad octets")
    return list(bytes.fromhex(word.decode()))


def read_chips(word: bytes) -> List[int]:
    """Chips, a digit each."""
    if word == EMPTY.encode():
        return []
    if not CHIPS.fullmatch(word):
        raise Wrong("bad chips")
    return [digit - ord("0") for digit in word]


def read_changes(word: bytes) -> List[Change]:
    """At most 240 changes, place:octet, with commas between them."""
    if word == EMPTY.encode():
        return []
    found = [CHANGE.fullmatch(part) for part in word.split(b",")]
    changes = [Change(int(m[1]), int(m[2], 16)) for m in found if m is not None]
    if len(changes) < len(found) or len(changes) > MOST_LISTED:
        raise Wrong("bad changes")
    return changes


def behind(mark: bytes, text: bytes) -> bytes:
    """The text behind a mark that must stand at its front."""
    if not text.startswith(mark):
        raise Wrong("bad mender")
    return text[len(mark):]


def leading_mender(text: bytes, nested: int) -> Tuple[Mender, bytes]:
    """The mender at the front of a text, and the rest."""
    for name, make in PLAIN_MENDERS.items():
        if text.startswith(name):
            return make(), text[len(name):]
    if nested == 0:
        raise Wrong("bad mender")
    first, rest = leading_mender(behind(b"then(", text), nested - 1)
    second, rest = leading_mender(behind(b",", rest), nested - 1)
    return Then(first, second), behind(b")", rest)


def read_mender(word: bytes) -> Mender:
    """A mender by its name."""
    mender, rest = leading_mender(word, MOST_NESTED)
    if rest:
        raise Wrong("bad mender")
    return mender


# Writing


def octets_text(octets: Sequence[int]) -> str:
    """Octets as they are written."""
    return bytes(octets).hex() or EMPTY


def chips_text(chips: Sequence[int]) -> str:
    """Chips as they are written."""
    return "".join(map(str, chips)) or EMPTY


def changes_text(changes: Sequence[Change]) -> str:
    """Changes as they are written."""
    return ",".join(f"{place}:{octet:02x}" for place, octet in changes) or EMPTY
