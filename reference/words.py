"""Octet arithmetic, parity of words, acceptance of changes, and menders.

Words are rows of octets, the first octet being the highest coefficient.
Locator and evaluator polynomials are rows with the constant term first.
"""

from __future__ import annotations

from functools import lru_cache
from typing import List, NamedTuple, Optional, Protocol, Sequence, Tuple

FIELD_POLYNOMIAL = 0x11D  # x^8 + x^4 + x^3 + x^2 + 1
ALPHA = 0x02
PARITY_OCTETS = 16
LONGEST_MESSAGE = 224
MOST_CHANGES = 8

NOTHING_PROPOSED = 1
TOO_MANY_CHANGES = 2
PLACE_OUTSIDE = 3
PLACE_TWICE = 4
ZERO_ADDED = 5
NO_CODEWORD = 6


class Change(NamedTuple):
    """An octet to be added at a place of a word; place 0 is the first octet."""

    place: int
    octet: int


class Refusal(NamedTuple):
    """Why a call was turned down; the cause is given for words only."""

    number: int
    layer: str
    place: int = 0
    cause: Optional[int] = None


class Mended(NamedTuple):
    """The outcome of mending one word: octets changed, or the cause."""

    count: int
    cause: Optional[int] = None


# Arithmetic of octets


def reduced(value: int) -> int:
    """The remainder of a polynomial over the bits by the field polynomial."""
    for degree in range(value.bit_length() - 1, 7, -1):
        if value >> degree & 1:
            value ^= FIELD_POLYNOMIAL << (degree - 8)
    return value


@lru_cache(maxsize=None)
def multiply(a: int, b: int) -> int:
    """The product of two octets."""
    product = 0
    for i in range(8):
        if b >> i & 1:
            product ^= a << i
    return reduced(product)


def power(base: int, exponent: int) -> int:
    """The base raised to an exponent of 0 or more."""
    result = 1
    while exponent:
        if exponent & 1:
            result = multiply(result, base)
        base = multiply(base, base)
        exponent >>= 1
    return result


@lru_cache(maxsize=None)
def inverse(a: int) -> int:
    """The inverse of an octet; zero's inverse is zero."""
    return power(a, 254)


# Parity


def generator() -> List[int]:
    """The product of (x + alpha^i), i from 1 to 16, highest coefficient first."""
    row = [1]
    for i in range(1, PARITY_OCTETS + 1):
        root = power(ALPHA, i)
        shifted, scaled = row + [0], [0] + [multiply(root, c) for c in row]
        row = [s ^ t for s, t in zip(shifted, scaled)]
    return row


GENERATOR = generator()


def parity(message: Sequence[int]) -> List[int]:
    """The remainder of x^16 m(x) by the generator, highest coefficient first."""
    row = list(message) + [0] * PARITY_OCTETS
    for i in range(len(message)):
        lead = row[i]
        if lead:
            for j, coefficient in enumerate(GENERATOR):
                row[i + j] ^= multiply(lead, coefficient)
    return row[len(message):]


def has_word_length(word: Sequence[int]) -> bool:
    """True for 17 to 240 octets."""
    return PARITY_OCTETS < len(word) <= LONGEST_MESSAGE + PARITY_OCTETS


def is_codeword(word: Sequence[int]) -> bool:
    """True when the last 16 octets are the parity of the message before them."""
    if not has_word_length(word):
        return False
    message, check = word[:-PARITY_OCTETS], word[-PARITY_OCTETS:]
    return list(check) == parity(message)


def encode(message: Sequence[int], buffer: List[int]) -> Optional[Refusal]:
    """Writes the parity of a message into a buffer of 16 octets."""
    if not 1 <= len(message) <= LONGEST_MESSAGE or len(buffer) != PARITY_OCTETS:
        return Refusal(20, "word coder")
    buffer[:] = parity(message)
    return None


# Acceptance of proposals


def changed(word: Sequence[int], proposal: Sequence[Change]) -> List[int]:
    """The word with the changes made; all places must lie in the word."""
    result = list(word)
    for place, octet in proposal:
        result[place] ^= octet
    return result


def accept(word: Sequence[int], proposal: Sequence[Change]) -> Optional[int]:
    """The cause by which a proposal fails, or none if it is accepted."""
    places = [place for place, _ in proposal]
    if not proposal:
        return NOTHING_PROPOSED
    if len(proposal) > MOST_CHANGES:
        return TOO_MANY_CHANGES
    if any(not 0 <= place < len(word) for place in places):
        return PLACE_OUTSIDE
    if len(set(places)) != len(places):
        return PLACE_TWICE
    if any(octet == 0 for _, octet in proposal):
        return ZERO_ADDED
    if not is_codeword(changed(word, proposal)):
        return NO_CODEWORD
    return None


def apply(word: List[int], proposal: Sequence[Change]) -> Optional[int]:
    """Makes accepted changes in the word; else answers the cause."""
    cause = accept(word, proposal)
    if cause is None:
        word[:] = changed(word, proposal)
    return cause


# Decoding


def syndromes(word: Sequence[int]) -> List[int]:
    """The word's values at alpha^1 to alpha^16."""
    values = []
    for i in range(1, PARITY_OCTETS + 1):
        point, value = power(ALPHA, i), 0
        for octet in word:
            value = multiply(value, point) ^ octet
        values.append(value)
    return values


def evaluate(row: Sequence[int], point: int) -> int:
    """The value of a polynomial, constant term first."""
    value = 0
    for coefficient in reversed(row):
        value = multiply(value, point) ^ coefficient
    return value


def discrepancy(row: Sequence[int], synd: Sequence[int], n: int) -> int:
    """How far the recurrence of the row misses syndrome n."""
    value = 0
    for i, coefficient in enumerate(row[: n + 1]):
        value ^= multiply(coefficient, synd[n - i])
    return value


def plus_shifted(row: Sequence[int], other: Sequence[int], factor: int, shift: int) -> List[int]:
    """row + factor x^shift other, constant terms first."""
    result = list(row) + [0] * max(0, len(other) + shift - len(row))
    for i, coefficient in enumerate(other):
        result[i + shift] ^= multiply(factor, coefficient)
    return result


def locator(synd: Sequence[int]) -> Tuple[List[int], int]:
    """Berlekamp-Massey: the shortest recurrence and its length."""
    row, former = [1], [1]
    length, shift, divisor = 0, 1, 1
    for n in range(len(synd)):
        miss = discrepancy(row, synd, n)
        if miss == 0:
            shift += 1
            continue
        update = plus_shifted(row, former, multiply(miss, inverse(divisor)), shift)
        if 2 * length <= n:
            former, divisor, length, shift = row, miss, n + 1 - length, 1
        else:
            shift += 1
        row = update
    return row, length


def error_places(row: Sequence[int], size: int) -> List[int]:
    """Places of a word of a size whose locators' inverses are roots, ascending."""
    return [p for p in range(size) if evaluate(row, inverse(place_locator(p, size))) == 0]


def place_locator(place: int, size: int) -> int:
    """alpha to the degree of the coefficient at a place."""
    return power(ALPHA, size - 1 - place)


def evaluator(synd: Sequence[int], row: Sequence[int]) -> List[int]:
    """The product of syndromes and locator modulo x^16."""
    return [discrepancy(row, synd, n) for n in range(len(synd))]


def derivative(row: Sequence[int]) -> List[int]:
    """The formal derivative in characteristic two, constant term first."""
    return [c if i % 2 == 1 else 0 for i, c in enumerate(row)][1:]


def forney(synd: Sequence[int], row: Sequence[int], places: Sequence[int], size: int) -> List[Change]:
    """The octet to be added at each place."""
    above, below = evaluator(synd, row), derivative(row)
    changes = []
    for place in places:
        point = inverse(place_locator(place, size))
        octet = multiply(evaluate(above, point), inverse(evaluate(below, point)))
        changes.append(Change(place, octet))
    return changes


def difference(word: Sequence[int], reach: int) -> List[Change]:
    """The difference to the codeword 1 to reach places away, or nothing."""
    if not has_word_length(word):
        return []
    synd = syndromes(word)
    row, length = locator(synd)
    if not 1 <= length <= reach:
        return []
    places = error_places(row, len(word))
    if len(places) != length:
        return []
    proposal = forney(synd, row, places, len(word))
    return proposal if accept(word, proposal) is None else []


# Menders


class Mender(Protocol):
    """Proposes changes to a word that is lent to it."""

    reach: int

    def propose(self, word: Sequence[int]) -> List[Change]:
        ...


class Still:
    """Proposes nothing."""

    reach = 0

    def propose(self, word: Sequence[int]) -> List[Change]:
        return []


class Single:
    """Proposes the difference to the codeword one place away."""

    reach = 1

    def propose(self, word: Sequence[int]) -> List[Change]:
        return difference(word, 1)


class Full:
    """Proposes the difference to the codeword 1 to 8 places away."""

    reach = 8

    def propose(self, word: Sequence[int]) -> List[Change]:
        return difference(word, 8)


class Then:
    """Proposes as the first mender if that is accepted, else as the second."""

    def __init__(self, first: Mender, second: Mender) -> None:
        self.first, self.second = first, second
        self.reach = max(first.reach, second.reach)

    def propose(self, word: Sequence[int]) -> List[Change]:
        proposal = self.first.propose(word)
        if accept(word, proposal) is None:
            return proposal
        return self.second.propose(word)


def mend(mender: Mender, word: List[int]) -> Mended:
    """Leaves a codeword as it is; asks the mender once about any other word."""
    if is_codeword(word):
        return Mended(0)
    proposal = mender.propose(tuple(word))
    cause = apply(word, proposal)
    return Mended(len(proposal)) if cause is None else Mended(0, cause)
