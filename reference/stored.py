"""Prints a stored set of calls with answers: python3 reference/stored.py SEED BYTES.

The set is a script in which each call is followed by a line "> ANSWER" with what this
implementation answers. The number in an answer "error LINE: ..." counts the lines of the script
without the lines that begin with "> ". The set has at most BYTES octets and only printable ones.
"""

from __future__ import annotations

import re
import sys
from typing import Dict, Iterable, List, NamedTuple, Sequence, Set

from dealer import Dealer
from error_cases import ERROR_LINES, NOT_OPEN, all_errors
from frame import LONGEST_BODY, MODES
from generate import KINDS, UNOPENED, Group, first_groups, groups, script_lines
from overview_cases import window_edges
from read_cases import round_trip
from script import Desk, answered

ANSWER_MARK = b"> "
POOL_CALLS = 2000
LARGE_GROUP = 50000  # octets; larger groups are taken only for what is required
NUMBER_ROOM = 6  # octets by which an error's line number may grow
LARGEST_MODE = 6

REQUIRED = {
    *(f"kind {kind}" for kind in (UNOPENED, *KINDS)),
    *(f"refusal {number}" for number in range(1, 21)),
    *(f"cause {cause}" for cause in range(1, 7)),
    *(f"built in mode {mode}" for mode in MODES),
    *(f"delivered in mode {mode}" for mode in MODES),
    *(f"error {text}" for text in (*ERROR_LINES, NOT_OPEN)),
    "octets mended in questions",
    "count of refusals in questions",
}


class Candidate(NamedTuple):
    """A group, what it has, and the octets that it takes in the set at most."""

    group: Group
    features: Set[str]
    size: int


def with_answers(lines: Iterable[bytes]) -> bytes:
    """A script with an answer behind each call."""
    text = []
    for line, answer in answered(Desk(), lines):
        text.append(line + b"\n")
        if answer is not None:
            text.append(ANSWER_MARK + answer.encode() + b"\n")
    return b"".join(text)


# What a group has


def field(answer: str, name: str) -> str:
    """The number behind a name in an answer, or nothing."""
    found = re.search(rf" {name}=([0-9]+)", answer)
    return found[1] if found else ""


def line_features(kind: str, line: str, answer: str) -> Set[str]:
    """What a call and its answer add to the set."""
    words, head = line.split(" "), answer.split(" ")[0]
    found = {f"kind {kind}", f"{kind} {words[0]} {head}"}
    if head == "refused":
        number, cause = field(answer, "number"), field(answer, "cause")
        found |= {f"refusal {number}", f"{kind} {words[0]} refusal {number} {cause}"}
        if number in ("9", "19"):
            found.add(f"refusal {number} place {field(answer, 'place')}")
    if head == "unmended":
        found |= {f"cause {field(answer, 'cause')}", f"{words[0]} cause {field(answer, 'cause')}"}
    if head == "built":
        found.add(f"built in mode {words[1]}")
    if head == "delivered":
        found.add(f"delivered in mode {field(answer, 'mode')}")
    if head == "error":
        found.add(f"error {answer.split(': ')[1]}")
    if field(answer, "octets").strip("0"):
        found.add(f"octets mended in {kind}")
    if field(answer, "count").strip("0"):
        found.add(f"count of refusals in {kind}")
    if words[0] in ("open", "propose", "mend") and len(words) > 1:
        found.add(f"{words[0]} {words[1]} {head}")
    return found


def candidate(group: Group) -> Candidate:
    """A group with what it has; it is answered by a desk of its own."""
    features: Set[str] = set()
    size = 0
    for line, answer in answered(Desk(), script_lines([group])):
        size += len(line) + 1
        if answer is not None:
            size += len(ANSWER_MARK) + len(answer) + 1
            features |= line_features(group.kind, line.decode(), answer)
            size += NUMBER_ROOM if answer.startswith("error") else 0
    return Candidate(group, features, size)


def printable(group: Group) -> bool:
    """True when all octets of a group are printable."""
    return all(" " <= letter <= "~" for line in group.lines for letter in line)


# The choice


class Choice:
    """The groups taken, within a number of octets."""

    def __init__(self, most: int) -> None:
        self.room = most
        self.taken: List[Candidate] = []
        self.features: Set[str] = set()
        self.sizes: Dict[str, int] = {kind: 0 for kind in (UNOPENED, *KINDS)}

    def take(self, one: Candidate) -> None:
        """Takes a group if there is room for it."""
        if one.size <= self.room:
            self.room -= one.size
            self.taken.append(one)
            self.features |= one.features
            self.sizes[one.group.kind] += one.size

    def take_new(self, pool: Iterable[Candidate]) -> None:
        """Takes groups that add something, the smallest first; large ones for what is required."""
        for one in sorted(pool, key=lambda one: one.size):
            wanted = one.features if one.size <= LARGE_GROUP else one.features & REQUIRED
            if not wanted <= self.features:
                self.take(one)

    def fill(self, pool: Iterable[Candidate]) -> None:
        """Takes further groups, each time of the kind with the fewest octets."""
        left = [one for one in pool if one.size <= LARGE_GROUP and one not in self.taken]
        while left:
            one = min(left, key=lambda one: self.sizes[one.group.kind])
            left.remove(one)
            self.take(one)


def fixed_groups(dealer: Dealer) -> List[Group]:
    """Groups that are in every stored set: the overview, large windows and all errors."""
    return [
        *first_groups(dealer),
        Group("read", round_trip(dealer, LARGEST_MODE, LONGEST_BODY)),
        Group("read", window_edges(dealer)),
        Group("errors", all_errors(dealer)),
    ]


def chosen_groups(seed: int, most: int) -> List[Group]:
    """The groups of the stored set, ordered by kind."""
    pool = [candidate(group) for group in groups(seed, POOL_CALLS) if printable(group)]
    choice = Choice(most)
    for group in fixed_groups(Dealer(seed)):
        choice.take(candidate(group))
    choice.take_new(pool)
    choice.fill(pool)
    missing = sorted(REQUIRED - choice.features)
    if missing:
        raise SystemExit(f"not enough room for: {', '.join(missing)}")
    order = [UNOPENED, *KINDS]
    return sorted((one.group for one in choice.taken), key=lambda group: order.index(group.kind))


def main(arguments: Sequence[str]) -> int:
    if len(arguments) != 2 or not all(word.isdecimal() for word in arguments):
        print("usage: stored.py SEED BYTES", file=sys.stderr)
        return 2
    chosen = chosen_groups(int(arguments[0]), int(arguments[1]))
    sys.stdout.buffer.write(with_answers(script_lines(chosen)))
    return 0


if __name__ == "__main__":
    sys.exit(main(sys.argv[1:]))
