"""Prints a script of generated calls: python3 reference/generate.py SEED COUNT.

The script follows from SEED alone; COUNT is roughly the number of its calls. Calls stand in
groups, each behind a line "# kind: NAME". A group that uses a station opens one first, so a
group can be taken out of the script and run alone. The group of kind unopened must be the first.
"""

from __future__ import annotations

import sys
from typing import Callable, Dict, Iterable, Iterator, List, NamedTuple, Sequence

from dealer import Dealer
from error_cases import errors_group, unopened_group
from overview_cases import overview
from read_cases import build_group, chips_group, cut_group, damaged_group, read_group
from refusal_cases import door_group, header_group, payload_group, preamble_group
from run_cases import parts_group, questions_group, seed_run_group
from word_cases import accept_group, coder_group, mend_group

KIND_MARK = "# kind: "
UNOPENED = "unopened"


class Group(NamedTuple):
    """Lines that can be run alone, and their kind."""

    kind: str
    lines: List[str]


class Kind(NamedTuple):
    """The share of calls in a script, and what makes a group."""

    share: int
    make: Callable[[Dealer], List[str]]


KINDS: Dict[str, Kind] = {
    "build": Kind(10, build_group),
    "read": Kind(8, read_group),
    "read-damaged": Kind(10, damaged_group),
    "read-chips": Kind(8, chips_group),
    "read-cut": Kind(6, cut_group),
    "door": Kind(10, door_group),
    "preamble": Kind(10, preamble_group),
    "header": Kind(8, header_group),
    "payload": Kind(6, payload_group),
    "seed-run": Kind(6, seed_run_group),
    "questions": Kind(10, questions_group),
    "parts": Kind(6, parts_group),
    "coder": Kind(8, coder_group),
    "mend": Kind(10, mend_group),
    "accept": Kind(6, accept_group),
    "errors": Kind(10, errors_group),
}


def first_groups(dealer: Dealer) -> List[Group]:
    """Calls before a station is open, and an overview."""
    made = [Group(kind, lines) for kind, lines in overview(dealer)]
    return [Group(UNOPENED, unopened_group(dealer)), *made]


def groups(seed: int, count: int) -> Iterator[Group]:
    """Groups with a count of calls in all, or a few more."""
    dealer = Dealer(seed)
    made = first_groups(dealer)
    yield from made
    calls = {name: 0 for name in (UNOPENED, *KINDS)}
    for group in made:
        calls[group.kind] += len(group.lines)
    while sum(calls.values()) < count:
        name = min(KINDS, key=lambda kind: calls[kind] / KINDS[kind].share)
        group = Group(name, KINDS[name].make(dealer))
        yield group
        calls[name] += len(group.lines)


def script_lines(chosen: Iterable[Group]) -> Iterator[bytes]:
    """The lines of a script of groups, without newlines."""
    for group in chosen:
        yield (KIND_MARK + group.kind).encode()
        for line in group.lines:
            yield line.encode("latin-1")


def main(arguments: Sequence[str]) -> int:
    if len(arguments) != 2 or not all(word.isdecimal() for word in arguments):
        print("usage: generate.py SEED COUNT", file=sys.stderr)
        return 2
    for line in script_lines(groups(int(arguments[0]), int(arguments[1]))):
        sys.stdout.buffer.write(line + b"\n")
    return 0


if __name__ == "__main__":
    sys.exit(main(sys.argv[1:]))
