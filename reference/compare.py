"""Compares a program with this implementation on generated calls.

python3 reference/compare.py SEED COUNT [PROGRAM] [--keep FILE]

Runs "PROGRAM script" with the script on standard input. Prints each disagreement and how many
calls of each kind agreed. With --keep, groups with a disagreement are added to FILE, as in a
stored set. The exit status is 1 if a call disagreed, and 2 if the program could not be run.
"""

from __future__ import annotations

import argparse
import os
import subprocess
import sys
from typing import Dict, Iterator, List, NamedTuple, Optional, Sequence, Tuple

from generate import UNOPENED, Group, groups, script_lines
from script import Desk, answered
from stored import ANSWER_MARK, with_answers

BATCH = 100  # groups in one script
SHOWN = 100  # octets of a line that are printed
FAULTY_KINDS = (UNOPENED, "errors")  # groups that set the exit status to 1
STATUS_KIND = "exit-status"


class Outcome(NamedTuple):
    """A call, the place of its line in its group, and the two answers."""

    group: Group
    place: int
    line: str
    wanted: str
    found: Optional[str]

    @property
    def agrees(self) -> bool:
        """True when the answers are the same."""
        return self.wanted == self.found


# Running


def batches(chosen: Sequence[Group]) -> Iterator[List[Group]]:
    """Groups for one script each; those with errors apart, for the sake of the exit status."""
    faulty = [group for group in chosen if group.kind in FAULTY_KINDS]
    lawful = [group for group in chosen if group.kind not in FAULTY_KINDS]
    for part in (faulty, lawful):
        for start in range(0, len(part), BATCH):
            yield part[start:start + BATCH]


def program_answers(program: str, lines: Sequence[bytes]) -> Tuple[List[str], int]:
    """What a program prints for a script, and its exit status."""
    script = b"".join(line + b"\n" for line in lines)
    done = subprocess.run([program, "script"], input=script, stdout=subprocess.PIPE, check=False)
    return done.stdout.decode("latin-1").split("\n")[:-1], done.returncode


def outcomes(program: str, chosen: Sequence[Group]) -> List[Outcome]:
    """The outcomes of groups; where answers are missing, groups are run in smaller scripts."""
    lines = list(script_lines(chosen))
    desk = Desk()
    wanted = [answer for _, answer in answered(desk, lines)]
    found, status = program_answers(program, lines)
    if len(found) != len(wanted) - wanted.count(None) and len(chosen) > 1:
        half = len(chosen) // 2
        return outcomes(program, chosen[:half]) + outcomes(program, chosen[half:])
    places = [(group, k) for group in chosen for k in range(-1, len(group.lines))]
    rest, result = iter(found), []
    for (group, k), line, answer in zip(places, lines, wanted):
        if answer is not None:
            result.append(Outcome(group, k, line.decode("latin-1"), answer, next(rest, None)))
    end = "; ".join([f"exit status {status}", *rest])
    return result + [Outcome(Group(STATUS_KIND, []), 0, "", f"exit status {desk.status}", end)]


# Printing


def shortened(text: str, start: int = 0) -> str:
    """A part of a text, from a little before a place on."""
    first = max(0, start - SHOWN // 2)
    part = text[first:first + SHOWN]
    left = f"[{first} octets] " if first else ""
    more = len(text) - first - len(part)
    return left + ascii(part)[1:-1] + (f" [{more} octets]" if more else "")


def first_difference(one: str, other: str) -> int:
    """The first place in which two texts differ."""
    return len(os.path.commonprefix([one, other]))


def print_disagreement(outcome: Outcome) -> None:
    """Prints a call and its two answers."""
    found = "no answer" if outcome.found is None else outcome.found
    start = first_difference(outcome.wanted, found)
    print(f"disagreement, kind {outcome.group.kind}: {shortened(outcome.line)}")
    print(f"  reference: {shortened(outcome.wanted, start)}")
    print(f"  program:   {shortened(found, start)}")


def print_counts(all_outcomes: Sequence[Outcome]) -> None:
    """Prints how many calls of each kind agreed."""
    counts: Dict[str, List[int]] = {}
    for outcome in all_outcomes:
        count = counts.setdefault(outcome.group.kind, [0, 0])
        count[0] += outcome.agrees
        count[1] += 1
    for kind in sorted(counts):
        print(f"{kind}: {counts[kind][0]} of {counts[kind][1]} agreed")
    agreed = sum(outcome.agrees for outcome in all_outcomes)
    print(f"all: {agreed} of {len(all_outcomes)} agreed")


# Keeping


def disagreeing_groups(all_outcomes: Sequence[Outcome]) -> List[Group]:
    """Each group with a disagreement, up to the last line that disagreed."""
    last: Dict[int, Outcome] = {}
    for outcome in all_outcomes:
        if not outcome.agrees and outcome.group.kind != STATUS_KIND:
            last[id(outcome.group)] = outcome
    return [Group(o.group.kind, o.group.lines[: o.place + 1]) for o in last.values()]


def stored_lines(path: str) -> List[bytes]:
    """The script of a stored set, without its answers; none if there is no such file."""
    if not os.path.exists(path):
        return []
    with open(path, "rb") as source:
        lines = source.read().split(b"\n")
    return [line for line in lines[:-1] if not line.startswith(ANSWER_MARK)]


def keep(path: str, disagreeing: Sequence[Group]) -> None:
    """Adds groups to a stored set, in front those that must be the first."""
    front = [group for group in disagreeing if group.kind == UNOPENED]
    back = [group for group in disagreeing if group.kind != UNOPENED]
    lines = [*script_lines(front), *stored_lines(path), *script_lines(back)]
    with open(path, "wb") as target:
        target.write(with_answers(lines))


def main() -> int:
    parser = argparse.ArgumentParser(description="Compares a program on generated calls.")
    parser.add_argument("seed", type=int)
    parser.add_argument("count", type=int)
    parser.add_argument("program", nargs="?", default="crates/bench/out/bench")
    parser.add_argument("--keep", metavar="FILE")
    chosen = parser.parse_args()
    result: List[Outcome] = []
    try:
        for batch in batches(list(groups(chosen.seed, chosen.count))):
            result += outcomes(chosen.program, batch)
    except OSError as fault:
        print(f"{chosen.program}: {fault.strerror}", file=sys.stderr)
        return 2
    for outcome in result:
        if not outcome.agrees:
            print_disagreement(outcome)
    print_counts(result)
    disagreeing = disagreeing_groups(result)
    if chosen.keep and disagreeing:
        keep(chosen.keep, disagreeing)
    return 0 if all(outcome.agrees for outcome in result) else 1


if __name__ == "__main__":
    sys.exit(main())
