"""Runs a script of calls, one a line, and prints one answer a line.

python3 reference/script.py [FILE]; without FILE, the script is standard input.
The exit status is 0 when no line was answered by an error, else 1.
"""

from __future__ import annotations

import sys
from typing import (
    Any,
    BinaryIO,
    Callable,
    Dict,
    Iterable,
    Iterator,
    List,
    NamedTuple,
    Optional,
    Sequence,
    Tuple,
)

from frame import LONGEST_BODY, MAC_OCTETS, frame_length, header_check
from notation import (
    Wrong,
    changes_text,
    chips_text,
    number_upto,
    octets_text,
    read_changes,
    read_chips,
    read_flag,
    read_mender,
    read_octets,
)
from station import Delivery, Part, Station, window_block, window_header
from words import PARITY_OCTETS, Change, Mender, Refusal, accept, changed, encode, is_codeword, mend

CHIP_BEFORE = 9
OCTET_BEFORE = 0xEE
LARGEST_FRAME = frame_length(6, LONGEST_BODY)

SMALL = number_upto(255)
BLOCK = number_upto(65535)
ROOM = number_upto(1000000)


# Buffers


def build_state(
    chips: Sequence[int], written: Optional[int], body: Sequence[int], body_before: Sequence[int]
) -> str:
    """What a build left in the chip buffer and in the body."""
    count = written or 0
    later = all(chip == CHIP_BEFORE for chip in chips[count:])
    if written is not None and later and set(chips[:count]) <= {0, 1} and body == body_before:
        return "filled"
    same = all(chip == CHIP_BEFORE for chip in chips) and body == body_before
    return "untouched" if same else "other"


def read_state(body: Sequence[int], mac: Sequence[int], length: Optional[int]) -> str:
    """What a read left in its buffers; the length is that of a delivered body."""
    later = all(octet == OCTET_BEFORE for octet in body[LONGEST_BODY:])
    if length is not None and later and not any(body[length:LONGEST_BODY]):
        return "filled"
    if all(octet == OCTET_BEFORE for octet in (*body, *mac)):
        return "untouched"
    return "zeroed" if later and not any((*mac, *body[:LONGEST_BODY])) else "other"


def encode_state(buffer: Sequence[int]) -> str:
    """What a refused encode left in the parity buffer."""
    return "untouched" if all(octet == OCTET_BEFORE for octet in buffer) else "other"


def refused(fault: Refusal, buffers: Optional[str] = None) -> str:
    """The answer to a call that was turned down."""
    layer = fault.layer.replace(" ", "-")
    text = f"refused number={fault.number} layer={layer} place={fault.place}"
    if fault.cause is not None:
        text += f" cause={fault.cause}"
    return text if buffers is None else f"{text} buffers={buffers}"


# Calls on a station


def call_build(
    station: Station,
    mode: int,
    aggregation: bool,
    mac: List[int],
    body: List[int],
    room: int = LARGEST_FRAME,
) -> str:
    """A build into a chip buffer with a room."""
    chips, before = [CHIP_BEFORE] * room, list(body)
    answer = station.build(mode, aggregation, mac, body, chips)
    if isinstance(answer, Refusal):
        return refused(answer, build_state(chips, None, body, before))
    state = build_state(chips, answer.chips, body, before)
    text = chips_text(chips[: answer.chips])
    return f"built seed={answer.seed} chips={answer.chips} buffers={state} {text}"


def call_read(
    station: Station,
    n: int,
    window: List[int],
    room: int = LONGEST_BODY,
    mac_room: int = MAC_OCTETS,
) -> str:
    """A read into buffers with their rooms."""
    body, mac = [OCTET_BEFORE] * room, [OCTET_BEFORE] * mac_room
    answer = station.read(n, window, body, mac)
    if isinstance(answer, Refusal):
        return refused(answer, read_state(body, mac, None))
    return delivered(answer, body, mac)


def delivered(answer: Delivery, body: Sequence[int], mac: Sequence[int]) -> str:
    """The answer to a read that delivered a frame."""
    state = read_state(body, mac, answer.length)
    return (
        f"delivered mode={answer.mode} seed={answer.seed} aggregation={int(answer.aggregation)}"
        f" length={answer.length} mended={answer.mended} buffers={state}"
        f" mac={octets_text(mac)} body={octets_text(body[: answer.length])}"
    )


def call_mode(station: Station, mode: int) -> str:
    """The question about a mode."""
    tally = station.delivered(mode)
    return "none" if tally is None else f"mode {mode} windows={tally.windows} octets={tally.mended}"


def call_refusal(station: Station, number: int) -> str:
    """The question about a refusal."""
    count = station.refused(number)
    return "none" if count is None else f"refusal {number} count={count}"


# Calls without a station


def part_text(part: object) -> str:
    """The answer to a call for a part of a window."""
    if isinstance(part, Refusal):
        return refused(part)
    if isinstance(part, Part):
        return f"part place={part.place} chips={len(part.chips)} {chips_text(part.chips)}"
    return "none"


def call_header(n: int, window: List[int]) -> str:
    """The header's part of a window."""
    return part_text(window_header(n, window))


def call_block(mode: int, number: int, window: List[int]) -> str:
    """A block's part of a window."""
    return part_text(window_block(mode, window, number))


def call_encode(message: List[int], room: int = PARITY_OCTETS) -> str:
    """The parity of a message, in a buffer with a room."""
    buffer = [OCTET_BEFORE] * room
    fault = encode(message, buffer)
    if fault is not None:
        return refused(fault, encode_state(buffer))
    return f"parity {octets_text(buffer)}"


def call_codeword(word: List[int]) -> str:
    """Whether a word is a codeword."""
    return "yes" if is_codeword(word) else "no"


def call_hcs(octets: List[int]) -> str:
    """The header check sequence of octets."""
    return f"hcs {octets_text(header_check(octets))}"


def call_propose(mender: Mender, word: List[int]) -> str:
    """What a mender proposes to a word."""
    proposal = sorted(mender.propose(tuple(word)))
    return f"proposed {changes_text(proposal)}" if proposal else "nothing"


def call_accept(word: List[int], changes: List[Change]) -> str:
    """The acceptance of changes."""
    cause = accept(word, changes)
    if cause is not None:
        return f"unmended cause={cause}"
    return f"accepted {octets_text(changed(word, changes))}"


def call_mend(mender: Mender, word: List[int]) -> str:
    """A word mended by a mender."""
    if is_codeword(word):
        return "codeword"
    mended = mend(mender, word)
    if mended.cause is not None:
        return f"unmended cause={mended.cause}"
    return f"mended {octets_text(word)}"


# Lines

Reader = Callable[[bytes], Any]


class Call(NamedTuple):
    """A call: readers of its words, of the words that may be left out, and its answer."""

    needed: Tuple[Reader, ...]
    extra: Tuple[Reader, ...]
    run: Callable[..., str]

    def values(self, words: Sequence[bytes]) -> List[Any]:
        """The values of the words behind the call's name."""
        if len(words) not in (len(self.needed), len(self.needed) + len(self.extra)):
            raise Wrong("wrong number of words")
        return [read(word) for read, word in zip(self.needed + self.extra, words)]


STATION_CALLS: Dict[bytes, Call] = {
    b"build": Call((SMALL, read_flag, read_octets, read_octets), (ROOM,), call_build),
    b"read": Call((SMALL, read_chips), (ROOM, ROOM), call_read),
    b"mode": Call((SMALL,), (), call_mode),
    b"refusal": Call((SMALL,), (), call_refusal),
}
PLAIN_CALLS: Dict[bytes, Call] = {
    b"header": Call((SMALL, read_chips), (), call_header),
    b"block": Call((SMALL, BLOCK, read_chips), (), call_block),
    b"encode": Call((read_octets,), (ROOM,), call_encode),
    b"codeword": Call((read_octets,), (), call_codeword),
    b"hcs": Call((read_octets,), (), call_hcs),
    b"propose": Call((read_mender, read_octets), (), call_propose),
    b"accept": Call((read_octets, read_changes), (), call_accept),
    b"mend": Call((read_mender, read_octets), (), call_mend),
}


class Desk:
    """Answers the lines of one script; the status is 1 once a line was no call."""

    def __init__(self) -> None:
        self.station: Optional[Station] = None
        self.status = 0
        self.open_call = Call((read_mender,), (), self._open)

    def answer(self, line: bytes, number: int) -> Optional[str]:
        """The answer to a line without its newline, or none if it is passed over."""
        line = line[:-1] if line.endswith(b"\r") else line
        if not line or line.startswith(b"#"):
            return None
        try:
            return self._call(line.split(b" #", 1)[0].split(b" "))
        except Wrong as wrong:
            self.status = 1
            return f"error {number}: {wrong}"

    def _call(self, words: Sequence[bytes]) -> str:
        """The answer to a call in words."""
        name, rest = words[0], words[1:]
        if name in STATION_CALLS:
            values = STATION_CALLS[name].values(rest)
            if self.station is None:
                raise Wrong("no station is open")
            return STATION_CALLS[name].run(self.station, *values)
        call = self.open_call if name == b"open" else PLAIN_CALLS.get(name)
        if call is None:
            raise Wrong("unknown call")
        return call.run(*call.values(rest))

    def _open(self, mender: Mender) -> str:
        """Opens a station in place of the former one."""
        self.station = Station(mender)
        return f"opened reach={mender.reach}"


def answered(desk: Desk, lines: Iterable[bytes]) -> Iterator[Tuple[bytes, Optional[str]]]:
    """Each line of a script without its newline, and the answer to it."""
    for number, line in enumerate(lines, 1):
        yield line, desk.answer(line, number)


def run(source: BinaryIO) -> int:
    """Prints the answers to a script; answers the exit status."""
    desk = Desk()
    lines = (line[:-1] if line.endswith(b"\n") else line for line in source)
    for _, answer in answered(desk, lines):
        if answer is not None:
            print(answer, flush=True)
    return desk.status


def main(arguments: Sequence[str]) -> int:
    if len(arguments) > 1:
        print("usage: script.py [FILE]", file=sys.stderr)
        return 2
    if not arguments:
        return run(sys.stdin.buffer)
    try:
        with open(arguments[0], "rb") as source:
            return run(source)
    except OSError as fault:
        print(f"{arguments[0]}: {fault.strerror}", file=sys.stderr)
        return 2


if __name__ == "__main__":
    sys.exit(main(sys.argv[1:]))
