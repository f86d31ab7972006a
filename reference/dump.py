"""Prints a value over the chips of one frame for each mode and length."""

from __future__ import annotations

from typing import List, Sequence

from frame import MODES, frame_length
from station import Built, Station
from words import Still

LENGTHS = (0, 1, 223, 224, 225, 448, 2047, 2048)


def chip_value(chips: Sequence[int]) -> int:
    """A 32-bit value over chips."""
    h = 0
    for chip in chips:
        h = (h * 31 + chip + 1) % 2**32
    return h


def line(station: Station, k: int, mode: int, length: int) -> str:
    """Build k and its line."""
    aggregation = k % 2 == 1
    mac = [(0x10 + k % 16 + j) % 256 for j in range(10)]
    body = [(7 * i + 3 + k) % 256 for i in range(length)]
    chips: List[int] = [0] * frame_length(mode, length)
    built = station.build(mode, aggregation, mac, body, chips)
    assert isinstance(built, Built) and built.seed == k % 16
    word = "true" if aggregation else "false"
    return f"{mode} {length} {word} {built.seed} {chip_value(chips)}"


def main() -> None:
    station = Station(Still())
    cases = [(mode, length) for mode in MODES for length in LENGTHS]
    for k, (mode, length) in enumerate(cases):
        print(line(station, k, mode, length))


if __name__ == "__main__":
    main()
