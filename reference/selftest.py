"""Checks known values and round trips; exits with 1 if a check failed."""

from __future__ import annotations

import random
import sys
from typing import List, Optional, Sequence, Tuple

import frame as f
import words as w
from damage import flip, flip_header, flip_payload, unjudged_spots, with_code, with_header
from error_cases import ERROR_LINES, RIGHT_LINES
from generate import groups, script_lines
from notation import octets_text
from script import Desk, answered, build_state, read_state
from station import COUNT_END, Built, Delivered, Delivery, Part, Station
from station import window_block, window_header
from stored import with_answers

LENGTHS = (0, 1, 223, 224, 225, 448, 2047, 2048)
MAC = list(range(0x20, 0x2A))
DICE = random.Random(20)

passed = 0
failed: List[str] = []


def check(name: str, holds: bool) -> None:
    """Counts one check."""
    global passed
    if holds:
        passed += 1
    else:
        failed.append(name)


def equal(name: str, found: object, wanted: object) -> None:
    """Checks that a value is the wanted one."""
    check(f"{name}: {str(found)[:80]}, wanted {str(wanted)[:80]}", found == wanted)


def octets(count: int) -> List[int]:
    """Octets at random."""
    return [DICE.randrange(256) for _ in range(count)]


def bits(row: Sequence[int]) -> str:
    """Bits as text."""
    return "".join(str(bit) for bit in row)


# Words


class Fixed:
    """Proposes the same changes to every word, and counts how often."""

    reach = 0

    def __init__(self, proposal: Sequence[Tuple[int, int]]) -> None:
        self.proposal = [w.Change(*change) for change in proposal]
        self.asked = 0

    def propose(self, word: Sequence[int]) -> List[w.Change]:
        self.asked += 1
        return list(self.proposal)


def damaged(word: Sequence[int], count: int) -> Tuple[List[int], List[w.Change]]:
    """A word with a count of octets changed, and the changes, ascending."""
    places = sorted(DICE.sample(range(len(word)), count))
    changes = [w.Change(place, DICE.randrange(1, 256)) for place in places]
    return w.changed(word, changes), changes


def codeword(length: int) -> List[int]:
    """A codeword with a message of a length."""
    message = octets(length)
    return message + w.parity(message)


def check_octets() -> None:
    equal("0x80 times alpha", w.multiply(0x80, w.ALPHA), 0x1D)
    equal("inverse of zero", w.inverse(0), 0)
    check("inverses", all(w.multiply(a, w.inverse(a)) == 1 for a in range(1, 256)))
    check("order of alpha", len({w.power(w.ALPHA, i) for i in range(255)}) == 255)
    a, b, c = octets(3)
    left = w.multiply(a, b ^ c)
    equal("distributive", left, w.multiply(a, b) ^ w.multiply(a, c))


def check_parity() -> None:
    row = w.parity([1])
    equal("generator's first", w.GENERATOR[:2], [1, 0x76])
    equal("parity of 0x01", (row[0], row[-1]), (0x76, 0x4F))
    equal("parity of 0x01 is the generator", row, w.GENERATOR[1:])
    for length in (1, 2, 100, 224):
        word = codeword(length)
        check("codeword", w.is_codeword(word))
        equal("syndromes of a codeword", w.syndromes(word), [0] * 16)
        check("changed codeword", not w.is_codeword(damaged(word, 1)[0]))
    check("16 octets", not w.is_codeword([0] * 16))
    check("17 octets", w.is_codeword([0] * 17))
    check("240 octets", w.is_codeword([0] * 240))
    check("241 octets", not w.is_codeword([0] * 241))


def check_encode() -> None:
    for length, room, lawful in ((0, 16, 0), (1, 16, 1), (224, 16, 1), (225, 16, 0), (5, 15, 0), (5, 17, 0)):
        message, buffer = octets(length), [9] * room
        answer = w.encode(message, buffer)
        if lawful:
            equal("encode", (answer, buffer), (None, w.parity(message)))
        else:
            equal("encode refused", (answer, buffer), (w.Refusal(20, "word coder"), [9] * room))


def check_acceptance() -> None:
    word, right = damaged(codeword(30), 2)
    other = [w.Change(right[0].place, right[0].octet ^ 0xFF or 1), right[1]]
    cases = [
        (1, []),
        (2, [w.Change(0, 0)] * 9),
        (3, [w.Change(46, 1), w.Change(46, 0)]),
        (4, [w.Change(3, 0), w.Change(3, 0)]),
        (5, right + [w.Change(next(p for p in range(46) if p not in (right[0].place, right[1].place)), 0)]),
        (6, [right[0]]),
        (6, other),
        (None, right),
        (None, right[::-1]),
    ]
    for cause, proposal in cases:
        row = list(word)
        equal("accept", w.accept(word, proposal), cause)
        equal("apply", w.apply(row, proposal), cause)
        check("applied", (row == word) if cause else w.is_codeword(row))


def check_menders() -> None:
    for length in (1, 16, 57, 224):
        right = codeword(length)
        for mender in (w.Still(), w.Single(), w.Full()):
            equal("proposal on a codeword", mender.propose(right), [])
        for count in range(1, 10):
            word, changes = damaged(right, count)
            equal("still", w.Still().propose(word), [])
            equal("single", w.Single().propose(word), changes if count == 1 else [])
            if count <= 8:
                equal("full", w.Full().propose(word), changes)
                equal("mend", w.mend(w.Full(), word), w.Mended(count))
                equal("mended", word, right)
            else:
                equal("full beyond its reach", w.Full().propose(word), [])
    for size in (0, 16, 241):
        equal("no word", w.Full().propose([1] * size), [])
        equal("no word mended", w.mend(w.Full(), [1] * size), w.Mended(0, 1))


def check_then() -> None:
    word, changes = damaged(codeword(40), 3)
    for first, second in ((w.Still(), w.Full()), (w.Single(), w.Full()), (w.Full(), w.Still())):
        mender = w.Then(first, second)
        equal("reach of then", mender.reach, 8)
        equal("then", mender.propose(word), changes)
    wrong, last = Fixed([(0, 0)]), Fixed([(99, 1)])
    equal("then without acceptance", w.Then(wrong, last).propose(word), last.proposal)
    equal("asked", (wrong.asked, last.asked), (1, 1))
    right = Fixed(changes)
    equal("then, first accepted", w.Then(right, last).propose(word), changes)
    equal("second not asked", last.asked, 1)
    equal("nested reach", w.Then(w.Still(), w.Then(w.Single(), w.Still())).reach, 1)


# Frames


def check_sequences() -> None:
    equal("x, seed 0", bits(f.scrambler(0)[:16]), "0001111000111010")
    equal("x, seed 1", bits(f.scrambler(1)[:16]), "1001111000111001")
    equal("y", bits(f.spreader()[:16]), "0000100000111100")
    equal("scrambled zeros", f.scrambled([0, 0], 0, 0), [0x78, 0x5C])
    equal("distance of a and b", sum(c != d for c, d in zip(f.CODE_A, f.CODE_B)), 64)
    equal("header check", f.header_check(range(0x31, 0x3A)), [0x6E, 0x90])
    equal("pilots", (bits(f.pilots(1)), bits(f.pilots(2))), ("1010", "11001100"))


def check_sizes() -> None:
    rows = (
        (0, 1, 0, 0, 0, 6656),
        (224, 1, 240, 4, 112, 8704),
        (225, 1, 257, 5, 484, 9216),
        (2048, 6, 2208, 35, 116, 50176),
    )
    for length, mode, coded, blocks, stuff, chips in rows:
        equal("coded octets", f.coded_octets(length), coded)
        equal("blocks", f.block_count(length), blocks)
        equal("stuff bits", len(f.stuff_bits(length, 3)), stuff)
        equal("frame length", f.frame_length(mode, length), chips)
        equal("chips", len(f.frame_chips(mode, 3, True, MAC, [7] * length)), chips)


def check_places() -> None:
    body, seed = octets(225), 5
    for mode in (1, 2, 6, 7):
        n, spread = f.MODES[mode].channels, f.MODES[mode].spread
        chips = f.frame_chips(mode, seed, False, MAC, body)
        start = 2560 * n + 4096
        equal("sync", chips[: 2048 * n], f.CODE_A * (16 * n))
        equal("last pilots", chips[-4 * spread:], f.pilots(spread))
        row = [chips[start + 512 * spread * (k // 508) + spread * (k % 508)] for k in range(5 * 508)]
        x, plain = f.scrambler(seed), f.octet_bits(body)
        equal("first message", row[:1792], [bit ^ x[96 + i] for i, bit in enumerate(plain[:1792])])
        equal("second message", row[1920:1928], [plain[1792 + i] ^ x[1888 + i] for i in range(8)])
        equal("stuff bits", row[2056:], list(x[1896:1896 + 484]))
        if spread == 2:
            equal("bits sent twice", chips[start:start + 1016:2], chips[start + 1:start + 1016:2])


# Stations


def built(station: Station, mode: int, body: Sequence[int], aggregation: bool = False) -> List[int]:
    """The chips of a build on a station."""
    chips = [0] * f.frame_length(mode, len(body))
    answer = station.build(mode, aggregation, MAC, list(body), chips)
    check("built", isinstance(answer, Built))
    return chips


def damage_words(chips: List[int], mode: int, length: int, most: int) -> int:
    """Changes up to most octets in each word; answers how many in all."""
    n, total = f.MODES[mode].channels, DICE.randint(0, most)
    for octet in DICE.sample(range(32), total):
        flip_header(chips, n, octet, DICE.randrange(1, 256))
    for k in range(f.word_count(length)):
        size = min(224, length - 224 * k) + 16
        count = DICE.randint(0, most)
        for octet in DICE.sample(range(size), count):
            flip_payload(chips, mode, 240 * k + octet, DICE.randrange(1, 256))
        total += count
    return total


def damage_unjudged(chips: List[int], mode: int, length: int) -> None:
    """Changes SYNC, later SFD groups, pilots, stuff bits and code chips."""
    flip(chips, unjudged_spots(mode, length))
    for k in range(4):
        first = 2048 * f.MODES[mode].channels + 128 * k
        flip(chips, DICE.sample(range(first, first + 128), 31))


def round_trip(mode: int, length: int, most: int, mender: w.Mender) -> None:
    """A build, damage and a read."""
    station, n = Station(mender), f.MODES[mode].channels
    seed = DICE.randrange(16)
    for _ in range(seed):
        built(station, 1, [])
    body, aggregation = octets(length), DICE.random() < 0.5
    chips = built(station, mode, body, aggregation)
    total = damage_words(chips, mode, length, most)
    damage_unjudged(chips, mode, length)
    room, mac = [0xEE] * 2050, [0xEE] * 10
    answer = station.read(n, chips + [1] * 5, room, mac)
    name = f"mode {mode} length {length}"
    equal(name, answer, Delivery(mode, seed, aggregation, length, total))
    equal(f"{name} body", room, body + [0] * (2048 - length) + [0xEE] * 2)
    equal(f"{name} MAC", mac, MAC)
    equal(f"{name} tally", station.delivered(mode), Delivered(1, total))
    equal(f"{name} seed after", station.seed, (seed + 1) % 16)


def check_round_trips() -> None:
    for mode in f.MODES:
        for length in LENGTHS:
            round_trip(mode, length, 8, w.Full())
        round_trip(mode, 448, 1, w.Then(w.Still(), w.Single()))
        round_trip(mode, 225, 0, w.Still())


def check_build() -> None:
    station = Station(w.Still())
    cases = (
        (1, 0, 10, 0, 6656), (1, 8, 10, 0, 90000), (1, 0, 9, 3000, 0), (2, 1, 9, 0, 6656),
        (2, 1, 11, 3000, 0), (3, 1, 10, 2049, 0), (4, 1, 10, 0, 6655), (4, 6, 10, 2048, 50175),
    )
    for number, mode, mac, length, room in cases:
        chips = [5] * room
        answer = station.build(mode, True, [0] * mac, [0] * length, chips)
        equal("build refused", answer, w.Refusal(number, "door"))
        equal("chips untouched", chips, [5] * room)
    equal("builds refused", [station.refused(k) for k in range(1, 6)], [3, 2, 1, 2, 0])
    for k in range(18):
        chips, body = [5] * 7200, [k]
        equal("seed", station.build(1, False, MAC, body, chips), Built(k % 16, 7168))
        equal("frame", chips, f.frame_chips(1, k % 16, False, MAC, [k]) + [5] * 32)
        equal("body as before", body, [k])


def expect(
    station: Station, n: int, window: Sequence[int], wanted: w.Refusal, room: int = 2049, mac_room: int = 10
) -> None:
    """Checks a read that is turned down, its buffers and its count."""
    body, mac = [0xEE] * room, [0xEE] * mac_room
    before = station.refused(wanted.number)
    equal("refusal", station.read(n, window, body, mac), wanted)
    blank = 2048 if wanted.number >= 9 else 0
    equal(f"body after {wanted.number}", body, [0] * blank + [0xEE] * (room - blank))
    equal(f"MAC after {wanted.number}", mac, [0 if blank else 0xEE] * mac_room)
    equal(f"count of {wanted.number}", station.refused(wanted.number), (before or 0) + 1)


def check_door() -> None:
    station = Station(w.Full())
    chips = built(station, 1, [1])
    for n in (0, 5):
        expect(station, n, chips, w.Refusal(5, "door"), 0, 0)
    expect(station, 1, [], w.Refusal(6, "door"), 2047)
    for room in (9, 11):
        expect(station, 1, [], w.Refusal(6, "door"), 2048, room)
    expect(station, 1, chips[:6655], w.Refusal(7, "door"))
    expect(station, 2, chips, w.Refusal(7, "door"))
    expect(station, 1, chips + [2] * 60000, w.Refusal(7, "door"))
    expect(station, 1, chips[:9] + [2] + chips[10:-1] + [3], w.Refusal(8, "door", 9))


def check_preamble() -> None:
    station = Station(w.Full())
    chips = built(station, 1, [])
    two = built(station, 1, [1] * 448)
    dark = [0] * 128
    expect(station, 1, with_code(chips, 1, 1, dark), w.Refusal(9, "preamble", 2))
    wrong_first = with_code(chips, 1, 0, f.CODE_A)
    expect(station, 1, with_code(wrong_first, 1, 3, dark), w.Refusal(9, "preamble", 4))
    expect(station, 1, wrong_first, w.Refusal(10, "preamble"))
    expect(station, 1, with_code(chips, 1, 0, f.CODE_B), w.Refusal(10, "preamble"))
    expect(station, 1, with_code(chips, 1, 0, f.CODES["-b"]), w.Refusal(11, "preamble"))
    none = list(chips)
    for k in (1, 2, 3):
        none = with_code(none, 1, k, f.CODES["-a"])
    expect(station, 1, none, w.Refusal(12, "preamble"))
    expect(station, 1, with_code(chips, 1, 2, f.CODE_B), w.Refusal(12, "preamble"))
    expect(station, 1, with_code(chips, 1, 3, f.CODES["-a"]), w.Refusal(13, "preamble"))
    half = [i for i in range(128) if f.CODE_A[i] != f.CODE_B[i]][:32]
    between = [c ^ (i in half) for i, c in enumerate(f.CODE_A)]
    expect(station, 1, with_code(two, 1, 2, between), w.Refusal(9, "preamble", 3))


def check_header() -> None:
    station = Station(w.Still())
    chips = built(station, 3, [1, 2, 3])
    bad = list(chips)
    flip_header(bad, 2, 20, 0xFF)
    expect(station, 2, bad, w.Refusal(14, "header", 0, 1))
    proposals: Tuple[Tuple[int, Sequence[Tuple[int, int]]], ...] = (
        (2, [(0, 0)] * 9), (3, [(32, 1)]), (4, [(1, 0)] * 2), (5, [(1, 0)]), (6, [(1, 1)]),
    )
    for cause, proposal in proposals:
        expect(Station(Fixed(proposal)), 2, bad, w.Refusal(14, "header", 0, cause))
    message = f.header_word(f.PhyHeader(0, False, 3), MAC)[:16]
    message[15] ^= 0x80
    wrong = message + w.parity(message)
    expect(station, 2, with_header(chips, 2, wrong), w.Refusal(15, "header"))
    for reserved, length, number in ((1, 3, 16), (8, 2049, 16), (0, 2049, 17), (0, 2**23 - 1, 17)):
        word = f.header_word(f.PhyHeader(0, True, length, reserved), MAC)
        expect(station, 2, with_header(chips, 2, word), w.Refusal(number, "header"))


def check_majority() -> None:
    station = Station(w.Still())
    chips = built(station, 1, [])
    for i in range(256):
        bit = chips[2560 + 16 * i] ^ f.spreader()[16 * i]
        for j in DICE.sample(range(16), 7 if bit else 8):
            chips[2560 + 16 * i + j] ^= 1
    equal("majority", station.read(1, chips, [0] * 2048, [0] * 10), Delivery(1, 0, False, 0, 0))
    one = next(i for i in range(256) if f.octet_bits(f.read_header_word(1, chips))[i])
    flipped = [j for j in range(16) if chips[2560 + 16 * one + j] != f.spreader()[16 * one + j]]
    chips[2560 + 16 * one + flipped[0]] ^= 1
    expect(station, 1, chips, w.Refusal(14, "header", 0, 1))


def check_payload() -> None:
    station = Station(w.Still())
    chips = built(station, 1, [1])
    expect(station, 1, chips[:7167], w.Refusal(18, "payload"))
    flip_payload(chips, 1, 0, 0xFF)
    expect(station, 1, chips, w.Refusal(19, "payload", 1, 1))
    long = built(station, 2, octets(600))
    flip_payload(long, 2, 240 + 100, 0x10)
    flip_payload(long, 2, 480 + 100, 0x10)
    mender = Fixed([(100, 0x11)])
    expect(Station(mender), 2, long, w.Refusal(19, "payload", 2, 6))
    equal("asked until a row applies", mender.asked, 1)
    mender = Fixed([(100, 0x10)])
    answer = Station(mender).read(2, long, [0] * 2048, [0] * 10)
    equal("mended by a fixed proposal", answer, Delivery(2, 1, False, 600, 2))
    equal("asked about damaged words only", mender.asked, 2)
    for octet in range(240, 248):
        flip_payload(long, 2, octet, 1)
    expect(Station(w.Full()), 2, long, w.Refusal(19, "payload", 2, 1))


def check_tally() -> None:
    station = Station(w.Full())
    equal("fresh", [station.delivered(k) for k in range(1, 8)], [Delivered(0, 0)] * 7)
    equal("fresh refusals", [station.refused(k) for k in range(1, 20)], [0] * 19)
    equal("no such mode", (station.delivered(0), station.delivered(8)), (None, None))
    equal("no such refusal", (station.refused(0), station.refused(20)), (None, None))
    chips = built(station, 1, [])
    for octet in range(5):
        flip_header(chips, 1, octet, 1)
    station.windows[1], station.mended[1] = COUNT_END - 1, COUNT_END - 7
    station.refusals[5] = COUNT_END - 1
    for total in (Delivered(COUNT_END, COUNT_END - 2), Delivered(COUNT_END, COUNT_END)):
        station.read(1, chips, [0] * 2048, [0] * 10)
        equal("saturating delivery", station.delivered(1), total)
        station.read(5, chips, [], [])
        equal("saturating refusal", station.refused(5), COUNT_END)


def check_parts() -> None:
    station = Station(w.Still())
    chips = built(station, 4, octets(100))
    start = 2560 * 3 + 4096
    equal("header part", window_header(3, chips), Part(7680, chips[7680:7680 + 4096]))
    for n, window, number in ((0, [], 5), (5, [], 5), (3, chips[: start - 1], 7), (1, [0] * 65537, 7)):
        equal("header refused", window_header(n, window), w.Refusal(number, "door"))
    for k in (0, 1):
        first = start + 1024 * k
        equal("block", window_block(4, chips, k), Part(first, chips[first:first + 1016]))
    equal("no block", window_block(4, chips, 2), None)
    equal("pilots missing", window_block(4, chips[:-1], 1), None)
    for mode, window, number in ((0, [], 1), (8, chips, 1), (4, chips[: start - 1], 7), (4, [0] * 65537, 7)):
        equal("block refused", window_block(mode, window, 0), w.Refusal(number, "door"))
    equal("parts not tallied", [station.refused(k) for k in (1, 5, 7)], [0, 0, 0])


# Scripts


def answers(lines: Sequence[str]) -> List[Optional[str]]:
    """The answers to a script's lines."""
    script = [line.encode("latin-1") for line in lines]
    return [answer for _, answer in answered(Desk(), script)]


def check_script_calls() -> None:
    mac, room = "20212223242526272829", "7000"
    chips = bits(f.frame_chips(1, 0, True, MAC, []))
    cases: Sequence[Tuple[str, Optional[str]]] = (
        ("# a comment", None),
        ("", None),
        ("\r", None),
        ("mode 1", "error 4: no station is open"),
        ("open then(single,full) # a comment", "opened reach=8"),
        (f"build 1 1 {mac} - {room}", f"built seed=0 chips=6656 buffers=filled {chips}"),
        (f"build 1 1 {mac} - 6655", "refused number=4 layer=door place=0 buffers=untouched"),
        (f"build 1 1 {mac} - 6655 1", "error 8: wrong number of words"),
        (
            f"read 1 {chips}01 2049 10\r",
            f"delivered mode=1 seed=0 aggregation=1 length=0 mended=0 buffers=filled mac={mac} body=-",
        ),
        (f"read 1 {'0' * 6656}", "refused number=9 layer=preamble place=1 buffers=zeroed"),
        ("read 1 - 2047 10", "refused number=6 layer=door place=0 buffers=untouched"),
        ("mode 1", "mode 1 windows=1 octets=0"),
        ("mode 0", "none"),
        ("refusal 9", "refusal 9 count=1"),
        ("refusal 20", "none"),
        (f"header 1 {chips}", f"part place=2560 chips=4096 {chips[2560:]}"),
        (f"block 1 0 {chips}", "none"),
        ("block 8 0 -", "refused number=1 layer=door place=0"),
    )
    for (line, wanted), found in zip(cases, answers([line for line, _ in cases])):
        equal(f"answer to {line[:40]}", found, wanted)


def check_script_words() -> None:
    right, wrong = octets_text(codeword(1)), octets_text([1] * 17)
    first = int(right[:2], 16) ^ 0x10
    cases: Sequence[Tuple[str, str]] = (
        ("encode 01", f"parity {octets_text(w.GENERATOR[1:])}"),
        ("encode 01 15", "refused number=20 layer=word-coder place=0 buffers=untouched"),
        ("hcs 313233343536373839", "hcs 6e90"),
        (f"codeword {right}", "yes"),
        (f"codeword {wrong}", "no"),
        (f"propose single {first:02x}{right[2:]}", "proposed 0:10"),
        (f"propose full {right}", "nothing"),
        (f"accept {first:02x}{right[2:]} 0:10", f"accepted {right}"),
        (f"accept {right} 0:10", "unmended cause=6"),
        (f"mend full {right}", "codeword"),
        (f"mend full {first:02x}{right[2:]}", f"mended {right}"),
        (f"mend still {wrong}", "unmended cause=1"),
    )
    for (line, wanted), found in zip(cases, answers([line for line, _ in cases])):
        equal(f"answer to {line[:40]}", found, wanted)


def check_script_errors() -> None:
    for text, lines in ERROR_LINES.items():
        for line, found in zip(lines, answers(lines)):
            equal(f"error of {line[:40]}", (found or "").split(": ")[-1], text)
    desk = Desk()
    desk.answer(b"codeword -", 1)
    equal("status of calls", desk.status, 0)
    equal("number of an error", desk.answer(b"x", 12), "error 12: unknown call")
    equal("status of an error", desk.status, 1)
    check("right lines", not any("error" in (text or "") for text in answers(RIGHT_LINES)))


def check_script_buffers() -> None:
    blank, mac = [0] * 2048, [0] * 10
    equal("filled", read_state([5] + [0] * 2047 + [0xEE], [7] * 10, 1), "filled")
    equal("not filled", read_state([5] * 2 + [0] * 2046, [7] * 10, 1), "other")
    equal("later octet", read_state(blank + [0], mac, 0), "other")
    equal("zeroed", read_state(blank + [0xEE], mac, None), "zeroed")
    equal("half zeroed", read_state(blank, [0] * 9 + [1], None), "other")
    equal("untouched", read_state([0xEE] * 2047, [0xEE] * 3, None), "untouched")
    equal("built", build_state([0, 1, 9], 2, [3], [3]), "filled")
    equal("later chip", build_state([0, 1, 1], 2, [3], [3]), "other")
    equal("unlawful chip", build_state([0, 2, 9], 2, [3], [3]), "other")
    equal("body changed", build_state([9, 9], None, [3], [4]), "other")
    equal("not built", build_state([9, 9], None, [3], [3]), "untouched")


def check_generated() -> None:
    chosen = list(groups(7, 60))
    equal("same seed", list(groups(7, 60)), chosen)
    equal("first group", chosen[0].kind, "unopened")
    lines = list(script_lines(chosen))
    text = with_answers(lines).split(b"\n")[:-1]
    equal("script of a stored set", [line for line in text if not line.startswith(b"> ")], lines)
    found = [answer for _, answer in answered(Desk(), lines) if answer is not None]
    equal("answers of a stored set", [line[2:].decode() for line in text if line.startswith(b"> ")], found)


def main() -> int:
    for part in (
        check_octets, check_parity, check_encode, check_acceptance, check_menders, check_then,
        check_sequences, check_sizes, check_places, check_build, check_door, check_preamble,
        check_header, check_majority, check_payload, check_tally, check_parts, check_round_trips,
        check_script_calls, check_script_words, check_script_errors, check_script_buffers,
        check_generated,
    ):
        part()
    for name in failed:
        print("failed:", name)
    print(f"{passed} of {passed + len(failed)} checks passed")
    return 1 if failed else 0


if __name__ == "__main__":
    sys.exit(main())
