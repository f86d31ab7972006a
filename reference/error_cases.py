"""Generated lines that are no calls, and calls that are written in unusual but right ways."""

from __future__ import annotations

from typing import Dict, List, Tuple

from dealer import Dealer

MAC = "00010203040506070809"
LISTED = ",".join(f"{place}:01" for place in range(240))
NESTED = "then(then(then(still,single),full),still)"

ERROR_LINES: Dict[str, Tuple[str, ...]] = {
    "unknown call": (
        "x", " ", " open still", "Open still", "opened", "op", "close", "READ 1 -", "0", "-",
        "  # nothing", " # nothing", "drive 1", "modes 1",
    ),
    "wrong number of words": (
        "open", "open still full", "open # still", "open still ", "build", f"build 1 0 {MAC}",
        f"build 1 0 {MAC} - 1 1", "read 1", "read 1 - 2048", "read 1 - 2048 10 1", "mode",
        "mode 1 1", "refusal", "refusal  1", "header 1", "header 1 - -", "block 1 -",
        "block 1 0 - 0", "encode", "encode 00 16 16", "codeword", "codeword # 00", "codeword 00 00",
        "hcs", "hcs 00 00", "propose full", "propose full 00 00", "accept 00", "accept - - -",
        "mend full", "mend full 00 1", "mode x y", "build 256 2 0 x y z",
    ),
    "bad number": (
        "mode ", "mode x", "mode 256", "mode -1", "mode +1", "mode 1x", "mode 0x1", "mode 1.0",
        "mode 1234567890", "mode 0000000001", "mode 999999999", "refusal 256", "refusal a",
        "refusal  # none", "header 256 -", "header  -", "block 256 0 -", "block 1 65536 -",
        "block 1 - -", "block x y z", "read 256 x", "read 1 - 1000001 10", "read 1 - 2048 1000001",
        "read 1 - x 10", "read 1 - 2048 ", f"build 256 0 {MAC} -", f"build 1 2 {MAC} -",
        f"build 1 x {MAC} -", f"build 1 - {MAC} -", f"build 1 0 {MAC} - 1000001",
        f"build 1 0 {MAC} - -1", f"build x 2 {MAC} 0", "encode 00 1000001", "encode 00 ",
        "encode 00 x",
    ),
    "bad octets": (
        "codeword 0", "codeword 0g", "codeword 0A", "codeword 00-", "codeword --", "codeword 0x00",
        "codeword 00,00", "codeword 000", "codeword ", "codeword 00#00", "hcs AB", "hcs  # none",
        "encode 0 x", "encode x", "propose full zz", "mend still 0", "accept 0 x", "accept x 0:00",
        "build 1 0 0 x", "build 1 1 00 x 0", "build 1 0 - 123 x", "build 1 0  -",
    ),
    "bad chips": (
        "read 1 x", "read 1 01a", "read 1 --", "read 1 0,1", "read 1 0-", "read 1 ", "read 1 x y z",
        "header 1 0x1", "header 1 ", "block 1 0 01-", "block 1 0 a", "block 255 65535 -0",
    ),
    "bad changes": (
        "accept 00 0", "accept 00 0:", "accept 00 :00", "accept 00 0:0", "accept 00 0:000",
        "accept 00 0:00,", "accept 00 ,0:00", "accept 00 0:00,,1:00", "accept 00 0:0g",
        "accept 00 0:00;1:00", "accept 00 -,0:00", "accept 00 0:00:00", "accept 00 ",
        "accept 00 --", f"accept 00 {LISTED},240:01",
    ),
    "bad mender": (
        "open ", "open x", "open Still", "open stil", "open stills", "open then", "open then()",
        "open then(still)", "open then(still,full", "open then(still,full))", "open then(,still)",
        "open then(still,)", "open then(still,full,single)", "open then(still;full)",
        f"open then({NESTED},full)", f"open then(still,{NESTED})", "open Then(still,full)",
        "open -", "open then(still,full)full", "propose none 00", "propose  00", "propose x x",
        "mend x 0", "mend then(full) -", "mend 00 full",
    ),
}
ODD_LINES = (
    "open\tstill", "hcs\xff 00", "\xe9\x00", "\r\r", "open still\x00", "open then(still,\xff)",
    "mode \xb2", "mode 1\x00", "refusal \t1", "codeword \xff\xff", "codeword 00\t",
    "codeword 00\r\r", "header 0 01\xb2", "read 1 01\r\r", "accept 00 0:00\xa0",
    "accept 00 0:\xb2\xb2", "codeword 00 \r", "mode\x0b1", "codeword\xa0-", "codeword 00 # \xff",
    "codeword 00\r", "hcs - # \r", "#\xff", "#\r", "\r", "mode 1\r",
)
NOT_OPEN = "no station is open"
NOT_OPEN_LINES = (
    "mode 1", "refusal 1", "read 1 -", "read 0 - 0 0", f"build 1 0 {MAC} -", "build 0 1 - - 0",
    "mode 255",
)
RIGHT_LINES = (
    "codeword -", "codeword 00 # 00", "hcs 313233343536373839 # 6e90", "hcs -",
    "encode 01 000000016", "encode 01 # parity", "encode -", "propose full - # nothing",
    f"accept 00 {LISTED}", "accept 00 999999999:ff", "accept - -", f"mend {NESTED} 00",
    "mend still -", "header 000 -", "header 1 0123456789", "block 008 00000 9", "block 1 65535 -",
    "codeword 00 #", "codeword 00 ##", "accept 00 000000001:00,0:ff", "propose then(still,full) 00",
)
PASSED_OVER = ("", "#", "# a comment", "#mode 1")


def unopened_group(dealer: Dealer) -> List[str]:
    """Lines before a station is open; this group must be the first of a script."""
    lines = ["mode", "mode 256", *NOT_OPEN_LINES, "codeword -", "open x", "mode 1", "open"]
    return lines + ["refusal 5 # not open", dealer.opening(), "mode 1", "open x", "refusal 5"]


def all_errors(dealer: Dealer) -> List[str]:
    """Every printable line that is no call, and every line that is one."""
    wrong = [line for cards in ERROR_LINES.values() for line in cards]
    return [dealer.opening(), *wrong, *RIGHT_LINES]


def errors_group(dealer: Dealer) -> List[str]:
    """Lines that are no calls among lines that are, and a station that they do not touch."""
    lines = [dealer.opening(), dealer.build(0, 0)]
    if dealer.deal("odd", (False, False, True)):
        lines += [dealer.deal("odd line", ODD_LINES) for _ in range(6)]
        return lines + ["refusal 1"]
    for text, cards in ERROR_LINES.items():
        lines.append(dealer.deal(text, cards))
        if dealer.randrange(3) == 0:
            lines.append(dealer.deal("passed over", PASSED_OVER))
        if dealer.randrange(3) == 0:
            lines.append(dealer.deal("right", RIGHT_LINES))
    return lines + [dealer.deal("error asked", ("refusal 1", "refusal 5", "mode 1"))]
