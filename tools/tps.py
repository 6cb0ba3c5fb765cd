#!/usr/bin/env python3
"""TPS blocks straight from EN 300 744, clause 4.6.2, with lists of bits and long division; no code is shared with the crates.

    tools/tps.py            writes host/expected_tps.h
    tools/tps.py --check    says whether host/expected_tps.h is what it would write
"""
import pathlib
import sys

TARGET = pathlib.Path(__file__).resolve().parent.parent / "host" / "expected_tps.h"

# h(x), clause 4.6.2.11: the powers with coefficient one.
GENERATOR_POWERS = (14, 9, 8, 6, 5, 4, 2, 1, 0)

CONSTELLATION = {0: "00", 1: "01", 2: "10"}                          # table 11: QPSK, 16-QAM, 64-QAM
CODE_RATE = {0: "000", 1: "001", 2: "010", 3: "011", 4: "100"}       # table 13: 1/2, 2/3, 3/4, 5/6, 7/8
GUARD_INTERVAL = {0: "00", 1: "01", 2: "10", 3: "11"}                # table 14: 1/32, 1/16, 1/8, 1/4
MODE = {0: "00", 1: "01"}                                            # table 15: 2K, 8K
FRAME = {1: "00", 2: "01", 3: "10", 4: "11"}                         # table 10


def parity(message):
    """The 14 coefficients of the remainder of message(x) * x^14 by h(x), highest power first."""
    divisor = [1 if 14 - place in GENERATOR_POWERS else 0 for place in range(15)]
    left = message + [0] * 14
    for place in range(len(message)):
        if left[place]:
            for offset, coefficient in enumerate(divisor):
                left[place + offset] = (left[place + offset] + coefficient) % 2
    assert not any(left[:len(message)])
    return left[len(message):]


def block(mode, constellation, rate, guard, identifier, frame):
    """s1 to s67, as a list of bits; identifier is None or 0 to 65535."""
    text = "0011010111101110" if frame in (1, 3) else "1100101000010001"
    text += "010111" if identifier is None else "011111"
    text += FRAME[frame] + CONSTELLATION[constellation] + "000" + CODE_RATE[rate] + "000" + GUARD_INTERVAL[guard] + MODE[mode]
    if identifier is None:
        text += "00000000"
    else:
        cell = format(identifier, "016b")                            # b15 first
        text += cell[:8] if frame in (1, 3) else cell[8:]
    text += "000000"
    message = [int(bit) for bit in text]
    assert len(message) == 53
    return message + parity(message)


def cases():
    for mode in MODE:
        for constellation in CONSTELLATION:
            for rate in CODE_RATE:
                for guard in GUARD_INTERVAL:
                    yield mode, constellation, rate, guard, None
    for identifier in (0, 1, 0xA55A, 65535):
        yield 0, 0, 0, 0, identifier
        yield 1, 2, 4, 3, identifier


def header():
    lines = [
        "/* Written by tools/tps.py: settings, and their TPS blocks for frames 1 to 4, as s1 to s67 in 17 hexadecimal digits with a zero bit before s1. */",
        "static const struct {",
        "    unsigned char mode, constellation, rate, guard, has_identifier;",
        "    unsigned short identifier;",
        "    const char *blocks[4];",
        "} expected_tps[] = {",
    ]
    for mode, constellation, rate, guard, identifier in cases():
        blocks = []
        for frame in FRAME:
            bits = block(mode, constellation, rate, guard, identifier, frame)
            blocks.append('"%017x"' % int("".join(map(str, bits)), 2))
        flag, number = (0, 0) if identifier is None else (1, identifier)
        lines.append("    {%d, %d, %d, %d, %d, %d, {%s}}," % (mode, constellation, rate, guard, flag, number, ", ".join(blocks)))
    lines.append("};")
    return "\n".join(lines) + "\n"


def main(arguments):
    if arguments == []:
        TARGET.write_text(header())
    elif arguments == ["--check"]:
        if TARGET.read_text() != header():
            sys.exit("host/expected_tps.h is not what tools/tps.py writes")
    else:
        sys.exit(__doc__)


if __name__ == "__main__":
    main(sys.argv[1:])
