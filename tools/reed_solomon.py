#!/usr/bin/env python3
"""Reed-Solomon (204,188) of EN 300 744, clause 4.3.2, straight from the clause, to compare with.

The field is worked by logarithms, the parity by long division of message(x) * x^16 by g(x).

    reed_solomon.py HEX..    prints the 16 parity bytes of each message, in hex
    reed_solomon.py          prints those of the messages that the tests use
    reed_solomon.py --header    writes host/expected_parity.h
    reed_solomon.py --check     says whether host/expected_parity.h is what it would write
"""
import functools
import pathlib
import sys

TARGET = pathlib.Path(__file__).resolve().parent.parent / "host" / "expected_parity.h"

P = 0x11D  # x^8 + x^4 + x^3 + x^2 + 1

EXP = []
x = 1
for _ in range(255):
    EXP.append(x)
    x <<= 1
    if x > 255:
        x ^= P
LOG = {v: i for i, v in enumerate(EXP)}


def mul(a, b):
    return 0 if a == 0 or b == 0 else EXP[(LOG[a] + LOG[b]) % 255]


def poly_mul(p, q):
    out = [0] * (len(p) + len(q) - 1)
    for i, a in enumerate(p):
        for j, b in enumerate(q):
            out[i + j] ^= mul(a, b)
    return out


@functools.cache
def generator():
    g = [1]
    for i in range(16):
        g = poly_mul(g, [1, EXP[i]])
    return g


def parity(message):
    """The remainder of message(x) * x^16 by g(x), highest coefficient first."""
    g = generator()
    rest = list(message) + [0] * 16
    for at in range(len(message)):
        factor = rest[at]
        for j, c in enumerate(g):
            rest[at + j] ^= mul(factor, c)
    return rest[-16:]


def value(block, point):
    """The value at a point by sums of powers, first byte highest."""
    out = 0
    for k, byte in enumerate(reversed(block)):
        power = EXP[(LOG[point] * k) % 255]
        out ^= mul(byte, power)
    return out


def report(name, message):
    rest = parity(message)
    block = list(message) + rest
    assert all(value(block, EXP[i]) == 0 for i in range(16))
    print(f"{name}: {' '.join(f'{b:02x}' for b in rest)}")


def made_messages():
    """Messages for the C host: byte i of message k is the number 1 + 31 k + 17 i, times itself, divided by 8, modulo 256."""
    return [[(1 + 31 * k + 17 * i) ** 2 // 8 % 256 for i in range(188)] for k in range(100)]


def header():
    rows = [f'    "{bytes(parity(message)).hex()}",' for message in made_messages()]
    head = "/* Written by tools/reed_solomon.py: the parity of made message k, whose byte i is (1 + 31 k + 17 i) squared, divided by 8, modulo 256. */"
    return "\n".join([head, "static const char *const expected_parity[] = {", *rows, "};", ""])


def main(arguments):
    if arguments == ["--header"]:
        TARGET.write_text(header())
    elif arguments == ["--check"]:
        if TARGET.read_text() != header():
            sys.exit("host/expected_parity.h is not what tools/reed_solomon.py writes")
    elif arguments:
        for text in arguments:
            report(text, bytes.fromhex(text))
    else:
        print("g(x):", " ".join(str(c) for c in generator()))
        report("188 zero bytes", bytes(188))
        report("187 zero bytes, then 1", bytes(187) + b"\x01")
        report("byte i is i mod 256, 188 bytes", bytes(i % 256 for i in range(188)))
        report("47 hex, then 187 bytes ff hex", b"\x47" + b"\xff" * 187)


if __name__ == "__main__":
    main(sys.argv[1:])
