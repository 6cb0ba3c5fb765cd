#!/usr/bin/env python3
"""The whole channel coder of EN 300 744 (clause 4.3, non-hierarchical 2K and 8K), list by list, straight from the clauses.

It shares no code with the crates: it is what they are compared with. Each step takes the whole list and gives the whole list.

    channel.py MODE CONSTELLATION RATE SUPER_FRAMES    (codes as in docs/rules/settings.md)
        codes that many super-frames of made packets and the closing super-frame of null packets,
        and prints the packets, the cells and the cells' digest
"""
import operator
import sys

import address
import reed_solomon

SYMBOL = [1512, 6048]
WIDTH = [2, 4, 6]
RATE = [(1, 2), (2, 3), (3, 4), (5, 6), (7, 8)]

# table 2: what is sent, in order, of the outputs for the bits of a period: (output, bit)
PUNCTURING = [
    [("X", 0), ("Y", 0)],
    [("X", 0), ("Y", 0), ("Y", 1)],
    [("X", 0), ("Y", 0), ("Y", 1), ("X", 2)],
    [("X", 0), ("Y", 0), ("Y", 1), ("X", 2), ("Y", 3), ("X", 4)],
    [("X", 0), ("Y", 0), ("Y", 1), ("Y", 2), ("Y", 3), ("X", 4), ("Y", 5), ("X", 6)],
]

# clause 4.3.4.1: the stream of each of v input bits in turn, and how far each stream is turned
DEMULTIPLEX = {2: [0, 1], 4: [0, 2, 1, 3], 6: [0, 2, 4, 1, 3, 5]}
TURN = [0, 63, 105, 42, 21, 84]


def dispersal(data):
    """Clause 4.3.1: the mask of a group of eight packets, then byte by byte."""
    register = [1, 0, 0, 1, 0, 1, 0, 1, 0, 0, 0, 0, 0, 0, 0]
    mask = [0xFF]
    for place in range(1, 1504):
        byte = 0
        for _ in range(8):
            bit = register[13] ^ register[14]
            register = [bit] + register[:14]
            byte = 2 * byte + bit
        mask.append(0 if place % 188 == 0 else byte)
    return bytes(b ^ mask[t % 1504] for t, b in enumerate(data))


def outer_code(data):
    """Clause 4.3.2: sixteen bytes after every 188."""
    out = bytearray()
    for at in range(0, len(data) - 187, 188):
        message = data[at : at + 188]
        out += message + bytes(reed_solomon.parity(message))
    return bytes(out) + data[len(data) // 188 * 188 :]


def outer_interleaving(data):
    """Clause 4.3.2: byte t leaves as byte t + 204 (t mod 12), zero where none has arrived."""
    out = bytearray(len(data))
    for t, b in enumerate(data):
        place = t + 204 * (t % 12)
        if place < len(out):
            out[place] = b
    return bytes(out)


def serial(data):
    bits = [bytes((b >> k) & 1 for k in range(7, -1, -1)) for b in range(256)]
    return b"".join(bits[b] for b in data)


def taps(octal):
    """The delays of a generator polynomial, its highest bit first."""
    return [d for d in range(7) if (octal >> (6 - d)) & 1]


def sums(bits, delays):
    """The sum modulo 2, at each bit, of the bits that came so much earlier; zeros stand before the first."""
    padded = bytes(6) + bits
    return bytes([a ^ b ^ c ^ d ^ e for a, b, c, d, e in zip(*(padded[6 - delay :] for delay in delays))])


def inner_code(bits, rate):
    """Clause 4.3.3: generator polynomials 171 and 133 octal, then table 2."""
    outputs = {"X": sums(bits, taps(0o171)), "Y": sums(bits, taps(0o133))}
    pattern = PUNCTURING[rate]
    period = max(bit for _, bit in pattern) + 1
    whole = len(bits) // period
    out = bytearray(whole * len(pattern))
    for place, (output, bit) in enumerate(pattern):
        out[place :: len(pattern)] = outputs[output][bit : whole * period : period]
    rest = [outputs[output][whole * period + bit] for output, bit in pattern if whole * period + bit < len(bits)]
    return bytes(out) + bytes(rest)


def bit_interleaving(bits, v):
    """Clause 4.3.4.1: demultiplexing, six bit interleavers over 126 bits, words with stream 0 highest."""
    words = bytearray()
    for at in range(0, len(bits) - 126 * v + 1, 126 * v):
        turned = [b""] * v
        for k in range(v):
            e = DEMULTIPLEX[v][k]
            stream = bits[at + k : at + 126 * v : v]
            turned[e] = stream[TURN[e] :] + stream[: TURN[e]]
        for column in zip(*turned):
            word = 0
            for bit in column:
                word = 2 * word + bit
            words.append(word)
    return bytes(words)


def symbol_interleaving(words, mode):
    """Clause 4.3.4.2: even symbols by H, odd ones by its inverse."""
    n = SYMBOL[mode]
    h = address.addresses(["2K", "8K"][mode])
    inverse = [0] * n
    for q in range(n):
        inverse[h[q]] = q
    # word q goes to place H(q) of an even symbol, so that place k has the word with H(q) = k; place q of an odd one has word H(q)
    even, odd = operator.itemgetter(*inverse), operator.itemgetter(*h)
    out = bytearray()
    for symbol, at in enumerate(range(0, len(words) - n + 1, n)):
        out += bytes((even if symbol % 2 == 0 else odd)(words[at : at + n]))
    return bytes(out)


def packets_in_super_frame(mode, constellation, rate):
    over, under = RATE[rate]
    return SYMBOL[mode] * WIDTH[constellation] * over // (6 * under)


def cells(data, mode, constellation, rate):
    v = WIDTH[constellation]
    step = outer_interleaving(outer_code(dispersal(data)))
    return symbol_interleaving(bit_interleaving(inner_code(serial(step), rate), v), mode)


NULL_PACKET = bytes([0x47, 0x1F, 0xFF, 0x10] + [0xFF] * 184)


def made_packets(count, seed=1):
    """Packets for comparison: 47 hex, then 187 bytes that a generator x -> x * 1103515245 + 12345 modulo 2^32 gives, its bits 16 to 23."""
    x, out = seed, bytearray()
    for _ in range(count):
        out.append(0x47)
        for _ in range(187):
            x = (x * 1103515245 + 12345) % 2**32
            out.append((x >> 16) & 0xFF)
    return bytes(out)


def digest(units):
    """FNV-1a with 64 bits."""
    d = 0xCBF29CE484222325
    for u in units:
        d = ((d ^ u) * 0x100000001B3) % 2**64
    return d


def main():
    mode, constellation, rate, super_frames = (int(a) for a in sys.argv[1:5])
    k = packets_in_super_frame(mode, constellation, rate)
    out = cells(made_packets(super_frames * k) + NULL_PACKET * k, mode, constellation, rate)
    print("packets", super_frames * k, "closing", k, "cells", len(out), "digest", format(digest(out), "016x"))


if __name__ == "__main__":
    main()
