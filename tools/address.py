#!/usr/bin/env python3
"""The address sequence H of EN 300 744, clause 4.3.4.2, straight from the clause and apart from the crates.

Words of bits are lists with bit 0 first. Prints what the tests of the crates `address` and `chart` expect,
and checks the printed rows of table C.1 (annex C) that are typed in below.

    tools/address.py            the beginnings, the ends and the digests for 2K and 8K
    tools/address.py 2K|8K      H, one address to a line
"""
import sys

# R' bit positions (upper row) to R bit positions (lower row), as tables 3a and 3b print them
TABLE_3A = dict(zip([9, 8, 7, 6, 5, 4, 3, 2, 1, 0], [0, 7, 5, 1, 8, 2, 6, 9, 3, 4]))
TABLE_3B = dict(zip([11, 10, 9, 8, 7, 6, 5, 4, 3, 2, 1, 0], [5, 11, 3, 0, 10, 8, 6, 9, 2, 4, 1, 7]))
MODES = {
    "2K": dict(m_max=2048, n_r=11, n_max=1512, taps=[0, 3], wires=TABLE_3A),
    "8K": dict(m_max=8192, n_r=13, n_max=6048, taps=[0, 1, 4, 6], wires=TABLE_3B),
}

# table C.1: (carrier, first input bit of the six), 2K, 64-QAM, the first symbol of a super-frame, which is even.
# The pilots among the carriers before it take no word: 0 and 12 at the front; 1692 and 1704 at the back, where
# the last word is at carrier 1703.
FRONT = [(1, 0), (2, 4602), (3, 36), (4, 4656), (5, 48), (6, 2376), (7, 780), (8, 6906), (9, 4590), (10, 5286), (11, 2364), (13, 4788)]
BACK = [(1691, 4194), (1693, 7782), (1694, 6624), (1695, 3402), (1696, 546), (1697, 8574), (1698, 8376), (1699, 1680), (1700, 7620), (1701, 5700), (1702, 8826), (1703, 8724)]


def registers(mode):
    """R'_0, R'_1 and so on."""
    width = mode["n_r"] - 1
    words = [[0] * width, [0] * width, [1] + [0] * (width - 1)]
    while len(words) < mode["m_max"]:
        last = words[-1]
        words.append(last[1:] + [sum(last[t] for t in mode["taps"]) % 2])
    return words


def addresses(name):
    mode = MODES[name]
    h = []
    for i, r1 in enumerate(registers(mode)):
        r = [0] * len(r1)
        for source, target in mode["wires"].items():
            r[target] = r1[source]
        value = (i % 2) * 2 ** (mode["n_r"] - 1) + sum(r[j] * 2**j for j in range(mode["n_r"] - 1))
        if value < mode["n_max"]:
            h.append(value)
    assert sorted(h) == list(range(mode["n_max"])), name
    return h


def digest(h):
    """One number for the whole of H, in its order: each address added to 8191 times the number so far, modulo 2^61 - 1."""
    total = 0
    for x in h:
        total = (total * 8191 + x) % (2**61 - 1)
    return total


def first_bit(word):
    """The input bit that stream 0 has in this word of a 64-QAM symbol (clause 4.3.4.1: stream 0 takes each sixth bit, and I0 moves none)."""
    return 6 * word


def annex_c():
    h = addresses("2K")
    word_at = {place: q for q, place in enumerate(h)}
    for places, rows in [(range(0, 12), FRONT), (range(1500, 1512), BACK)]:
        for place, (carrier, bit) in zip(places, rows):
            assert first_bit(word_at[place]) == bit, (place, carrier, bit, word_at[place])
    return len(FRONT) + len(BACK)


def main():
    if len(sys.argv) == 2:
        print(*addresses(sys.argv[1]), sep="\n")
        return
    for name in MODES:
        h = addresses(name)
        inverse = [h.index(p) for p in range(len(h))]
        print(name, "begins", h[:10])
        print(name, "ends", h[-6:])
        print(name, "words at the first places", inverse[:10])
        print(name, "digest", digest(h))
    print("table C.1:", annex_c(), "rows agree")


if __name__ == "__main__":
    main()
