#!/usr/bin/env python3
"""The digests that the program `vectors` is held to, from channel.py and tps.py alone: for each of the thirty combinations of mode,
constellation and rate, the cells of two super-frames of made packets and the closing one, and the TPS blocks of frames 1 to 4.

    tools/vectors.py            writes crates/samples/src/expected.rt (some minutes)
    tools/vectors.py --check    says whether crates/samples/src/expected.rt is what it would write
"""
import pathlib
import sys

import channel
import tps

TARGET = pathlib.Path(__file__).resolve().parent.parent / "crates" / "samples" / "src" / "expected.rt"


def codes(index):
    """The settings with a number from 0 to 29, which is also, one more, the seed of their packets."""
    identifier = None if index % 2 == 0 else 12345 + 199 * index
    return index // 15, index // 5 % 3, index % 5, index % 4, identifier


def cells_digest(index):
    mode, constellation, rate, _, _ = codes(index)
    k = channel.packets_in_super_frame(mode, constellation, rate)
    data = channel.made_packets(2 * k, index + 1) + channel.NULL_PACKET * k
    return channel.digest(channel.cells(data, mode, constellation, rate))


def tps_digest(index):
    mode, constellation, rate, guard, identifier = codes(index)
    return channel.digest(bit for frame in (1, 2, 3, 4) for bit in tps.block(mode, constellation, rate, guard, identifier, frame))


def source():
    lines = [
        "// Written by tools/vectors.py: digests of the cells and of the TPS blocks of each sample, from an implementation that shares no code with the crates.",
        "#[derive(Clone, Copy)]",
        "pub struct Expected {",
        "    pub cells: u64,",
        "    pub tps: u64,",
        "}",
        "",
        "pub const EXPECTED: [Expected; 30] = [",
    ]
    for index in range(30):
        lines += ["    Expected {", f"        cells: {cells_digest(index)},", f"        tps: {tps_digest(index)},", "    },"]
        print(index, file=sys.stderr)
    return "\n".join(lines + ["];", ""])


def main(arguments):
    if arguments == []:
        TARGET.parent.mkdir(parents=True, exist_ok=True)
        TARGET.write_text(source())
    elif arguments == ["--check"]:
        if TARGET.read_text() != source():
            sys.exit("crates/samples/src/expected.rt is not what tools/vectors.py writes")
    else:
        sys.exit(__doc__)


if __name__ == "__main__":
    main(sys.argv[1:])
