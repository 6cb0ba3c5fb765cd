#!/usr/bin/env python3
"""Writes the example, beside this file and for the gate's run of the tool: record.bin, the settings 2K, QPSK, 1/2, guard 1/32 with no identifier,
and stream.ts, a super-frame of 252 of the packets that tools/channel.py makes for comparison."""
import pathlib
import sys

RECORD = bytes([0, 8, 1, 0, 0, 0, 0, 0, 0, 0])
PACKETS = 252


here = pathlib.Path(__file__).resolve().parent
sys.path.insert(0, str(here.parent / "tools"))
from channel import made_packets  # noqa: E402

for folder in (here, here.parent / "crates" / "bench" / "data"):
    (folder / "record.bin").write_bytes(RECORD)
    (folder / "stream.ts").write_bytes(bytes(made_packets(PACKETS)))
