#!/usr/bin/env python3
"""How fast the bench tool sends and receives, in Mbit of transport stream for each second of CPU time, best of several runs.

    speed.py [PROGRAM] [RUNS]    (crates/bench/out/bench and 5 unless said; prove and build it first by examples/run)

Two settings: 8K, 64-QAM, 7/8, which carries most, and 2K, QPSK, 1/2, which has most cells to a packet. Run it on an idle machine.
"""
import os
import random
import resource
import subprocess
import sys
import tempfile

PROGRAM = sys.argv[1] if len(sys.argv) > 1 else "crates/bench/out/bench"
RUNS = int(sys.argv[2]) if len(sys.argv) > 2 else 5
# name, codes of mode, constellation and rate, packets in a super-frame, super-frames
SETTINGS = [("8K 64-QAM 7/8", (1, 2, 4), 5292, 4), ("2K QPSK 1/2", (0, 0, 0), 252, 20)]


def cpu(*words):
    """The CPU time of one run."""
    before = resource.getrusage(resource.RUSAGE_CHILDREN)
    subprocess.run([PROGRAM, *words], check=True, stdout=subprocess.DEVNULL, stderr=subprocess.DEVNULL)
    after = resource.getrusage(resource.RUSAGE_CHILDREN)
    return after.ru_utime - before.ru_utime


def main():
    made = random.Random(1)
    with tempfile.TemporaryDirectory() as folder:
        record, packets, cells, back = (os.path.join(folder, name) for name in ("record", "packets", "cells", "back"))
        for name, codes, frame, frames in SETTINGS:
            with open(record, "wb") as file:
                file.write(bytes([0, 8, 1, *codes, 0, 0, 0, 0]))
            with open(packets, "wb") as file:
                for _ in range(frame * frames):
                    file.write(b"\x47" + made.randbytes(187))
            bits = frame * (frames + 1) * 1504
            sent = min(cpu("send", record, packets, cells) for _ in range(RUNS))
            heard = min(cpu("receive", record, cells, back) for _ in range(RUNS))
            print(f"{name}: send {bits / sent / 1e6:.0f}, receive {bits / heard / 1e6:.0f} Mbit/s")


if __name__ == "__main__":
    main()
