#!/usr/bin/env python3
"""Writes a log of N fields in plain encodings, to see what a field costs: H lines, then I and P frames.

  gen_fields.py N [--frames N] > log

Every field is a signed number of variable length (encoding 0), in inter frames the difference to the frame before (predictor 1); one intra frame in 32.
"""
import argparse
import os
import random
import sys

sys.path.insert(0, os.path.join(os.path.dirname(os.path.abspath(__file__)), os.pardir, "host"))
sys.dont_write_bytecode = True  # host/ is source alone
from gen_flight import var, zig  # noqa: E402

INTERVAL = 32


def header(n):
    def items(first, second, each):
        return ",".join([first, second] + [each] * n)

    lines = (
        ("I name", ",".join(["loopIteration", "time"] + ["debug[%d]" % i for i in range(n)])),
        ("I signed", items("0", "0", "1")),
        ("I predictor", items("0", "0", "0")),
        ("I encoding", items("1", "1", "0")),
        ("P predictor", items("6", "2", "1")),
        ("P encoding", items("9", "0", "0")),
    )
    return "".join("H Field %s:%s\n" % line for line in lines).encode()


def section(n, frames):
    rng = random.Random(1)
    values, out = [0] * n, bytearray()
    for iteration in range(frames):
        steps = [round(rng.gauss(0, 20)) for _ in values]
        values = [value + step for value, step in zip(values, steps)]
        if iteration % INTERVAL == 0:
            out += b"I" + var(iteration) + var(31_000_000 + 500 * iteration) + b"".join(map(zig, values))
        else:
            out += b"P" + zig(0) + b"".join(map(zig, steps))
    return bytes(out)


def main():
    ap = argparse.ArgumentParser()
    ap.add_argument("fields", type=int)
    ap.add_argument("--frames", type=int, default=10000)
    args = ap.parse_args()
    sys.stdout.buffer.write(header(args.fields) + section(args.fields, args.frames))


if __name__ == "__main__":
    main()
