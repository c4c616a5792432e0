#!/usr/bin/env python3
"""Makes an input for batchlist of a file of floats.

    tools/pack_batch.py CODE RULE LIMIT FLOATS [--scale S] > batch.bin

CODE is 0 to 3 and RULE 0 to 4 (3 is the house default); FLOATS is a file of 32-bit little-endian floats, or of numbers in text,
one after another. Frames of N values are taken from its front, as many as there are whole ones, at most 24.
"""
import argparse
import struct
import sys

N = (512, 576, 512, 174)


def read_floats(path):
    with open(path, "rb") as file:
        data = file.read()
    try:
        return [float(word) for word in data.decode("ascii").split()]
    except ValueError:
        return list(struct.unpack(f"<{len(data) // 4}f", data[: len(data) // 4 * 4]))


def main():
    parser = argparse.ArgumentParser(description=__doc__, formatter_class=argparse.RawDescriptionHelpFormatter)
    parser.add_argument("code", type=int, choices=range(4))
    parser.add_argument("rule", type=int, choices=range(5))
    parser.add_argument("limit", type=int)
    parser.add_argument("floats")
    parser.add_argument("--scale", type=float, default=0.0, help="for rule 2")
    given = parser.parse_args()
    if not 0 <= given.limit <= 65535:
        parser.error("LIMIT is 0 to 65535")
    n, values = N[given.code], read_floats(given.floats)
    frames = min(len(values) // n, 24)
    if frames == 0:
        parser.error(f"a frame of code {given.code} has {n} values, and the file has {len(values)}")
    out = struct.pack("<BBHfHH", given.code, given.rule, given.limit, given.scale, frames, 0)
    out += b"".join(struct.pack("<II", j * n, n) for j in range(frames))
    out += struct.pack(f"<{frames * n}f", *values[: frames * n])
    sys.stdout.buffer.write(out)


if __name__ == "__main__":
    main()
