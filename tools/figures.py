#!/usr/bin/env python3
"""What batchfigures has to print, added up from listings that the original's decoders made.

    tools/figures.py            writes crates/batchfigures/data, args and stdout
    tools/figures.py --all DIR  writes each stored input of crates/listing_replay to DIR, and what is printed for all of them to DIR/expected

The inputs and their listings are those of crates/listing_replay (tools/listings.rs made them). The figures come from the text of the
listings alone, by exact fractions; no batch is decoded here.
"""
import itertools
import math
import pathlib
import struct
import sys
from fractions import Fraction

ROOT = pathlib.Path(__file__).resolve().parent.parent
REPLAY = ROOT / "crates/listing_replay"
PROGRAM = ROOT / "crates/batchfigures"


def stored():
    """Each stored input with its listing, as lines."""
    data = (REPLAY / "stdin").read_bytes()
    lines = (REPLAY / "stdout").read_text().splitlines()
    at, line = 0, 0
    while at < len(data):
        (size,) = struct.unpack_from("<I", data, at)
        given = data[at + 4 : at + 4 + size]
        at += 4 + size
        frames = 0 if lines[line].startswith("refused") else int(lines[line].split()[-1])
        yield given, lines[line : line + 1 + frames]
        line += 1 + frames
    assert line == len(lines)


def refusal(listing):
    """The number of a refused input, or 0."""
    return int(listing[0].split()[1]) if listing[0].startswith("refused") else 0


def figures(listing):
    """Frames, clean frames, sum of counts, sum of rounds."""
    frames = [line.split() for line in listing[1:]]
    return len(frames), sum(f[3] == "clean" for f in frames), sum(int(f[1]) for f in frames), sum(int(f[2]) for f in frames)


def lowest(n, frames):
    f = Fraction(n, frames)
    return f"{f.numerator}/{f.denominator}"


def report(files):
    """The text for (input, listing) pairs; a pair of nothing stands for a file that cannot be read."""
    lines, total = [], (0, 0, 0, 0)
    for place, (_, listing) in enumerate(files, 1):
        if listing is None:
            lines.append(f"{place} unreadable")
        elif refusal(listing):
            lines.append(f"{place} refused {refusal(listing)}")
        else:
            total = tuple(map(sum, zip(total, figures(listing))))
    frames, clean, counts, rounds = total
    if frames == 0:
        lines.append("refused 15")
    else:
        share, mean = lowest(clean, frames), lowest(counts, frames)
        lines.append(f"frames {frames} clean {clean} counts {counts} rounds {rounds} share {share} mean {mean}")
    return "\n".join(lines) + "\n"


def kinds(given, listing):
    """What an input is an example of."""
    if refusal(listing):
        yield "refused", refusal(listing)
        return
    code = given[0]
    frames = [line.split() for line in listing[1:]]
    values = struct.unpack_from(f"<{(len(given) - 12 - 8 * len(frames)) // 4}f", given, 12 + 8 * len(frames))
    if not frames:
        yield "no frames", 0
    for f in frames:
        yield f[3], code
        if f[1] == "0" and f[3] == "open":
            yield "codeword that is open", any(math.isnan(v) for v in values)
        if int(f[2]) > 1 and f[3] == "clean":
            yield "clean after rounds", code


def chosen():
    """The shortest example of each kind, in a fixed order."""
    best = {}
    for given, listing in stored():
        for kind in kinds(given, listing):
            if kind not in best or len(given) < len(best[kind][0]):
                best[kind] = (given, listing)
    inputs = []
    for kind in sorted(best, key=lambda kind: (str(kind[0]), kind[1])):
        if best[kind] not in inputs and len(best[kind][0]) <= 4096:
            inputs.append(best[kind])
    # refused ones among the others
    turned = [pair for pair in inputs if refusal(pair[1])]
    counted = [pair for pair in inputs if not refusal(pair[1])]
    return [pair for both in itertools.zip_longest(counted, turned) for pair in both if pair]


def write_all(folder):
    folder = pathlib.Path(folder)
    folder.mkdir(parents=True, exist_ok=True)
    files = list(stored())
    for place, (given, _) in enumerate(files, 1):
        (folder / f"{place:04}.bin").write_bytes(given)
    (folder / "expected").write_text(report(files))
    print(len(files), "files")


def write_data():
    data = PROGRAM / "data"
    data.mkdir(exist_ok=True)
    for old in data.iterdir():
        old.unlink()
    files, names = chosen(), []
    for place, (given, _) in enumerate(files, 1):
        names.append(f"{place:02}.bin")
        (data / names[-1]).write_bytes(given)
    # a name that no file has, and a folder, which opens and cannot be read
    for name, at in (("missing.bin", 3), (".", 8)):
        names.insert(at, name)
        files.insert(at, (None, None))
    (PROGRAM / "args").write_text("\n".join(names) + "\n")
    (PROGRAM / "stdout").write_text(report(files))
    print(len(names), "arguments")


if __name__ == "__main__":
    if len(sys.argv) == 3 and sys.argv[1] == "--all":
        write_all(sys.argv[2])
    elif len(sys.argv) == 1:
        write_data()
    else:
        sys.exit(__doc__)
