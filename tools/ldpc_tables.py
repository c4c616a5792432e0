#!/usr/bin/env python3
"""Writes the tables of the (174,91) code, taken from the Rust's ldpc.rs.

    ORION_SRC=folder python3 tools/ldpc_tables.py crates

ORION_SRC names a folder that holds the Rust's ldpc.rs. Written are src/tables.rt of crate ldpc (the constants of the checks),
specs/Tables.antt (the Rust's tables of them as lists) and proofs/Arrays.antt (the arrays of the Tanner graph as lists) of crate code174,
src/tables.rt and specs/Tables.antt of crate ldpc_encoding (the generator) and proofs/CheckSets.antt of crate codewords (the checks to add
up for each parity bit). The graph's arrays and the sets are worked out here from NM and NUM_ROWS; that they are right is proved in
Graph.antt and BySlots.antt of crate code174 and in Codewords.antt of crate codewords, and nothing rests on this script. Run `rt fmt`
afterwards.
"""
import os
import re
import sys


def table(text, name):
    """The numbers of a constant, in order, the nesting of rows left out."""
    body = re.search(r"const %s: [^=]*=\s*(.*?);\n" % name, text, re.S).group(1)
    return [int(n, 0) for n in re.findall(r"0x[0-9a-fA-F]+|\d+", body)]


def constant(note, name, kind, numbers, shown):
    """A constant of the source: (note) name : [kind; n], each number shown by the format."""
    entries = "".join("    %s,\n" % (shown % n) for n in numbers)
    return "// %s\npub const %s: [%s; %d] = [\n%s];\n" % (note, name, kind, len(numbers), entries)


def listed(note, name, numbers, a_line, shown):
    """A list of antt, as many numbers to a line as a_line says."""
    lines = []
    for i in range(0, len(numbers), a_line):
        lines.append("    " + " ∷ ".join(shown % n for n in numbers[i:i + a_line]) + " ∷\n")
    return "-- %s\nunfoldable pub %s : List ℕ\n%s =\n%s    []\n" % (note, name, name, "".join(lines))


def check_sets(rows):
    """For each parity bit, as binary digits, the checks whose sum covers that parity position and no other: by elimination."""
    pairs = [[sum(1 << (p - 91) for p in row if p >= 91), 1 << c] for c, row in enumerate(rows)]
    for bit in range(len(pairs)):
        pivot = next(r for r in range(bit, len(pairs)) if pairs[r][0] >> bit & 1)
        pairs[bit], pairs[pivot] = pairs[pivot], pairs[bit]
        for r, pair in enumerate(pairs):
            if r != bit and pair[0] >> bit & 1:
                pairs[r] = [pair[0] ^ pairs[bit][0], pair[1] ^ pairs[bit][1]]
    return [checks for _, checks in pairs]


SPECS = "use Rattle.std.specs.Prelude.{List, [], ◌∷◌, ℕ}\n"
PROOFS = "use mathlib.Core.List.{List, [], ◌∷◌}\nuse Prim.Native.Nat.{ℕ}\n"


def main():
    folder = os.environ["ORION_SRC"]
    with open(os.path.join(folder, "ldpc.rs"), encoding="utf-8") as f:
        text = f.read()
    crates = sys.argv[1]
    counting, code, encoding = (os.path.join(crates, name) for name in ("ldpc", "code174", "ldpc_encoding"))
    generator, nm, num_rows, mn = (table(text, t) for t in ("GENERATOR", "NM", "NUM_ROWS", "MN"))
    assert (len(generator), len(nm), len(num_rows), len(mn)) == (996, 581, 83, 522)

    check_start, check_bits = [0], []
    for c in range(83):
        check_bits += [p - 1 for p in nm[7 * c:7 * c + num_rows[c]]]
        check_start.append(len(check_bits))

    # by slots: entry j of check c lies at place 83 * j + c
    slot = [83 * j + c for c in range(83) for j in range(num_rows[c])]
    edges = [slot[e] for b in range(174) for e in range(len(check_bits)) if check_bits[e] == b]
    pads = [83 * 6 + c for c in range(83) if num_rows[c] == 6]

    made = [
        ("The parity generator: 83 rows of 12 bytes, most significant bit first. Row i gives parity bit i.", "GENERATOR", generator, 12, "0x%02x"),
    ]
    rust = [
        ("The parity checks: 83 rows of up to 7 positions, counted from 1; 0 means no entry.", "NM", nm, 7, "%d"),
        ("How many positions each row of NM has.", "NUM_ROWS", num_rows, 20, "%d"),
        ("The checks of each of the 174 positions, three a position, counted from 1.", "MN", mn, 3, "%d"),
    ]
    graph = [
        ("Where each check's positions start in CHECK_BITS, and the end of the last.", "CHECK_STARTS", check_start, "check_start"),
        ("The positions of each check, counted from 0: one for each of the 522 edges.", "CHECK_BITS", check_bits, "check_bits"),
        ("By slots: the three places of each position's edges, checks ascending. Entry j of check c lies at place 83 j + c.", "EDGES", edges, "slot_edge"),
        ("By slots: the place after the last entry of each check of six positions.", "PADS", pads, "slot_pads"),
    ]

    with open(os.path.join(encoding, "src/tables.rt"), "w", encoding="utf-8") as f:
        f.write("// The generator of the (174,91) code. Written by tools/ldpc_tables.py.\n\n")
        f.write("\n".join(constant(note, name, "u8", t, shown) for note, name, t, _, shown in made))

    with open(os.path.join(counting, "src/tables.rt"), "w", encoding="utf-8") as f:
        f.write("// The checks of the (174,91) code in tables, and its Tanner graph in arrays. Written by tools/ldpc_tables.py.\n\n")
        parts = [constant(note, name, "u8", t, shown) for note, name, t, _, shown in rust]
        parts += [constant(note, name, "u16", t, "%d") for note, name, t, _ in graph]
        f.write("\n".join(parts))

    names = {"GENERATOR": "generator", "NM": "nm", "NUM_ROWS": "num_rows", "MN": "mn"}
    for folder, what, tables in ((encoding, "generator", made), (code, "tables of the checks", rust)):
        with open(os.path.join(folder, "specs/Tables.antt"), "w", encoding="utf-8") as f:
            f.write("-- The %s of the Rust's `ldpc.rs`, row after row: \"the definition takes the file's tables\" (document 01).\n"
                    "-- Written by tools/ldpc_tables.py.\n" % what + SPECS)
            for note, name, t, a_line, shown in tables:
                f.write("\n" + listed(note, names[name], t, a_line, shown))

    with open(os.path.join(code, "proofs/Arrays.antt"), "w", encoding="utf-8") as f:
        f.write("-- The Tanner graph's arrays, as the source's constants have them; `Graph.antt` and `BySlots.antt` show that they are right, "
                "by computation.\n"
                "-- Written by tools/ldpc_tables.py.\n" + PROOFS)
        for note, name, t, spelled in graph:
            f.write("\n" + listed(note, spelled, t, 20, "%d"))

    rows = [check_bits[check_start[c]:check_start[c + 1]] for c in range(83)]
    with open(os.path.join(crates, "codewords/proofs/CheckSets.antt"), "w", encoding="utf-8") as f:
        f.write("-- For each parity bit, the checks that add up to its generator row; `Codewords.antt` shows that they do, by computation.\n"
                "-- Written by tools/ldpc_tables.py.\n" + PROOFS)
        f.write("\n" + listed("A number for each of the 83 parity bits: its binary digit c, the lowest being 0, is 1 where check c is added.",
                              "check_sets", check_sets(rows), 1, "0x%021x"))


main()
