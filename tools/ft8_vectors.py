#!/usr/bin/env python3
"""ft8_vectors.py FOLDER: writes what crates/ft8_vectors is run on, from `ft8code` (Debian's package wsjtx).

Reads the messages of ft8_messages.txt beside this file. FOLDER/stdin gets one line of 215 bytes a message: the 77 source bits,
the 14 checksum bits and the 83 parity bits that ft8code prints, and the message, filled with spaces to 37 characters.
FOLDER/stdout gets the first three fields of each line."""
import pathlib
import re
import subprocess
import sys


def vector(message):
    printed = subprocess.run(["ft8code", message], capture_output=True, text=True, check=True).stdout
    fields = re.findall(r"^([01]+)\s*$", printed, re.M)
    if [len(f) for f in fields] != [77, 14, 83]:
        sys.exit(f"ft8code printed no vector for {message!r}")
    return fields


messages = pathlib.Path(__file__).with_name("ft8_messages.txt").read_text().splitlines()
vectors = [(vector(m), m) for m in messages]
folder = pathlib.Path(sys.argv[1])
(folder / "stdin").write_text("".join(" ".join(v) + " " + m.ljust(37) + "\n" for v, m in vectors))
(folder / "stdout").write_text("".join(" ".join(v) + "\n" for v, m in vectors))
print(len(vectors), "vectors,", len({v[0] for v, m in vectors}), "different")
