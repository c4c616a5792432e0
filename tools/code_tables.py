#!/usr/bin/env python3
"""Works out the tables of the staircase codes from their K, M and seed, and prints them.

    python3 tools/code_tables.py index              crates/cycle_index/src/tables.rt, whole
    python3 tools/code_tables.py constant CODE NAME one constant, as a tables.rt has it
    python3 tools/code_tables.py list CODE NAME     one list of antt, as crates/CODE/proofs has it
    python3 tools/code_tables.py write FILE..       puts each constant and list that a file has already in again, as it is printed
    python3 tools/code_tables.py check              says which constant or list of the repository has other numbers
    python3 tools/code_tables.py code CODE          N, K, M, the generator's last state, how many relaxed picks and cycles, and
                                                    how many message columns a row has

A CODE is a name of CODES below, a NAME one of NAMES. For a fourth code add a line to CODES; docs/FOURTH_CODE.md has the other steps.
The rules stand here once more, after document 01 ("The staircase codes"). What is printed is proved right by the crates that hold
it, and nothing rests on this script.
"""
import os
import re
import sys

# name: K, M, seed
CODES = {
    "n512r12": (256, 256, 0x4C44504335313200),
    "n576r23": (384, 192, 0x4C44504335313201),
    "n512r34": (384, 128, 0x4C44504335313202),
}


# ---- the construction


def draw(state):
    """One draw of the xorshift generator."""
    state ^= state << 13 & (1 << 64) - 1
    state ^= state >> 7
    return state ^ (state << 17 & (1 << 64) - 1)


def construct(k, m, state):
    """The message columns, each the list of its rows, the generator's last state, and how many picks were relaxed."""
    columns, loads, relaxed = [], [0] * m, 0
    together = [set() for _ in range(m)]  # the rows that a column holds together with each row
    for _ in range(k):
        picked = []
        for _ in range(3):
            state = draw(state)
            start = state % m
            best = None
            for row in list(range(start, m)) + list(range(start)):
                if row in picked or any(row in together[other] for other in picked):
                    continue
                if best is None or loads[row] < loads[best]:
                    best = row
            if best is None:
                relaxed += 1
                best = next(row for row in list(range(start, m)) + list(range(start)) if row not in picked)
            picked.append(best)
        for row in picked:
            loads[row] += 1
            together[row].update(picked)
        columns.append(sorted(picked))
    return columns, state, relaxed


class Tables:
    """A code's tables, by the names of the lists."""

    def __init__(self, code):
        self.k, self.m, seed = CODES[code]
        self.n = self.k + self.m
        self.columns, self.state, self.relaxed = construct(self.k, self.m, seed)
        k, m, n = self.k, self.m, self.n
        taps = [[p for p in range(k) if row in self.columns[p]] for row in range(m)]
        checks = [taps[i] + ([k] if i == 0 else [k + i, k + i - 1]) for i in range(m)]
        self.check_bits = [p for check in checks for p in check]
        self.check_starts = ends(checks)
        self.widths = {len(row) for row in taps}
        self.rows = [row for column in self.columns for row in column]
        self.taps = [p for row in taps for p in row]
        # entry j of row i lies at j * m + i
        self.places = [check.index(p) * m + i for p in range(k) for i, check in enumerate(checks) if p in check]
        held = [[i for i in range(m) if p in checks[i]] for p in range(n)]
        entries = [(r, s, p) for p in range(n) for a, r in enumerate(held[p]) for s in held[p][a + 1:]]
        self.index = [number for entry in entries for number in entry]
        self.cycles = sorted((p, q, r, s) for r, s, p in entries for t, u, q in entries if p < q and (r, s) == (t, u))


def ends(lists):
    """Where each list begins when they lie one after another, and where the last ends."""
    starts = [0]
    for part in lists:
        starts.append(starts[-1] + len(part))
    return starts


# the lists, with the constant that holds each; the index is crate cycle_index's, the other constants are staircase's, and each code's lists its own crate's
NAMES = {
    "rows": "ROWS",
    "check_starts": "CHECK_STARTS",
    "check_bits": "CHECK_BITS",
    "taps": "TAPS",
    "places": "EDGES",
    "index": "INDEX",
}

# How many of its constants and lists the repository has of each code: a name that is gone is not passed over.
HELD = 11

# ---- what is printed


def constant(code, name, numbers):
    """A constant of the source, an entry a line."""
    lines = "".join("    %d,\n" % n for n in numbers)
    return "pub const %s_%s: [u16; %d] = [\n%s];\n" % (code.upper(), NAMES[name], len(numbers), lines)


def antt_list(code, name, numbers):
    """A list of antt, in lines of at most 150 characters."""
    lines = ["   "]
    for word in ["%d ∷" % n for n in numbers] + ["[]"]:
        if len(lines[-1]) + 1 + len(word) > 150:
            lines.append("   ")
        lines[-1] += " " + word
    ident = name + str(list(CODES).index(code))
    return "unfoldable pub %s : List ℕ\n%s =\n%s\n" % (ident, ident, "\n".join(lines))


INDEX_HEAD = """\
// The index of shared rows of each staircase code, printed by tools/code_tables.py: for each column and each two of the rows that it holds, the lower row,
// the higher row and the column. That it is what the check list gives is proved.
"""


def index_file(tables):
    return INDEX_HEAD + "".join("\n" + constant(code, "index", tables[code].index) for code in CODES)


# ---- what the files hold


def printed(tables):
    """Each constant and list, with its head and the pattern that finds it in a text."""
    for code in CODES:
        for name in NAMES:
            for show in (constant, antt_list):
                text = show(code, name, getattr(tables[code], name))
                head, body = text.split("=", 1)
                head = head.split(":")[0].strip()
                end = r"\];\n" if show is constant else r"\[\]\n"
                yield head, body, text, re.compile(re.escape(head) + r" ?:[^=]*=(.*?)" + end, re.S)


def numbers(text):
    return re.findall(r"\d+", text)


def check(tables):
    """Compares what the repository has of these tables, found from this script's place; how many differ."""
    crates = os.path.join(os.path.dirname(os.path.abspath(__file__)), "..", "crates")
    wrong = held = 0
    for folder in ["staircase/src"] + [code + "/proofs" for code in CODES] + ["cycle_index/src"]:
        for file in sorted(os.listdir(os.path.join(crates, folder))):
            if not file.endswith((".rt", ".antt")):
                continue
            with open(os.path.join(crates, folder, file), encoding="utf-8") as f:
                text = f.read()
            for head, body, _, pattern in printed(tables):
                found = pattern.search(text)
                if found:
                    held += 1
                    same = numbers(found.group(1)) == numbers(body)
                    wrong += not same
                    print("%-9s %s/%s: %s" % ("same" if same else "DIFFERENT", folder, file, head.split()[-1]))
    if held != HELD * len(CODES):
        print("DIFFERENT %d constants and lists are there, and not %d" % (held, HELD * len(CODES)))
        wrong += 1
    return wrong


def write(tables, files):
    for file in files:
        with open(file, encoding="utf-8") as f:
            text = f.read()
        for _, _, shown, pattern in printed(tables):
            text = pattern.sub(lambda _, shown=shown: shown, text)
        with open(file, "w", encoding="utf-8") as f:
            f.write(text)


def every():
    return {code: Tables(code) for code in CODES}


def main(words):
    if words == ["index"]:
        sys.stdout.write(index_file(every()))
    elif words == ["check"]:
        sys.exit(1 if check(every()) else 0)
    elif words[:1] == ["write"]:
        write(every(), words[1:])
    elif words[:1] == ["code"] and len(words) == 2:
        t = Tables(words[1])
        print("N %d, K %d, M %d, last state 0x%x, relaxed picks %d, cycles %d" % (t.n, t.k, t.m, t.state, t.relaxed, len(t.cycles)))
        print("message columns of a row: %s" % " or ".join(map(str, sorted(t.widths))))
    elif words[:1] in (["constant"], ["list"]) and len(words) == 3:
        show = constant if words[0] == "constant" else antt_list
        sys.stdout.write(show(words[1], words[2], getattr(Tables(words[1]), words[2])))
    else:
        sys.exit(__doc__)


if __name__ == "__main__":
    main(sys.argv[1:])
