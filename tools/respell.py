#!/usr/bin/env python3
"""Brings the repository's own definitions and lemmas to today's spelling: words in snake case, a dash only between two words that have a meaning
of their own (as in `bits_of-length`).

Run once, at the top, right after the kit's own script: python3 tools/respell.py
It renames tokens of proof files and clauses, and the same names in edits and documents. A lemma whose new name another word of one file already
has keeps its dashes, or gets `_lem` where the word is a definition. It prints each such name.
"""
import collections
import glob
import re

TOKEN = r"[^\s(){}.;,@\"«»\[\]\\:λ`|]+"
HEAD = re.compile(r"(?:abbrev |unfoldable |pub |data |record |ruleset )*([^\s(){}:]+) *:(?!:)")


def text(path):
    with open(path, encoding="utf-8") as file:
        return file.read()


def bare(path):
    return re.sub(r"--[^\n]*|//[^\n]*", "", text(path))


def snake(word):
    return re.sub(r"(?<=[a-z0-9])([A-Z])", lambda m: "_" + m.group(1).lower(), word)


def is_camel(word):
    return word[0].islower() and "·" not in word and re.search(r"[a-z0-9][A-Z]", word) is not None


def clauses(source):
    """The lines of a source file in which a clause or an import may stand."""
    return "\n".join(l for l in source.split("\n") if re.match(r"\s*(ghost|requires|ensures|invariant)", l))


PROOFS = sorted(glob.glob("crates/**/*.antt", recursive=True))
SOURCES = sorted(glob.glob("crates/**/*.rt", recursive=True))
GENERATED = ("Proof.antt", "Answers.antt", "Invariants.antt")


def heads(paths):
    return {m.group(1) for p in paths for l in bare(p).split("\n") if not l.startswith("use") and (m := HEAD.match(l))}


def renamed():
    """Every old name with its new one."""
    tokens = {p: set(re.findall(TOKEN, bare(p))) for p in PROOFS} | {p: set(re.findall(TOKEN, clauses(bare(p)))) for p in SOURCES}
    names = {}
    for words in tokens.values():
        names |= {w: snake(w) for w in words if is_camel(w) and "-" not in w}
    # A lemma that has the new name of a definition of its file.
    for old, new in sorted(names.items()):
        for path, words in tokens.items():
            if old in words and new in words and path in PROOFS and new in heads([path]) | imported(path):
                names[new] = new + "_lem"
                print(f"{new} is {new}_lem: {path}")
                break
    shared = [p for p in PROOFS if not p.endswith(GENERATED)]
    defined = heads(p for p in PROOFS if "/specs/" in p)
    known = {snake(w) for w in defined} | defined | outside()
    taken = collections.Counter()
    plan = {}
    for old in sorted(heads(shared)):
        if "-" in old and not old.startswith("-") and not old.endswith("-"):
            parts = [snake(p) if p and is_camel(p) else p for p in old.split("-")]
            new = parts[0]
            for before, after in zip(parts, parts[1:]):
                new += ("-" if before in known and after in known else "_") + after
            plan[old] = new
            taken[new] += 1
    for old, new in plan.items():
        kept = "-".join(snake(p) if p and is_camel(p) else p for p in old.split("-"))
        files = [p for p, words in tokens.items() if old in words]
        clash = taken[new] > 1 or any(new in tokens[p] or new in {names.get(w) for w in tokens[p]} for p in files) or re.fullmatch(r"\d+|in|as|use|open|data|let|record|elim|pub|mod", new)
        if clash and kept != new:
            print(f"{old} keeps its dashes")
        names[old] = kept if clash else new
    return {old: new for old, new in names.items() if old != new}


def imported(path):
    return {w.strip().split(" as ")[0] for m in re.finditer(r"use [^\n{]+\.\{([^}]*)\}", bare(path)) for w in m.group(1).split(",")}


def outside():
    """The words without a dash that proof files take from the kit's library."""
    found = set()
    for path in PROOFS:
        for m in re.finditer(r"use ([^\n{]+)\.\{([^}]*)\}", bare(path)):
            if not re.match(r"Rattle\.(?!std\.)", m.group(1)):
                found |= {w.strip().split(" as ")[0] for w in m.group(2).split(",")}
    return {w for w in found if "-" not in w}


def turn(path, names, all_of_it):
    old = text(path)

    def one(m):
        word = m.group(0)
        dotted = m.start() > 0 and old[m.start() - 1] == "."
        if word not in names or (dotted and not is_camel(word)):
            return word
        # A function of the source and its module of proofs keep their name.
        return names[word]

    if all_of_it:
        new = re.sub(TOKEN, one, old)
    else:
        new = re.sub(r"`([^`\n]+)`", lambda m: "`" + re.sub(TOKEN, lambda w: names.get(w.group(0), w.group(0)) if is_camel(w.group(0)) or "-" in w.group(0) else w.group(0), m.group(1)) + "`", old)
    if new != old:
        with open(path, "w", encoding="utf-8") as file:
            file.write(new)


def main():
    names = renamed()
    camel = {old: new for old, new in names.items() if is_camel(old) and "-" not in old}
    for path in PROOFS:
        turn(path, names, True)
    for path in SOURCES + sorted(glob.glob("crates/*/must-fail/*.edit")):
        turn(path, camel, True)
    for path in ["README.md", *sorted(glob.glob("docs/*.md") + glob.glob("docs/changes/*.md"))]:
        turn(path, names, False)
    print(f"{len(names)} names")
    for old, new in sorted(names.items()):
        print(f"  {old} {new}")


if __name__ == "__main__":
    main()
