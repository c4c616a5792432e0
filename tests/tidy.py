"""What a reader of the repository relies on: the documents name what is there, lines can be read, edits say what they would do.

Run in the repository's root: python3 -B tests/tidy.py
"""
import os
import re
import unittest

DOCUMENTS = ["README.md", "docs/GUIDE.md", "docs/DECISIONS.md", "docs/DIFFERENCES.md", "docs/PERFORMANCE.md", "docs/RANGE.md"]
# In backquotes, and names of nothing in the tree.
ELSEWHERE = {"#[repr(C)]", "&[i8]", "/dev/shm", "mulss", "mulps", "axioms=", "3:0", "desklink_*", "*_replay", "rattle-kit-13f", "rattle-kit-5b-plain", "bin/"}
LINE = 160


def files():
    """Every file but those that a check makes."""
    found = []
    for folder, below, names in os.walk("."):
        below[:] = [name for name in below if name not in (".git", "target", "out", "__pycache__")]
        found += [os.path.relpath(os.path.join(folder, name)) for name in names]
    return found


def text(path):
    with open(path, encoding="utf-8") as file:
        return file.read()


class Tree:
    """The files, their folders, and the words of those that are sources."""

    def __init__(self):
        self.paths = set(files())
        self.folders = {p[:i] for p in self.paths for i, c in enumerate(p) if c == "/"}
        sources = [p for p in self.paths if re.search(r"\.(antt|rt|rs|h|c|py|edit)$|^crates\.txt$|^\.ci/run$|^rust/Cargo\.toml$", p)]
        whole = "\n".join(text(p) for p in sources if p != "tests/tidy.py")
        self.words = set(re.findall(r"""[^\s()\[\]{},;:`'"]+""", whole)) | set(re.findall(r"\w+", whole))

    def has_path(self, name):
        name = name.rstrip("/")
        ends = (name, name + ".edit")
        return name in self.folders or any(p in ends or p.endswith(tuple("/" + e for e in ends)) for p in self.paths | self.folders)

    def has(self, name):
        parts = re.split(r"::|\.", name)
        return name in self.words or self.has_path(name) or "*" in name and "/" in name or all(p in self.words for p in parts if p)


class Tidy(unittest.TestCase):
    def test_the_documents_name_what_is_there(self):
        tree = Tree()
        for document in DOCUMENTS:
            plain = "\n".join(line for line in text(document).split("\n") if not line.startswith("    "))
            for name in re.findall(r"`([^`\s]+)`", plain):
                if name not in ELSEWHERE and not re.fullmatch(r"[-+\d.,x]+", name):
                    self.assertTrue(tree.has(name), f"{document} names `{name}`, which is nowhere in the tree")

    def test_lines_can_be_read(self):
        for path in files():
            if re.search(r"\.(rt|antt)$", path) and not path.endswith("/tables.rt"):
                for number, line in enumerate(text(path).split("\n"), 1):
                    self.assertLessEqual(len(line), LINE, f"{path}:{number}")

    def test_every_edit_says_what_it_would_do(self):
        edits = [path for path in files() if path.endswith(".edit")]
        self.assertGreater(len(edits), 200)
        for path in edits:
            self.assertTrue(text(path).startswith("# "), path)

    def test_scripts_can_be_run(self):
        for path in files():
            with open(path, "rb") as file:
                if file.read(2) == b"#!":
                    self.assertTrue(os.access(path, os.X_OK), path)


if __name__ == "__main__":
    unittest.main()
