"""What each must-fail edit was refused for, by what `rt ci` printed.

Run in the repository's root, after `rt ci`, with its output in a file: python3 -B tests/edits.py FILE
An edit may have several wrong programs, each with a line `fn: NAME` before it: the check has to refuse every one of these functions. `rt ci` keeps
no log of an edit, so these few are checked once more here, in a copy of the crates.
"""
import glob
import os
import re
import shutil
import subprocess
import sys
import tempfile
import unittest

LINE = re.compile(r"^(?:rt: )?must-fail (\S+?)/(\S+?\.edit): (.*)$", re.M)
EXPORTED = re.compile(r'^pub extern "C" fn (\w+)\(', re.M)


def text(path):
    with open(path, encoding="utf-8") as file:
        return file.read()


def functions(edit):
    """The functions that an edit says are refused."""
    return re.findall(r"^fn: (\w+)$", text(edit), re.M)


def edited(edit, crate):
    """The files of the crate that the edit changes, with their new texts."""
    texts, path, old = {}, None, None
    for line in text(edit).split("\n"):
        if line.startswith("file: "):
            path = f"{crate}/{line[len('file: '):].strip()}"
            texts.setdefault(path, text(path))
        elif line.startswith("old: "):
            old = line[len("old: "):]
        elif line.startswith("new:"):
            assert texts[path].count(old) == 1, f"{edit}: {old}"
            texts[path] = texts[path].replace(old, line[len("new:"):].removeprefix(" "))
    return texts


def check(edit):
    """What a check says of the crate with the edit made, in a copy of the repository that shares its files."""
    name = edit.split("/")[1]
    with tempfile.TemporaryDirectory(prefix="edits-", dir=os.path.abspath("target")) as room:
        for part in ("crates.txt", "HANDLES"):
            if os.path.exists(part):
                shutil.copy(part, room)
        shutil.copytree("crates", f"{room}/crates", copy_function=os.link)
        for path, new in edited(edit, f"{room}/crates/{name}").items():
            os.remove(path)
            with open(path, "w", encoding="utf-8") as file:
                file.write(new)
        ran = subprocess.run(["rt", "check"], cwd=f"{room}/crates/{name}", stdout=subprocess.PIPE, stderr=subprocess.STDOUT, text=True, check=False)
    return ran.stdout


class Edits(unittest.TestCase):
    log = None

    def setUp(self):
        self.edits = sorted(glob.glob("crates/*/must-fail/*.edit"))
        self.assertGreater(len(self.edits), 200)
        self.said = {f"crates/{crate}/must-fail/{name}": said for crate, name, said in LINE.findall(text(self.log))}

    def test_every_edit_was_refused(self):
        for edit in self.edits:
            self.assertTrue(self.said.get(edit, "").startswith("refused, as it must be"), f"{edit}: {self.said.get(edit, 'not tried')}")

    def test_none_is_refused_for_a_name(self):
        """A name that is not there says nothing of the fact."""
        for edit in self.edits:
            self.assertNotIn("only because a proof file names what the edit took away", self.said.get(edit, ""), edit)

    def test_each_function_is_refused(self):
        for edit in self.edits:
            named = functions(edit)
            if named:
                refused = set(re.findall(r"^fn \S*?(\w+): (?:not proved|no proof)", check(edit), re.M))
                for name in named:
                    self.assertIn(name, refused, f"{edit} has a wrong {name}, and the check still proves it")

    def test_two_wrong_programs_for_each_call_of_c(self):
        calls = [name for source in glob.glob("crates/desklink/src/*.rt") for name in EXPORTED.findall(text(source))]
        self.assertGreater(len(calls), 20)
        named = [name for edit in self.edits if edit.startswith("crates/desklink/") for name in functions(edit)]
        for name in calls:
            self.assertGreaterEqual(named.count(name), 2, f"fewer than two edits have a wrong {name}")


if __name__ == "__main__":
    Edits.log = sys.argv.pop(1)
    unittest.main()
