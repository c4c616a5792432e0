"""What the programs do where standard input cannot be read or standard output cannot be written, which a replay cannot show.

Run in the repository's root, once the programs are built: python3 -B tests/streams.py
"""
import os
import subprocess
import time
import unittest

PROGRAMS = {"batchlist": "samples/code0.bin", "batchwhy": "samples/code0.bin"}


def run(program, stdout=subprocess.PIPE, **stdin):
    ended = subprocess.run([os.path.join("target/bin", program)], stdout=stdout, stderr=subprocess.PIPE, timeout=60, **stdin)
    return ended.stdout, ended.stderr.decode()


def given(program):
    with open(PROGRAMS[program], "rb") as file:
        return (b"\4\0" if program == "batchwhy" else b"") + file.read()


class Streams(unittest.TestCase):
    def test_a_read_that_fails_is_not_the_end(self):
        """A folder opens, and cannot be read: nothing is printed as if it were whole."""
        for program in PROGRAMS:
            folder = os.open("samples", os.O_RDONLY)
            said = run(program, stdin=folder)
            os.close(folder)
            self.assertEqual(said[0], b"", program)
            self.assertTrue(said[1].startswith("standard input: "), said[1])

    def test_a_full_disk_is_told(self):
        for program in PROGRAMS:
            with open("/dev/full", "wb") as full:
                said = run(program, full, input=given(program))
            self.assertTrue(said[1].startswith("standard output: "), said[1])

    def test_a_full_pipe_is_waited_for(self):
        """A pipe that does not wait is full at first, and drained a little later: the text is written whole."""
        for program in PROGRAMS:
            whole = run(program, input=given(program))[0]
            self.assertTrue(whole)
            read, write = os.pipe()
            os.set_blocking(write, False)
            filled = fill(write)
            process = subprocess.Popen([os.path.join("target/bin", program)], stdin=subprocess.PIPE, stdout=write, stderr=subprocess.PIPE)
            os.close(write)
            process.stdin.write(given(program))
            process.stdin.close()
            time.sleep(0.1)
            with os.fdopen(read, "rb") as drained:
                text = drained.read()
            self.assertEqual((text[filled:], process.stderr.read()), (whole, b""))
            process.stderr.close()
            process.wait()


def fill(pipe):
    """How many bytes the pipe takes."""
    filled = 0
    while True:
        try:
            filled += os.write(pipe, bytes(65536))
        except BlockingIOError:
            return filled


if __name__ == "__main__":
    unittest.main()
