"""Tests of tools/seen.awk."""
import pathlib
import subprocess
import tempfile
import unittest

SEEN = pathlib.Path(__file__).resolve().parent.parent / "seen.awk"
# column b is read by gate d alone, which nothing reads; latch e reads itself alone
NETLIST = """nets 1 2 4 1
column 0 a
column 1 b
gate 2 c 0 4
gate 3 d 1 0
latch 4 q 2
latch 5 e 5
output 4 q
end
"""
GRADING = """grade 1 12 5
open a 1
open b 0
open b 1
open d 0
open d 1
open e 0
open e 1
end
"""


class Seen(unittest.TestCase):
    def test_what_leads_to_no_output_is_set_apart(self):
        with tempfile.TemporaryDirectory() as name:
            folder = pathlib.Path(name)
            (folder / "nets").write_text(NETLIST)
            (folder / "grade").write_text(GRADING)
            words = ["awk", "-f", SEEN, "nets", "grade"]
            done = subprocess.run(words, cwd=folder, capture_output=True, text=True, check=False)
        self.assertEqual((done.returncode, done.stdout), (0, "open a 1\nrevealed 5 of 6\n"))
