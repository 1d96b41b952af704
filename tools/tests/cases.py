"""What tests of the tools share: a folder for each test, calls, and boards."""
import os
import pathlib
import subprocess
import tempfile
import unittest

TESTS = pathlib.Path(__file__).resolve().parent
TOOLS = TESTS.parent
ROOT = TOOLS.parent
DATA = ROOT / "crates" / "vwires" / "data"
RECIPE = TOOLS / "blif.ys"
VWIRES = os.environ.get("VWIRES", "")


class Case(unittest.TestCase):
    """A test with a folder of its own."""

    def setUp(self):
        folder = tempfile.TemporaryDirectory()
        self.addCleanup(folder.cleanup)
        self.folder = pathlib.Path(folder.name)

    def write(self, name, text):
        """Writes a file of the folder, each character as one byte; gives its name."""
        (self.folder / name).write_bytes(text.encode("latin-1"))
        return name

    def run_words(self, words, **settings):
        """How a command ended, and what it wrote."""
        words = [str(word) for word in words]
        return subprocess.run(words, cwd=self.folder, capture_output=True, text=True, check=False, **settings)

    def printed(self, *words):
        """What a command prints, which has to end with 0 and write no message."""
        done = self.run_words(words)
        self.assertEqual((done.returncode, done.stderr), (0, ""), words)
        return done.stdout

    def synthesized(self, name, *files):
        """Makes a design of Verilog by the recipe; gives its name."""
        self.printed("yosys", "-q", "-r", name, "-s", RECIPE, "-o", f"{name}.blif", *files)
        return f"{name}.blif"


def full_board(chips, cells, pins, delay, settle=1):
    """A board in which each node has a link to each other one."""
    nodes = range(chips + 1)
    lines = ["board 2", f"chips {chips}", f"cells {cells}", f"settle {settle}", f"pins {2 * chips * pins}"]
    lines += [f"link {start} {end} {pins} {delay}" for start in nodes for end in nodes if start != end]
    return "\n".join(lines) + "\n"
