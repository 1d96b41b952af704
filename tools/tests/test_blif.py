"""Tests of tools/blif.ys."""
import pathlib
import shutil
import subprocess
import tempfile
import unittest

TESTS = pathlib.Path(__file__).resolve().parent
RECIPE = TESTS.parent / "blif.ys"
DATA = TESTS.parent.parent / "crates" / "vwires" / "data"


def ports_and_latches(lines):
    """The ports of the model, and of each latch its net, its edge, its clock and its initial value."""
    ports = [line for line in lines if line.startswith((".model", ".inputs", ".outputs"))]
    return ports, [line.split()[2:] for line in lines if line.startswith(".latch")]


@unittest.skipUnless(shutil.which("yosys"), "no yosys")
class Recipe(unittest.TestCase):
    def made(self, options, *files):
        """What yosys writes to standard error, and the lines of the design, none where it makes none."""
        with tempfile.TemporaryDirectory() as folder:
            words = ["yosys", "-q", *options, "-s", str(RECIPE), "-o", "top.blif", *map(str, files)]
            done = subprocess.run(words, cwd=folder, capture_output=True, text=True, check=False)
            made = pathlib.Path(folder) / "top.blif"
            return done.stderr, made.read_text().splitlines() if done.returncode == 0 else []

    def of_text(self, top, text):
        """The same of a text in Verilog."""
        with tempfile.TemporaryDirectory() as folder:
            file = pathlib.Path(folder) / "top.v"
            file.write_text(text)
            return self.made(["-r", top], file)

    def test_the_counter_of_the_tour(self):
        fault, lines = self.made(["-r", "updown"], DATA / "updown.v")
        shown = (DATA / "updown.blif").read_text().splitlines()
        # the tables depend on the version of yosys
        self.assertEqual((fault, ports_and_latches(lines)), ("", ports_and_latches(shown)))

    def test_a_top_module_has_to_be_named(self):
        fault, lines = self.made([], DATA / "updown.v")
        self.assertEqual(lines, [])
        self.assertIn("selection is empty: A:top", fault)

    def test_the_top_is_found_in_files_in_any_order(self):
        text = (TESTS / "mac.v").read_text()
        inner, outer = text.split("// The sum of all products.\n")
        _, lines = self.of_text("mac", outer + inner)
        self.assertIn(".model mac", lines)

    def test_registers_keep_their_names(self):
        for top in ["mac", "late"]:
            fault, lines = self.made(["-r", top], TESTS / f"{top}.v")
            self.assertEqual(fault, "")
            driven = {line.split()[2] for line in lines if line.startswith(".latch")}
            driven |= {line.split()[-1] for line in lines if line.startswith(".names")}
            names = {
                "mac": ["unit.left[15]", "unit.right[0]", "unit.sum[7]", "unit.steps[3]", "unit.done", "acc[19]"],
                "late": ["ready", "sum[3]", "sum[0]", "count[2]"],
            }
            self.assertLessEqual(set(names[top]), driven)

    def test_a_register_that_is_an_output_needs_no_table(self):
        body = "reg r; assign y = r; always @(posedge clk) r <= d ^ r;"
        text = f"module t(input clk, input d, output y); {body} endmodule"
        _, lines = self.of_text("t", text)
        self.assertEqual([line for line in lines if line.startswith(".names") and line.endswith(" y")], [".names r y"])
        self.assertEqual(len([line for line in lines if line.startswith(".latch") and " r re clk 2" in line]), 1)

    def test_falling_edges_are_kept(self):
        text = "module t(input clk, input d, output reg q); initial q = 0; always @(negedge clk) q <= d ^ q; endmodule"
        _, lines = self.of_text("t", text)
        self.assertEqual([line.split()[2:] for line in lines if line.startswith(".latch")], [["q", "fe", "clk", "0"]])

    def test_two_drivers_and_loops_are_refused(self):
        blocks = "reg r; assign y = r; always @(posedge b) if (a) r <= !r; always @(posedge b) if (!a) r <= 0;"
        for text, ends in [
            ("assign y = a | b; assign y = b & a;", "multiple conflicting drivers for t.\\y"),
            (blocks, "multiple conflicting drivers for t.\\r"),
            ("wire w = a & y; assign y = w | b;", "found logic loop in module t"),
        ]:
            fault, lines = self.of_text("t", f"module t(input a, input b, output y); {text} endmodule")
            self.assertEqual(lines, [])
            self.assertIn(ends, fault)
