"""Tests of tools/stimulus."""
import random
import shutil
import unittest

from cases import DATA, TESTS, TOOLS, VWIRES, Case

STIMULUS = TOOLS / "stimulus"
# a program in C++ that gives rows to the counter of the tour, and changes them at the falling edge
DRIVER = r"""
#include "Vupdown.h"
#include "verilated_vcd_c.h"
int main() {
  const char *rows[] = {"10", "11", "11", "10", "00", "11", "11", "01", "10"};
  Verilated::traceEverOn(true);
  Vupdown dut;
  VerilatedVcdC wave;
  dut.trace(&wave, 9);
  wave.open("driven.vcd");
  int time = 0;
  for (const char *row : rows) {
    dut.clk = 0; dut.en = row[0] == '1'; dut.up = row[1] == '1'; dut.eval(); wave.dump(time++);
    dut.clk = 1; dut.eval(); wave.dump(time++);
  }
  wave.close();
  return 0;
}
"""


def wave_of(variables, *moments):
    """A waveform: variables are lines of its head, and moments are pairs of a time and value changes."""
    head = "$timescale 1ns $end\n" + "\n".join(variables) + "\n$enddefinitions $end\n"
    return head + "".join(f"#{time}\n" + "".join(f"{change}\n" for change in changes) for time, *changes in moments)


def variable(size, identifier, name):
    """A line that declares a signal."""
    return f"$var wire {size} {identifier} {name} $end"


def scope(name, *lines):
    """Lines in a scope."""
    return [f"$scope module {name} $end", *lines, "$upscope $end"]


@unittest.skipUnless(VWIRES, "no vwires")
class Stimulus(Case):
    def made(self, inputs, wave, *words):
        """How a call ended over a design with these inputs and a clock clk, and a waveform."""
        design = self.write("d.blif", f".model d\n.inputs clk {inputs}\n.outputs\n.latch q q re clk 0\n")
        return self.run_words([STIMULUS, design, self.write("w.vcd", wave), *words, "--vwires", VWIRES])

    def rows(self, inputs, wave, *words):
        """The lines of the stimulus."""
        done = self.made(inputs, wave, *(words or ["--clock", "clk"]))
        self.assertEqual(done.returncode, 0, done.stderr)
        return done.stdout.split("\n")[:-1]

    def test_the_values_before_each_rising_edge(self):
        head = scope("t", variable(1, "!", "clk"), variable(1, '"', "a"), variable(1, "#", "b"))
        moments = [(0, "0!", '0"', "1#"), (5, "1!", '1"'), (10, "0!", "0#"), (15, "1!", '0"'), (20, "0!", "1!")]
        self.assertEqual(self.rows("a b", wave_of(head, *moments)), ["01", "10"])
        self.assertEqual(self.rows("a b", wave_of(head, *moments), "--clock", "t.clk", "--edge", "falling"), ["11"])

    def test_rows_that_repeat_are_held(self):
        head = scope("t", variable(1, "!", "clk"), variable(1, "a", "a"))
        clocks = [(time, f"{time % 2}!") for time in range(1, 9)]
        moments = [(0, "0!", "0a"), *clocks, (9, "1a"), (10, "1!"), (11, "0!")]
        self.assertEqual(self.rows("a", wave_of(head, *moments)), ["0", "hold 3", "1"])

    def test_a_clock_that_begins_at_1_has_no_edge_there(self):
        head = scope("t", variable(1, "!", "clk"), variable(1, "a", "a"))
        self.assertEqual(self.rows("a", wave_of(head, (0, "1!", "0a"), (1, "0!"), (2, "1!", "1a"))), ["0"])

    def test_bits_of_buses_in_any_order_and_form(self):
        clock = variable(1, "!", "clk")
        for form, inputs, value, row in [
            ("a [3:0]", "a[0] a[1] a[2] a[3]", "b1000 a", "0001"),
            ("a[3:0]", "a[0] a[1] a[2] a[3]", "b0111 a", "1110"),
            ("a [0:3]", "a[0] a[1] a[2] a[3]", "b1000 a", "1000"),
            ("a", "a[0] a[1] a[2] a[3]", "B10 a", "0100"),
            ("a [7:4]", "a[7] a[4]", "b0001 a", "01"),
            ("\\m[3] [3:0]", "m[3][0] m[3][3]", "b1 a", "10"),
        ]:
            head = scope("t", clock, variable(4, "a", form))
            self.assertEqual(self.rows(inputs, wave_of(head, (0, "0!", value), (1, "1!"))), [row], form)
        for form in ["a [0:0]", "a", "a [0]", "\\a "]:
            head = scope("t", clock, variable(1, "a", form))
            self.assertEqual(self.rows("a", wave_of(head, (0, "0!", "1a"), (1, "1!"))), ["1"], form)

    def test_bits_of_a_bus_in_pieces(self):
        head = scope("t", variable(1, "!", "clk"), variable(2, "a", "a [3:2]"), variable(1, "b", "a [0]"))
        self.assertEqual(self.rows("a[0] a[2] a[3]", wave_of(head, (0, "0!", "b10 a", "1b"), (1, "1!"))), ["101"])

    def test_what_says_nothing_is_passed_over(self):
        others = ["$date today $end", variable(64, "r", "x").replace("wire", "real"), "$comment $var $end"]
        head = [*others, *scope("t", variable(1, "!", "clk"), variable(1, "a", "a"))]
        body = ["$dumpvars", "0!", "1a", "r0.5 r", "$end", "$comment 0a", "$end"]
        self.assertEqual(self.rows("a", wave_of(head, (0, *body), (1, "1! 0a"))), ["1"])

    def test_the_scope_is_the_outermost_that_holds_the_others(self):
        inner = scope("dut", variable(1, "c", "clk"), variable(1, "x", "a"))
        head = scope("t", variable(1, "!", "clk"), variable(1, "a", "a"), *inner)
        moments = [(0, "0!", "1c", "0a", "1x"), (1, "1!"), (2, "0!", "0c"), (3, "1c")]
        self.assertEqual(self.rows("a", wave_of(head, *moments)), ["0"])
        self.assertEqual(self.rows("a", wave_of(head, *moments), "--scope", "t.dut", "--clock", "clk"), ["1"])
        two = [*scope("one", variable(1, "!", "clk"), variable(1, "a", "a")), *scope("two", variable(1, "b", "a"))]
        wave = wave_of(two, (0, "0!", "0a", "1b"), (1, "1!"))
        done = self.made("a", wave, "--clock", "clk")
        wanted = "waveform: one and two have all columns: name one by --scope\n"
        self.assertEqual((done.returncode, done.stderr), (1, wanted))
        self.assertEqual(self.rows("a", wave, "--scope", "two", "--clock", "clk"), ["1"])

    def test_unknown_values_are_refused_or_taken(self):
        head = scope("t", variable(1, "!", "clk"), variable(2, "a", "a [1:0]"))
        moments = [(0, "0!", "b11 a"), (5, "1!"), (10, "0!", "bx1 a"), (15, "1!", "b00 a"), (20, "0!")]
        done = self.made("a[0] a[1]", wave_of(head, *moments), "--clock", "clk")
        self.assertEqual((done.returncode, done.stderr), (1, "waveform: a[1] is x before the edge at time 15\n"))
        words = ["--clock", "clk", "--unknown"]
        self.assertEqual(self.rows("a[0] a[1]", wave_of(head, *moments), *words, "0"), ["11", "10"])
        self.assertEqual(self.rows("a[0] a[1]", wave_of(head, *moments), *words, "1"), ["11", "hold 1"])
        done = self.made("a[0] a[1]", wave_of(head, (0, "0!", "bz a"), (7, "z!"), (8, "1!")), "--clock", "clk")
        self.assertEqual((done.returncode, done.stderr), (1, "waveform: clk is z at time 7\n"))
        done = self.made("a[0] a[1]", wave_of(head, (0, "b0 a"), (7, "1!")), "--clock", "clk")
        self.assertEqual((done.returncode, done.stderr), (1, "waveform: clk is x before time 7\n"))

    def test_damaged_waveforms(self):
        head = scope("t", variable(1, "!", "clk"), variable(2, "a", "a [1:0]"))
        good = wave_of(head, (0, "0!", "b11 a"), (5, "1!"))
        for wave, words, line in [
            ("", [], "it ends before $enddefinitions"),
            (good.replace("$enddefinitions", "$comment"), [], "line 7: #0 stands before $enddefinitions"),
            (good.partition("$enddefinitions")[0], [], "it ends before $enddefinitions"),
            ("trace 1 1 1\n", [], "line 1: trace stands before $enddefinitions"),
            (good.replace("wire 1 !", "wire one !"), [], "line 3: bad $var"),
            (good.replace("[1:0]", "[2:0]"), [], "line 4: a [2:0] isn't 2 bits"),
            (good + "#x\n", [], "line 12: bad time #x"),
            (good + "#4\n", [], "line 12: bad time #4"),
            (good + "1?\n", [], "line 12: 1? is no value of a signal"),
            (good + "b10\n", [], "line 12: b10 is no value of a signal"),
            (good + "b101 a\n", [], "line 12: b101 is no value of 2 bits"),
            (good + "q!\n", [], "line 12: q! is no value of 1 bits"),
            (good.replace("1!", "0!"), [], "no rising edge of clk"),
            (good, ["--edge", "falling"], "no falling edge of clk"),
            (good, ["--clock", "ck"], "clock ck: no signal has this name"),
            (good, ["--scope", "u"], "no scope u: it has t"),
            (good.replace("wire 2 a a", "wire 2 a b"), [], "no scope has all columns; t has no a[0]"),
        ]:
            done = self.made("a[0] a[1]", wave, "--clock", "clk", *words)
            self.assertEqual((done.returncode, done.stderr), (1, f"waveform: {line}\n"))

    def test_files_and_words(self):
        done = self.run_words([STIMULUS, DATA / "updown.blif", "no.vcd", "--vwires", VWIRES])
        self.assertEqual((done.returncode, done.stderr), (2, "no.vcd: No such file or directory\n"))
        done = self.run_words([STIMULUS, "no.blif", "no.vcd", "--vwires", VWIRES])
        self.assertEqual((done.returncode, done.stderr), (1, "vwires: status 7: read fault: design\n"))
        done = self.run_words([STIMULUS, "no.blif", "no.vcd", "--vwires", "no_vwires"])
        self.assertEqual((done.returncode, done.stderr), (1, "no program no_vwires\n"))
        self.assertEqual(self.run_words([STIMULUS, "one"]).returncode, 2)
        self.assertIn("tools/stimulus DESIGN.blif WAVE.vcd", self.printed(STIMULUS, "--help"))

    def test_a_wave_of_vwires_there_and_back(self):
        design, rows = DATA / "updown.blif", (DATA / "updown.stim").read_text()
        self.write("probed.vcd", self.printed(VWIRES, "wave", design, DATA / "updown.stim", "probe=en", "probe=up"))
        self.write("plain.vcd", self.printed(VWIRES, "wave", design, DATA / "updown.stim"))
        self.write("joined.vcd", self.printed(TOOLS / "buses", "plain.vcd", design, DATA / "updown.stim"))
        for wave in ["probed.vcd", "joined.vcd"]:
            done = self.run_words([STIMULUS, design, wave, "--vwires", VWIRES])
            self.assertEqual(done.returncode, 0, done.stderr)
            self.assertEqual(self.printed(VWIRES, "sim", design, self.write("back.stim", done.stdout)),
                             self.printed(VWIRES, "sim", design, DATA / "updown.stim"))
        self.assertEqual(rows.split()[:2], ["11", "11"])

    def agrees(self, design, wave, words, outputs):
        """The stimulus of a waveform drives the design to the outputs that the waveform has before each edge."""
        done = self.run_words([STIMULUS, design, wave, *words, "--vwires", VWIRES])
        self.assertEqual(done.returncode, 0, done.stderr)
        trace = self.printed(VWIRES, "sim", design, self.write("made.stim", done.stdout))
        seen = self.run_words([STIMULUS, outputs, wave, *words, "--unknown", "0", "--vwires", VWIRES]).stdout
        rows = self.printed(VWIRES, "sim", outputs, self.write("seen.stim", seen))
        bits = [[line.split()[1] for line in text.splitlines()[1:-1]] for text in (trace, rows)]
        self.assertGreater(len(set(bits[0])), 3)
        self.assertEqual(*bits)

    def outputs_as_inputs(self, name, bits):
        """A design that only shows inputs, which have the names of another design's outputs."""
        return self.write(name, f".model d\n.inputs {bits}\n.outputs {bits}\n")

    @unittest.skipUnless(shutil.which("iverilog"), "no iverilog")
    def test_a_waveform_of_icarus(self):
        shutil.copy(TESTS / "updown_bench.v", self.folder)
        self.printed("iverilog", "-g2005", "-o", "bench.out", "updown_bench.v", DATA / "updown.v")
        self.printed("vvp", "-n", "bench.out")
        outputs = self.outputs_as_inputs("o.blif", "count[0] count[1] count[2] zero")
        for words in [["--clock", "clk"], ["--clock", "bench.dut.clk", "--scope", "bench.dut"]]:
            self.agrees(DATA / "updown.blif", "updown.vcd", words, outputs)

    @unittest.skipUnless(shutil.which("iverilog") and shutil.which("yosys"), "no iverilog or no yosys")
    def test_a_waveform_of_icarus_with_buses(self):
        for file in ["mac.v", "mac_bench.v"]:
            shutil.copy(TESTS / file, self.folder)
        chance = random.Random(2)
        rows = [f"{int(clock < 1 or clock % 50 == 0)}{chance.getrandbits(17):017b}" for clock in range(200)]
        self.write("rows.mem", "\n".join(rows) + "\n")
        self.printed("iverilog", "-g2005", "-o", "bench.out", "mac_bench.v", "mac.v")
        self.printed("vvp", "-n", "bench.out")
        design = self.synthesized("mac", "mac.v")
        outputs = self.outputs_as_inputs("o.blif", " ".join([*(f"acc[{place}]" for place in range(20)), "busy"]))
        self.agrees(design, "icarus.vcd", ["--clock", "clk", "--unknown", "0", "--scope", "bench.dut"], outputs)

    @unittest.skipUnless(all(map(shutil.which, ["verilator", "g++", "make"])), "no verilator, g++ or make")
    def test_a_waveform_of_verilator(self):
        self.write("main.cpp", DRIVER)
        words = ["--cc", "--exe", "--build", "--trace", "-Wno-fatal", "--top-module", "updown", DATA / "updown.v"]
        done = self.run_words(["verilator", *words, "main.cpp"])
        self.assertEqual(done.returncode, 0, done.stderr)
        self.printed(self.folder / "obj_dir" / "Vupdown")
        outputs = self.outputs_as_inputs("o.blif", "count[0] count[1] count[2] zero")
        self.agrees(DATA / "updown.blif", "driven.vcd", ["--clock", "clk"], outputs)
        done = self.run_words([STIMULUS, DATA / "updown.blif", "driven.vcd", "--clock", "clk", "--vwires", VWIRES])
        self.assertEqual(done.stdout, "10\n11\nhold 1\n10\n00\n11\nhold 1\n01\n10\n")
