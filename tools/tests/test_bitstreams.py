"""Tests of tools/bitstreams: boards become bitstreams, which are decoded and compared; wrong ones are found."""
import os
import pathlib
import re
import shutil
import sys
import unittest
import unittest.mock

from cases import DATA, ROOT, TOOLS, VWIRES, Case, full_board
from lib import devices, wiring
from lib.calls import Refused
from lib.hardware import read_emitted
from lib.texts import read_board

BITSTREAMS = TOOLS / "bitstreams"
PROGRAMS = ["yosys", "nextpnr-ice40", "icepack", "iceunpack", "icebox_vlog", "iverilog"]
MISSING = [program for program in PROGRAMS if not shutil.which(program)]
if not any((pathlib.Path(folder) / "chipdb-1k.txt").exists() for folder in devices.FOLDERS):
    MISSING.append("fpga-icestorm-chipdb")
SMALL = ["--device", "hx1k", "--package", "tq144"]
# gives each latch of an emitted board a clock, as docs/yosys.md has it
CLOCKED = r"""sed -e '/^\.latch/s/ 2$/ 0/' -e '/^\.latch/s/ \([^ ]*\)$/ re clk \1/' \
      -e 's/^\.inputs/& clk/' -e '/^\.subckt/s/ node[0-9]*/& clk=clk/'"""


def rows_by_turns(columns, clocks):
    """A stimulus whose bits come and go at different times."""
    return "".join(
        "".join(str((clock * (column + 3) // 5 + clock * clock // 7) % 2) for column in range(columns)) + "\n"
        for clock in range(clocks)
    )


@unittest.skipUnless(VWIRES, "no vwires")
class Bitstreams(Case):
    def called(self, *words, **settings):
        """How a call ended."""
        return self.run_words([sys.executable, BITSTREAMS, *words, "--vwires", VWIRES], **settings)

    def refused(self, line, *words, status=1, **settings):
        """A call ends with this line, and prints nothing."""
        done = self.called(*words, **settings)
        self.assertEqual((done.stdout, done.stderr.splitlines()[-1:], done.returncode), ("", [line], status))


@unittest.skipIf(MISSING, f"not installed: {' '.join(MISSING)}")
class Compared(Bitstreams):
    """Bitstreams that do what the design does, and some that don't."""

    def compared(self, clocks, outputs, *words):
        """All outputs of all clocks agree; gives what was printed."""
        done = self.called(*words)
        self.assertEqual(done.returncode, 0, done.stderr)
        last = f"compared {clocks} clocks of {outputs} outputs: 0 clocks differ"
        self.assertEqual(done.stdout.splitlines()[-1], last)
        return done.stdout

    def found(self, *words):
        """A call that finds a difference, and says so; gives the line."""
        done = self.called(*words)
        self.assertEqual(done.returncode, 1, done.stderr)
        self.assertRegex(done.stdout, r"compared .* clocks of .* outputs: [1-9][0-9]* clocks differ\n$")
        return done.stderr.splitlines()[-1]

    def test_the_toggle_on_one_to_four_chips(self):
        self.write("s.stim", rows_by_turns(1, 40))
        for chips, room in [(1, 2), (2, 1), (3, 1), (4, 1)]:
            for delay in (1, 2):
                self.write("b.board", full_board(chips, room, 1, delay))
                text = self.compared(40, 1, DATA / "toggle.blif", "b.board", *SMALL, "--out", "o", "--verify", "s.stim")
                names = re.findall("^(chip[0-9]) ", text, re.M)
                self.assertEqual(len(names), min(chips, 2))
                self.assertTrue(all((self.folder / "o" / f"{name}.bin").stat().st_size > 30000 for name in names))

    def test_a_uart_on_one_to_four_chips(self):
        shutil.copy(ROOT / "bench" / "verilog" / "uart.v", self.folder)
        design = self.synthesized("uart", "uart.v")
        self.write("s.stim", rows_by_turns(12, 100))
        for chips in (1, 2, 3, 4):
            for delay in (1, 2):
                self.write("b.board", full_board(chips, 400 // chips + 8, 4, delay))
                text = self.compared(100, 13, design, "b.board", *SMALL, "--out", "o", "--verify", "s.stim")
                self.assertEqual(len(re.findall("^chip[0-9] ", text, re.M)), chips)

    def test_other_devices(self):
        files = [DATA / "toggle.blif", DATA / "triangle.board", "--plan", DATA / "toggle.plan"]
        words = ["--out", "o", "--verify", DATA / "toggle.stim", "--copper", "1.5"]
        for device, package in [("hx8k", "ct256"), ("up5k", "sg48")]:
            text = self.compared(3, 1, *files, *words, "--device", device, "--package", package)
            self.assertRegex(text, r"microclock [0-9.]+ ns, limited between chips, .* 1\.5 of copper")
            self.assertRegex(text, r"clock of the design [0-9.]+ MHz, 3 microclocks")

    def test_latches_without_a_value_start_as_is_said(self):
        design = self.write("d.blif", ".model d\n.inputs a\n.outputs q\n.latch a q 2\n.end\n")
        self.write("b.board", full_board(1, 2, 1, 1))
        self.write("s.stim", "0\n1\n0\n")
        for unknown in "01":
            words = ["--out", "o", "--verify", "s.stim", "--unknown", unknown]
            self.compared(3, 1, design, "b.board", *SMALL, *words)

    def test_a_chip_that_nothing_comes_from(self):
        design = self.write("d.blif", ".model d\n.inputs a\n.outputs y\n.latch a q 0\n.names a y\n0 1\n.end\n")
        self.write("b.board", full_board(2, 1, 1, 1))
        self.write("s.stim", rows_by_turns(1, 20))
        text = self.compared(20, 1, design, "b.board", *SMALL, "--out", "o", "--verify", "s.stim")
        self.assertEqual(len(re.findall("^chip[12] ", text, re.M)), 2)

    def test_a_table_that_was_changed_is_found(self):
        files = [DATA / "toggle.blif", DATA / "triangle.board"]
        text = self.printed(VWIRES, "emit", *files, f"plan={DATA / 'toggle.plan'}")
        words = [*files, *SMALL, "--out", "o", "--verify", DATA / "toggle.stim", "--emitted"]
        self.compared(3, 1, *words, self.write("emitted.blif", text))
        # the table of d on chip 1, which is 1 where en and q differ: now where en is 0 or q is 1
        table = ".names r0_0 r3_0 c0\n10 1\n01 1\n"
        self.assertEqual(text.count(table), 1)
        changed = text.replace(table, ".names r0_0 r3_0 c0\n0- 1\n-1 1\n")
        line = self.found(*words, self.write("changed.blif", changed))
        self.assertEqual(line, "clock 1, output q: 0 by the bitstreams, 1 by vwires run")

    def test_pins_that_were_swapped_are_found(self):
        self.write("b.board", full_board(2, 6, 4, 1))
        self.write("s.stim", rows_by_turns(2, 30))
        words = [DATA / "updown.blif", "b.board", *SMALL, "--verify", "s.stim"]
        self.compared(30, 4, *words, "--out", "o")
        wired = ["--wired", "o/wiring.txt"]
        text = (self.folder / "o" / "wiring.txt").read_text()
        self.compared(30, 4, *words, "--out", "same", "--pins", self.write("same.txt", text), *wired)
        # the two pins by which the host sends en and up to chip 2
        pads = dict(re.findall(r"^(p1_[01]) +host +- +chip2 +(\S+)$", text, re.M))
        swapped = text
        for net, other in [("p1_0", "p1_1"), ("p1_1", "p1_0")]:
            swapped = re.sub(rf"^({net} .* )\S+$", rf"\g<1>{pads[other]}", swapped, flags=re.M)
        self.assertEqual((len(pads), sorted(text.split())), (2, sorted(swapped.split())))
        line = self.found(*words, "--out", "apart", "--pins", self.write("swapped.txt", swapped), *wired)
        output = r"(count\[[0-2]\]|zero)"
        self.assertRegex(line, rf"^clock [0-9]+, output {output}: [01] by the bitstreams, [01] by vwires run$")
        # a board that is wired as the pins say does what the design does
        self.compared(30, 4, *words, "--out", "apart", "--pins", "swapped.txt")

    def test_a_chip_that_is_too_full(self):
        nets = "".join(f".latch n{number - 1 if number else 'i'} n{number} 0\n" for number in range(1300))
        design = self.write("d.blif", f".model d\n.inputs ni\n.outputs n1299\n{nets}")
        self.write("b.board", full_board(1, 2000, 1, 1))
        done = self.called(design, "b.board", *SMALL, "--out", "o")
        self.assertEqual((done.returncode, done.stdout), (1, ""))
        self.assertRegex(done.stderr, r"\nchip1: 1,3[0-9]+ logic cells, and hx1k has 1,280\n$")

    def test_steps_that_fail_are_named(self):
        design = self.write("d.blif", ".model d\n.inputs a\n.outputs q\n.names a q\n1 1\n.end\n")
        self.write("b.board", full_board(1, 2, 1, 1))
        text = self.printed(VWIRES, "emit", design, "b.board")
        words = [design, "b.board", *SMALL, "--out", "o", "--emitted"]
        table = next(line for line in text.split(".model node1")[1].splitlines() if line.startswith(".names"))
        done = self.called(*words, self.write("bad.blif", text.replace(table, table.replace(".names", ".nonsense"))))
        self.assertEqual(done.returncode, 1)
        self.assertRegex(done.stderr, r"\nchip1: yosys: ERROR: .* \(see o/chip1.log\)\n$")


class Refusals(Bitstreams):
    """What is refused before a chip is made."""

    files = [DATA / "toggle.blif", DATA / "triangle.board", "--plan", DATA / "toggle.plan", "--out", "o"]

    def test_programs_that_are_missing(self):
        self.refused("yosys isn't installed: apt install yosys", *self.files, env={"PATH": str(self.folder)})
        for program in ["yosys", "nextpnr-ice40", "icepack", "iceunpack"]:
            (self.folder / program).write_text("#!/bin/sh\n")
            (self.folder / program).chmod(0o755)
        words = [*self.files, "--verify", DATA / "toggle.stim"]
        self.refused("icebox_vlog isn't installed: apt install fpga-icestorm", *words, env={"PATH": str(self.folder)})
        done = self.run_words([sys.executable, BITSTREAMS, *self.files], env={"PATH": str(self.folder)})
        self.assertEqual(done.stderr, "vwires isn't on the path: name it by --vwires\n")

    @unittest.skipIf(MISSING, f"not installed: {' '.join(MISSING)}")
    def test_designs_boards_and_plans(self):
        toggle = DATA / "toggle.blif"
        self.refused("vwires: status 7: read fault: design", "no.blif", DATA / "triangle.board", "--out", "o")
        self.write("b.board", full_board(1, 1, 1, 1))
        self.refused("vwires: status 6: fit: 2 cells, room for 1", toggle, "b.board", "--out", "o")
        self.write("p.plan", "plan 1 2 4 2\n")
        words = [toggle, DATA / "triangle.board", "--out", "o"]
        self.refused("vwires: status 4: plan 2: line 2", *words, "--plan", "p.plan")
        self.refused("no.blif: No such file or directory", *words, "--emitted", "no.blif", status=2)
        for text, line in [
            ("trace 1 1 1\n", "it doesn't begin with .model"),
            (".model board\n", "it has no model board or no model node0"),
            (".model board\n.model node0\n", "no model node1, and the board has 2 chips"),
        ]:
            self.refused(f"emitted board: {line}", *words, "--emitted", self.write("e.blif", text))
        self.write("d.blif", ".model d\n.inputs a\n.outputs a\n")
        self.write("b.board", full_board(1, 1, 1, 1))
        self.refused("no chip is used: the host alone does it all", "d.blif", "b.board", "--out", "o")

    @unittest.skipIf(MISSING, f"not installed: {' '.join(MISSING)}")
    def test_packages_and_pins(self):
        self.write("b.board", full_board(2, 8, 20, 1))
        design = DATA / "updown.blif"
        words = [design, "b.board", *SMALL, "--out", "o"]
        self.refused("chip1: 81 pins with the clock, and hx1k vq100 has 68 that are free", *words, "--package", "vq100")
        names = "cb121 cb132 cb81 cm121 cm36 cm49 cm81 qn84 swg16tr tq144 vq100"
        self.refused(f"hx1k has no package ct256: it has {names}", *words, "--package", "ct256")
        self.write("b.board", full_board(2, 8, 1, 1))
        good = "clk host - chip1 21\nclk host - chip2 21\np0_0 host - chip1 1\n"
        for line, says in [
            ("p0_0 host chip1 1", "line 4: wanted NET FROM PAD TO PAD"),
            ("p1_0 host - node2 2", "line 4: wanted NET FROM PAD TO PAD"),
            ("p9_0 host - chip1 2", "line 4: the board has no p9_0 from host to chip1"),
            ("p1_0 host - chip1 2", "line 4: the board has no p1_0 from host to chip1"),
            ("p1_0 host - chip2 A1", "line 4: tq144 has no pad A1"),
            ("p2_0 chip1 1 host -", "line 4: p0_0 has pad 1 of chip1"),
            ("clk host - chip1 2", "line 4: 2 is no pad for a clock: 20 21 49 50 93 94 128 129 are"),
        ]:
            self.refused(f"pins.txt: {says}", *words, "--pins", self.write("pins.txt", f"{good}{line} # not so\n"))
        done = self.called(*words, "--pins", self.write("pins.txt", good))
        self.assertRegex(done.stderr, r"\nchip[12]: the wiring has no p[0-9]+_0\n$")

    def test_words(self):
        for words in [[], ["d.blif", "b.board"], [*self.files, "--device", "hx4k"], [*self.files, "--emitted", "e"]]:
            self.assertEqual(self.called(*words).returncode, 2)
        self.assertIn("tools/bitstreams DESIGN BOARD --out DIR", self.printed(BITSTREAMS, "--help"))


class Chips(unittest.TestCase):
    def test_a_database_that_is_missing(self):
        with unittest.mock.patch.object(devices, "FOLDERS", []), self.assertRaises(Refused) as refused:
            devices.package_of("hx8k", "ct256")
        wanted = "chipdb-8k.txt isn't installed: apt install fpga-icestorm-chipdb"
        self.assertEqual(str(refused.exception), wanted)


@unittest.skipIf("fpga-icestorm-chipdb" in MISSING, "no fpga-icestorm-chipdb")
class Wiring(unittest.TestCase):
    def test_pads_are_assigned_once_and_read_back(self):
        board = read_board(full_board(3, 10, 7, 2))
        package = devices.package_of("hx1k", "tq144")
        joins = wiring.assigned(board, package)
        self.assertEqual(len(joins), 3 + 12 * 7)
        for chip in (1, 2, 3):
            pads = list(wiring.pads_of(joins, chip).values())
            self.assertEqual((len(set(pads)), len(pads)), (43, 43))
            # not those by which the chip reads its configuration
            self.assertTrue({"67", "68", "70", "71", "-"}.isdisjoint(pads))
        file = os.path.join(os.path.dirname(__file__), "cases.py")
        with self.assertRaises(Refused):
            wiring.read_wiring(file, board, package)

    def test_each_package_has_a_pad_for_the_clock(self):
        for device, packages in [("hx8k", ["ct256", "cm225"]), ("hx1k", ["tq144", "vq100"]), ("up5k", ["sg48"])]:
            for name in packages:
                self.assertTrue(devices.package_of(device, name).clocks, name)


@unittest.skipUnless(VWIRES, "no vwires")
class Clocked(Case):
    def test_the_clock_is_that_of_the_line_in_the_pages(self):
        text = self.printed(VWIRES, "emit", DATA / "updown.blif", DATA / "duo.board")
        page = (ROOT / "docs" / "yosys.md").read_text()
        self.assertIn(CLOCKED, page)
        done = self.run_words(["sh", "-c", f"{CLOCKED} {self.write('board.blif', text)}"])
        models = read_emitted(text)
        self.assertEqual("".join(model.clocked().text() for model in models.values()), done.stdout)
