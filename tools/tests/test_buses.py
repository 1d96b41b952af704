"""Tests of tools/buses."""
import bisect
import os
import random
import shutil
import subprocess
import unittest

from cases import DATA, RECIPE, TESTS, TOOLS, VWIRES, Case

BUSES = TOOLS / "buses"
HEAD = "$timescale 1 s $end\n$scope module design $end\n"
BODY = "$upscope $end\n$enddefinitions $end\n"


def wave_of(names, *moments):
    """A wave of signals, whose identifiers are the letters from a on; each moment is a time and `IDENTIFIER=BIT`.. ."""
    text = HEAD + "".join(f"$var wire 1 {chr(97 + place)} n_{name} $end\n" for place, name in enumerate(names)) + BODY
    for time, *changes in moments:
        lines = "".join(f"{change[2]}{change[0]}\n" for change in changes)
        text += f"#{time}\n" + (f"$dumpvars\n{lines}$end\n" if time == 0 and changes else lines)
    return text


def design_of(latches, outputs="", inputs="clk"):
    """A design whose latches drive the nets of these names."""
    lines = [".model top", f".inputs {inputs}", f".outputs {outputs}"]
    return "\n".join(lines + [f".latch clk2 {net} re clk 0" for net in latches.split(" ")]) + "\n"


def replayed(text):
    """The values of each signal of a wave, in time; a signal is its scopes and its name, with its numbers."""
    scopes, names, values, time = [], {}, {}, 0
    for line in text.splitlines():
        words = line.split()
        if words[:1] == ["$scope"]:
            scopes.append(words[2])
        elif words[:1] == ["$upscope"]:
            scopes.pop()
        elif words[:1] == ["$var"]:
            signal = (*scopes, " ".join(words[4:-1]))
            names.setdefault(words[3], []).append((signal, int(words[2])))
        elif line[:1] == "#":
            time = int(line[1:])
        elif line[:1] in tuple("01xzb") and words:
            value, identifier = (words[0][1:], words[1]) if line[0] == "b" else (line[0], line[1:])
            for signal, width in names[identifier]:
                values.setdefault(signal, []).append((time, value.rjust(width, "0" if value[0] == "1" else value[0])))
    return values


def value_at(moments, time):
    """The value of a signal at a time."""
    return moments[bisect.bisect_right(moments, time, key=lambda moment: moment[0]) - 1][1]


class Buses(Case):
    """A test with new waves."""

    def joined(self, design, wave, stimulus=None):
        """The new wave of texts."""
        words = [self.write("w.vcd", wave), self.write("d.blif", design)]
        if stimulus is not None:
            words.append(self.write("s.stim", stimulus))
        return self.printed(BUSES, *words)

    def declared(self, design, names):
        """The declarations of the new wave of signals that are 0."""
        wave = wave_of(names, (0, *[f"{chr(97 + place)}=0" for place in range(len(names))]), (1,))
        lines = self.joined(design, wave).splitlines()
        kept = [line for line in lines if line.startswith(("$var", "$scope", "$upscope"))]
        return [" ".join([words[0], *words[2:-1]]) for words in map(str.split, kept)]


class Samples(Buses):
    """Waves by hand, with what has to become of them."""

    def test_a_sample_with_its_stimulus(self):
        files = [TESTS / f"lamp.{suffix}" for suffix in ("vcd", "blif", "stim")]
        self.assertEqual(self.printed(BUSES, *files), (TESTS / "lamp.buses.vcd").read_text())

    def test_without_a_stimulus_columns_are_left_out(self):
        values = replayed(self.printed(BUSES, TESTS / "lamp.vcd", TESTS / "lamp.blif"))
        count = ("lamp", "count [2:0]")
        self.assertEqual(values[count], [(0, "100"), (1, "001"), (2, "000")])
        others = {("lamp", "full"), ("lamp", "left", "on"), ("lamp", "left", "store", "word [1:0]")}
        self.assertEqual(set(values), {count} | others)

    def test_a_gap_cuts_a_vector(self):
        found = self.declared(design_of("a[0] a[1] a[3] a[4] a[6]"), ["a_0_", "a_1_", "a_3_", "a_4_", "a_6_"])
        self.assertEqual(found[1:-1], ["$var 1 ! a [6]", "$var 2 \" a [4:3]", "$var 2 # a [1:0]"])

    def test_bits_in_another_order_have_the_highest_number_first(self):
        wave = wave_of(["a_2_", "a_0_", "a_1_"], (0, "a=1", "b=0", "c=0"), (1, "b=1"), (2,))
        values = replayed(self.joined(design_of("a[2] a[0] a[1]"), wave))
        self.assertEqual(values, {("top", "a [2:0]"): [(0, "100"), (1, "101")]})

    def test_a_word_of_a_memory_and_odd_names_are_escaped(self):
        found = self.declared(design_of("m[3][0] m[3][1] q~ a+b[5]"), ["m_3__0_", "m_3__1_", "q_", "a_b_5_"])
        self.assertEqual(found[1:-1], ["$var 2 ! \\m[3] [1:0]", "$var 1 \" \\q~", "$var 1 # \\a+b [5]"])

    def test_a_name_with_and_without_a_number(self):
        found = self.declared(design_of("a a[0] a[1]"), ["a", "a_0_", "a_1_"])
        self.assertEqual(found[1:-1], ["$var 1 ! a", "$var 2 \" a [1:0]"])

    def test_names_by_yosys_stand_last_and_whole(self):
        found = self.declared(design_of("$auto$x.cc:1$2 u.$n1 u.r"), ["_auto_x_cc_1_2", "u__n1", "u_r"])
        wanted = ["$scope top", "$scope u", "$var 1 ! r", "$upscope", "$scope unnamed", "$var 1 \" \\$auto$x.cc:1$2"]
        self.assertEqual(found, wanted + ["$scope u", "$var 1 # \\$n1", "$upscope", "$upscope", "$upscope"])

    def test_probes_have_their_names_where_one_net_is_spelt_so(self):
        design = design_of("r", "r") + ".names r a[0]\n1 1\n.names r b[0]\n1 1\n.names r b_0_\n1 1\n"
        found = self.declared(design, ["r", "a_0_", "b_0_", "r"])
        self.assertEqual(found[1:-1], ["$var 1 ! r", "$var 1 \" a [0]", "$var 1 # b_0_"])

    def test_placed_models_are_scopes_and_their_latches_outputs(self):
        text = (DATA / "counter.blif").read_text()
        text = text.replace(".outputs q1 q0", ".outputs q1 q0 en")
        found = self.declared(text, ["q1", "q0", "en", "1_1_q", "2_1_q"])
        self.assertEqual(found[1:-1], ["$var 1 ! q1", "$var 1 \" q0", "$var 1 # en"])

    def test_latches_of_placed_models_that_are_no_outputs(self):
        text = ".model top\n.inputs c d\n.outputs\n.subckt one k=c d=d\n.subckt one k=c d=d\n"
        text += ".model one\n.inputs k d\n.outputs q\n.latch d q re k 0\n"
        found = self.declared(text, ["1_q", "2_q"])
        self.assertEqual(found[1:-1], ["$scope 1", "$var 1 ! q", "$upscope", "$scope 2", "$var 1 \" q", "$upscope"])
        values = replayed(self.joined(text, wave_of(["1_q", "2_q"], (0, "a=0", "b=0"), (1,)), "1\n"))
        self.assertEqual(values[("top", "d")], [(0, "1")])

    def test_an_input_that_is_an_output_is_shown_once(self):
        wave = wave_of(["a"], (0, "a=1"), (1, "a=0"), (2,))
        values = replayed(self.joined(".model top\n.inputs a\n.outputs a\n", wave, "1\n0\n"))
        self.assertEqual(values, {("top", "a"): [(0, "1"), (1, "0")]})

    def test_a_register_that_is_reset_at_once_stands_for_its_latch(self):
        tables = ".names $l$1 rst r[0]\n10 1\n.names rst r[0] $l$2 r[1]\n00- 0\n"
        design = design_of("$l$1 $l$2", inputs="clk rst") + tables
        wave = wave_of(["_l_1", "_l_2"], (0, "a=1", "b=0"), (1, "a=0"), (2, "a=1", "b=1"), (4,))
        values = replayed(self.joined(design, wave, "0\n1\n0\nhold 1\n"))
        self.assertEqual(values, {("top", "rst"): [(0, "0"), (1, "1"), (2, "0")],
                                  ("top", "r [1:0]"): [(0, "11"), (1, "10"), (2, "11")]})
        values = replayed(self.joined(design, wave))
        self.assertEqual(set(values), {("top", "unnamed", "\\$l$1"), ("top", "unnamed", "\\$l$2")})

    def test_a_latch_whose_readers_have_no_name_or_read_more_stays(self):
        design = design_of("$l", inputs="clk rst") + ".names rst x\n1 1\n.names $l x r\n10 1\n.names $l $y\n1 1\n"
        values = replayed(self.joined(design, wave_of(["_l"], (0, "a=1"), (1,)), "1\n"))
        self.assertEqual(set(values), {("top", "rst"), ("top", "unnamed", "\\$l")})

    def test_rows_that_hold_and_comments(self):
        wave = wave_of(["q"], (0, "a=0"), (6, "a=1"), (7,))
        stimulus = "# zeros first\nhold 2\n10\nhold 1\n\n01 # one\nhold 0\n10\n01"
        values = replayed(self.joined(design_of("q", inputs="clk x y"), wave, stimulus))
        self.assertEqual(values[("top", "x")], [(0, "0"), (2, "1"), (4, "0"), (5, "1"), (6, "0")])
        self.assertEqual(values[("top", "q")], [(0, "0"), (6, "1")])

    def test_a_design_without_columns(self):
        values = replayed(self.joined(design_of("q"), wave_of(["q"], (0, "a=1"), (2,)), "-\nhold 1\n"))
        self.assertEqual(values, {("top", "q"): [(0, "1")]})

    def test_no_clocks(self):
        self.assertTrue(self.joined(design_of("q"), wave_of(["q"], (0,)), "").endswith("$enddefinitions $end\n#0\n"))

    def test_more_than_94_signals(self):
        names = [f"r[{number}]" for number in range(0, 400, 2)]
        head = HEAD + "".join(f"$var wire 1 i{place} n_r_{2 * place}_ $end\n" for place in range(200)) + BODY
        bits = "".join(f"{place % 2}i{place}\n" for place in range(200))
        values = replayed(self.joined(design_of(" ".join(names)), f"{head}#0\n$dumpvars\n{bits}$end\n#1\n"))
        self.assertEqual(len(values), 200)
        self.assertEqual((values[("top", "r [0]")], values[("top", "r [398]")]), ([(0, "0")], [(0, "1")]))

    def test_names_of_any_bytes(self):
        words = [self.write("w.vcd", wave_of(["__x"], (0, "a=1"), (1,))), self.write("d.blif", design_of("\xe9\xa0x"))]
        done = subprocess.run([BUSES, *words], cwd=self.folder, capture_output=True, check=False)
        self.assertEqual((done.returncode, done.stderr), (0, b""))
        self.assertIn(b"$var wire 1 ! \\\xe9\xa0x $end\n", done.stdout)


class Faults(Buses):
    """Each error has its line and its status."""

    def refused(self, design, wave, stimulus, status, line):
        words = [self.write("w.vcd", wave), self.write("d.blif", design)]
        if stimulus is not None:
            words.append(self.write("s.stim", stimulus))
        done = self.run_words([BUSES, *words])
        self.assertEqual((done.returncode, done.stderr), (status, line + "\n"))

    def test_texts_that_are_refused(self):
        design, wave = design_of("q", inputs="clk a"), wave_of(["q"], (0, "a=0"), (1,))
        head = "wave: its first lines aren't those of a wave of vwires"
        whole = "wave: its last line isn't the number of clocks: it isn't whole"
        no_blif = "design: .inputs stands before the first .model: it is no text in BLIF"
        deep, half = ".model a\n.subckt a\n", wave_of(["q", "p"], (0, "b=1"), (1,))
        for case in [
            ("", wave, None, "design: no .model in it: it is no text in BLIF"),
            (".inputs a\n", wave, None, no_blif),
            (design + ".latch q\n", wave, None, "design: too few words in a line .latch"),
            (design + ".subckt no\n", wave, None, "design: no model no in it"),
            (deep, wave, None, "design: models stand in one another more than 64 deep"),
            (design, "trace 1 1 1\n#1\n", None, head),
            (design, "", None, whole),
            (design, wave + "0a", None, whole),
            (design, wave.replace("0a", "xa"), None, "wave: no line of a wave of vwires: xa"),
            (design, wave.replace("#0", "#o"), None, "wave: no time: #o"),
            (design, wave.replace("#0", "#2"), None, "wave: 1 values at time 2, wanted 1 at time 0"),
            (design, wave_of(["q"], (1,)), None, "wave: 0 values at time 0, wanted 1 at time 0"),
            (design_of("q p"), half, None, "wave: 1 values at time 0, wanted 2 at time 0"),
            (design_of("p q"), wave, None, "wave: 1 signals, and the design has 2 outputs and latches"),
            (design_of("other"), wave, None, "wave: signal 0 is n_q, and the design has other there"),
            (design, wave, "1\n0\n", "stimulus: 2 rows, and the wave has 1 clocks"),
            (design, wave, "hold 12\n", "stimulus: 12 rows, and the wave has 1 clocks"),
            (design, wave, "\n01\n", "stimulus: line 2: found 2 bits, wanted 1"),
            (design, wave, "-\n", "stimulus: line 1: found 0 bits, wanted 1"),
            (design, wave, "hold x\n", "stimulus: line 1: bad hold"),
            (design, wave, "1 0\n", "stimulus: line 1: neither a row nor a hold"),
        ]:
            self.refused(*case[:3], 1, case[3])

    def test_wrong_words(self):
        for words in [[], ["w.vcd"], ["w.vcd", "d", "s", "t"], ["--all", "w.vcd"]]:
            done = self.run_words([BUSES, *words])
            usage = "usage: tools/buses WAVE.vcd DESIGN.blif [STIMULUS] > BUSES.vcd\n"
            self.assertEqual((done.returncode, done.stdout, done.stderr), (2, "", usage))

    def test_files_that_cannot_be_read(self):
        self.write("w.vcd", wave_of(["q"], (0, "a=0"), (1,)))
        self.write("d.blif", design_of("q"))
        for words in [["no", "d.blif"], ["w.vcd", "no"], ["w.vcd", "d.blif", "no"]]:
            done = self.run_words([BUSES, *words])
            self.assertEqual((done.returncode, done.stderr), (2, "no: No such file or directory\n"))

    @unittest.skipUnless(os.path.exists("/dev/full"), "no /dev/full")
    def test_output_that_cannot_be_written(self):
        words = [self.write("w.vcd", wave_of(["q"], (0, "a=0"), (1,))), self.write("d.blif", design_of("q"))]
        with open("/dev/full", "wb") as full:
            done = subprocess.run([BUSES, *words], cwd=self.folder, stdout=full, stderr=subprocess.PIPE, check=False)
        self.assertEqual((done.returncode, done.stderr), (2, b"standard output: No space left on device\n"))

    def test_help(self):
        text = self.printed(BUSES, "--help")
        self.assertIn("tools/buses WAVE.vcd DESIGN.blif [STIMULUS] > BUSES.vcd", text)
        self.assertLessEqual(max(map(len, text.splitlines())), 120)


@unittest.skipUnless(VWIRES, "no vwires")
class WavesOfVwires(Buses):
    """Waves that vwires wrote."""

    def test_values_are_those_of_the_trace(self):
        files = [DATA / "updown.blif", DATA / "updown.stim"]
        self.write("w.vcd", self.printed(VWIRES, "wave", *files))
        values = replayed(self.printed(BUSES, "w.vcd", *files))
        trace = [line.split() for line in self.printed(VWIRES, "sim", *files).splitlines()[1:-1]]
        rows = files[1].read_text().split()
        for clock, ((_, outputs, _), row) in enumerate(zip(trace, rows)):
            self.assertEqual(value_at(values[("updown", "count [2:0]")], clock), outputs[2::-1])
            self.assertEqual(value_at(values[("updown", "zero")], clock), outputs[3])
            self.assertEqual([value_at(values[("updown", name)], clock) for name in ("en", "up")], list(row))
        self.assertEqual((len(values), len(trace)), (4, 6))

    def test_latches_of_placed_models(self):
        files = [DATA / "counter.blif", DATA / "counter.stim"]
        self.write("w.vcd", self.printed(VWIRES, "wave", *files, "probe=1/1/d"))
        values = replayed(self.printed(BUSES, "w.vcd", *files))
        self.assertEqual(set(values), {("counter", name) for name in ("en", "q0", "q1")} | {("counter", "1", "1", "d")})

    @unittest.skipUnless(shutil.which("yosys") and shutil.which("iverilog"), "no yosys or no iverilog")
    def test_values_are_those_of_icarus(self):
        for name, bits, columns, signals, buses in [
            # columns have the lowest bit first
            ("mac", 17, [0, 1, *range(9, 1, -1), *range(17, 9, -1)], 86, 11),
            ("late", 4, [0, 4, 3, 2, 1], 9, 6),
        ]:
            for file in [f"{name}.v", f"{name}_bench.v"]:
                shutil.copy(TESTS / file, self.folder)
            chance = random.Random(1)
            rows = [f"{int(clock < 1 or clock % 50 == 0)}{chance.getrandbits(bits):0{bits}b}" for clock in range(200)]
            self.write("rows.mem", "\n".join(rows) + "\n")
            self.write("s.stim", "".join("".join(row[place] for place in columns) + "\n" for row in rows))
            self.printed("iverilog", "-g2005", "-o", "bench.out", f"{name}_bench.v", f"{name}.v")
            self.printed("vvp", "-n", "bench.out")
            self.printed("yosys", "-q", "-r", name, "-s", RECIPE, "-o", "d.blif", f"{name}.v")
            wave = self.printed(VWIRES, "wave", "d.blif", "s.stim")
            self.write("w.vcd", wave)
            ours = replayed(self.printed(BUSES, "w.vcd", "d.blif", "s.stim"))
            self.assertEqual((wave.count("$var"), len(ours)), (signals, buses))
            self.compare(ours, replayed((self.folder / "icarus.vcd").read_text()))

    def compare(self, ours, theirs):
        """Each signal has the value that Icarus has before the edge of each clock, where Icarus knows it."""
        for signal, moments in ours.items():
            others = theirs[("bench", "dut", *signal[1:])]
            known = [clock for clock in range(200) if set(value_at(others, 3 * clock)) <= set("01")]
            self.assertGreaterEqual(len(known), 199, signal)
            for clock in known:
                self.assertEqual(value_at(moments, clock), value_at(others, 3 * clock), (signal, clock))
