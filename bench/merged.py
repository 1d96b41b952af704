#!/usr/bin/env python3
"""How fast `sim` is with and without merging tables, beside Verilator's compiled program of the same netlist.

    bench/merged.py PROGRAM [CLOCKS] [SEED]

PROGRAM is a built vwires, a path or a name on PATH; yosys, Verilator and a compiler of C++ have to be installed. yosys makes
five designs, each in gates of two inputs and in tables of four and of six inputs. Verilator gets the same netlist in
Verilog (-O3, and its C++ with -O2). Over CLOCKS rows by chance (default 20,000) each program reads the rows and prints
outputs of each clock; ours prints all latch values, too. All have to print the same outputs. A table in Markdown says for
each netlist its cells, and the million cells a second of both, with reading and writing, the least of five runs; and how
long Verilator and its compiler took. It ends with 1 where outputs differ.
"""
import pathlib
import random
import re
import resource
import shutil
import subprocess
import sys
import tempfile
import time

FOLDER = pathlib.Path(__file__).resolve().parent / "designs"
DESIGNS = ["sums", "rounds", "products", "processor", "memory"]
FORMS = {"gates": "abc -g AND,NAND,OR,NOR,XOR,XNOR", "4 inputs": "abc -lut 4", "6 inputs": "abc -lut 6"}


def run(words, folder):
    """Runs a command; where it fails, ends with what it wrote."""
    done = subprocess.run(words, cwd=folder, capture_output=True, text=True)
    if done.returncode:
        sys.exit(f"{' '.join(words)[:200]}: status {done.returncode}\n{done.stdout[-2000:]}{done.stderr[-2000:]}")
    return done.stdout


def synthesis(name, form):
    """The script of yosys that makes NAME.blif of NAME.v, in one of the forms."""
    return (f"read_verilog {name}.v; synth -flatten -noabc -top {name}; memory_map; opt -full; techmap; "
            f"dfflegalize -cell $_DFF_P_ 01; {FORMS[form]}; opt_clean; splitnets; opt_clean; write_blif {name}.blif")


def ports_of(design, line):
    """The ports on a line of a design, as Verilog has them: each with its bits, the lowest first; without the clock."""
    ports = {}
    for bit in re.search(rf"^\.{line} ((?:.*\\\n)*.*)$", design, re.M).group(1).replace("\\\n", " ").split():
        if bit != "clk":
            ports.setdefault(bit.split("[")[0], []).append(bit)
    return ports


def words_of(port, bits):
    """What stands for bits of a port in the C++ of Verilator, and how far it is shifted: wide ports are lists of words."""
    wide = len(bits) > 64
    return [(f"dut.{port}[{place // 32}]", place % 32) if wide else (f"dut.{port}", place) for place in range(len(bits))]


def in_verilator(name, inputs, outputs):
    """A program in C++ that reads rows and prints the outputs of each clock."""
    columns = [bit for bits in inputs.values() for bit in bits]
    lines = [f'#include "V{name}.h"', "#include <cstdio>", "#include <cstdint>", "int main() {"]
    lines += [f"static V{name} dut; static char row[65536], out[65536];", "dut.clk = 0; dut.eval();"]
    lines += ["while (fgets(row, sizeof row, stdin)) {"]
    for port, bits in inputs.items():
        given = {}
        for bit, (word, shift) in zip(bits, words_of(port, bits)):
            given.setdefault(word, []).append(f"(uint64_t)(row[{columns.index(bit)}] & 1) << {shift}")
        lines += [f"{word} = {' | '.join(parts)};" for word, parts in given.items()]
    lines.append("dut.eval(); int at = 0;")
    for port, bits in outputs.items():
        lines += [f"out[at++] = '0' + (({word} >> {shift}) & 1);" for word, shift in words_of(port, bits)]
    lines += ["out[at++] = '\\n'; fwrite(out, 1, at, stdout);", "dut.clk = 1; dut.eval(); dut.clk = 0; dut.eval(); }"]
    return "\n".join(lines + ["return 0; }"])


def timed(words, folder, stdin=None):
    """The least processor time of five runs of a command in seconds, a millisecond or more; what it prints goes to a file."""
    least = None
    for _ in range(5):
        before = resource.getrusage(resource.RUSAGE_CHILDREN)
        with open(folder / stdin if stdin else "/dev/null") as given, open(folder / "out", "w") as out:
            subprocess.run(words, cwd=folder, stdin=given, stdout=out, check=True)
        after = resource.getrusage(resource.RUSAGE_CHILDREN)
        took = after.ru_utime + after.ru_stime - before.ru_utime - before.ru_stime
        least = took if least is None else min(least, took)
    return max(least, 0.001), (folder / "out").read_text()


def compare(program, name, form, clocks, chance, folder):
    """A line of the table, and whether outputs differ."""
    shutil.copy(FOLDER / f"{name}.v", folder)
    run(["yosys", "-q", "-p", synthesis(name, form)], folder)
    run(["yosys", "-q", "-p", f"read_blif -wideports {name}.blif; write_verilog -noattr netlist.v"], folder)
    design = (folder / f"{name}.blif").read_text()
    inputs, outputs = ports_of(design, "inputs"), ports_of(design, "outputs")
    columns = sum(len(bits) for bits in inputs.values())
    rows = ["".join(chance.choice("01") for _ in range(columns)) for _ in range(clocks)]
    (folder / "rows.stim").write_text("\n".join(rows) + "\n")
    (folder / "main.cpp").write_text(in_verilator(name, inputs, outputs))
    begin = time.time()
    run(["verilator", "-O3", "--x-assign", "0", "--x-initial", "0", "-Wno-fatal", "-Wno-lint", "--cc", "--exe", "--build",
         "-CFLAGS", "-O2", "--top-module", name, "netlist.v", "main.cpp"], folder)
    compiling = time.time() - begin
    by_verilator, theirs = timed([f"obj_dir/V{name}"], folder, "rows.stim")
    by_sim, trace = timed([program, "sim", f"{name}.blif", "rows.stim"], folder)
    shown = [line.split()[1] for line in trace.splitlines()[1:-1]]
    wrong = shown != theirs.split()
    cells = len(re.findall(r"^\.(?:names|latch) ", design, re.M))
    ours, other = cells * clocks / by_sim / 1e6, cells * clocks / by_verilator / 1e6
    print(f"| {name} | {form} | {cells:,} | {ours:.0f} | {other:.0f} | {ours / other:.2f} | {compiling:.0f} | "
          f"{'yes' if wrong else 'no'} |", flush=True)
    return wrong


def main():
    if len(sys.argv) < 2 or sys.argv[1] in ("-h", "--help"):
        sys.exit(__doc__)
    missing = [tool for tool in ["yosys", "verilator"] if not shutil.which(tool)]
    if missing:
        sys.exit(f"not installed: {' '.join(missing)}")
    program = pathlib.Path(shutil.which(sys.argv[1]) or sys.argv[1]).resolve()
    clocks = int(sys.argv[2]) if len(sys.argv) > 2 else 20000
    chance = random.Random(int(sys.argv[3]) if len(sys.argv) > 3 else 1)
    print("| design | form | cells | `sim`, million cells a second | Verilator | `sim` : Verilator | compiling, s | differ |")
    print("|---|---|---|---|---|---|---|---|")
    wrong = 0
    for name in DESIGNS:
        for form in FORMS:
            with tempfile.TemporaryDirectory() as folder:
                wrong += compare(program, name, form, clocks, chance, pathlib.Path(folder))
    sys.exit(1 if wrong else 0)


if __name__ == "__main__":
    main()
