#!/usr/bin/env python3
"""How fast `sim` is beside Icarus Verilog on the same netlist, and beside Verilator on the Verilog itself.

    bench/others.py PROGRAM [CLOCKS] [SEED]

PROGRAM is a built vwires, a path or a name on PATH; yosys, Icarus Verilog (iverilog, vvp), Verilator and a compiler
of C++ have to be installed. yosys makes three designs by the recipe: the UART and the datapath of bench/verilog, and
sixteen stages of sums over words of 32 bits. Over CLOCKS rows by chance (default 20,000; Verilator, which is too fast
otherwise, gets fifty times as many) each program reads the rows and prints the outputs of each clock. All have to
print the same. It prints a table in Markdown with the processor time of a clock, the least of three runs, and ends
with 1 where outputs differ.
"""
import pathlib
import random
import re
import resource
import shutil
import subprocess
import sys
import tempfile

sys.dont_write_bytecode = True
from emitted import run, synthesis

VERILOG = pathlib.Path(__file__).resolve().parent / "verilog"
FALLING = ["datapath"]
MORE = 50
STAGES = """
module stages(input clk, input [31:0] x, input [31:0] k, output [31:0] y);
  reg [31:0] a [0:15];
  reg [31:0] b [0:15];
  integer i;
  initial for (i = 0; i < 16; i = i + 1) begin a[i] = 0; b[i] = 0; end
  assign y = a[15] ^ b[15];
  always @(posedge clk) begin
    a[0] <= x + k;
    b[0] <= {x[26:0], x[31:27]} ^ k;
    for (i = 1; i < 16; i = i + 1) begin
      a[i] <= a[i - 1] + {b[i - 1][24:0], b[i - 1][31:25]};
      b[i] <= b[i - 1] ^ (a[i - 1] + b[i - 1]);
    end
  end
endmodule
"""


def ports_of(design, line):
    """The ports on a line of a design, as Verilog has them: each with its bits, the lowest first; without the clock."""
    ports = {}
    for bit in re.search(rf"^\.{line} (.*)$", design, re.M).group(1).split():
        if bit != "clk":
            ports.setdefault(bit.split("[")[0], []).append(bit)
    return ports


def in_icarus(name, inputs, outputs, clocks):
    """A test bench that reads the rows and prints the outputs before each edge."""
    columns = [bit for bits in inputs.values() for bit in bits]
    idle = int(name in FALLING)
    places = {bit: len(columns) - 1 - place for place, bit in enumerate(columns)}
    joined = [f".{port}({port})" for port in outputs]
    for port, bits in inputs.items():
        joined.append(f".{port}({{{', '.join(f'row[{places[bit]}]' for bit in reversed(bits))}}})")
    shown = [bit if len(bits) > 1 else port for port, bits in outputs.items() for bit in bits]
    wires = "\n".join(f"wire [{len(bits) - 1}:0] {port};" for port, bits in outputs.items())
    return f"""module bench;
reg clk = {idle};
reg [{len(columns) - 1}:0] rows [0:{clocks - 1}];
reg [{len(columns) - 1}:0] row;
integer clock;
{wires}
{name} dut(.clk(clk), {", ".join(joined)});
initial begin
  $readmemb("rows.stim", rows);
  for (clock = 0; clock < {clocks}; clock = clock + 1) begin
    row = rows[clock]; #1; $display("%b", {{{", ".join(shown)}}}); clk = !clk; #1; clk = !clk; #1;
  end
end
endmodule
"""


def in_verilator(name, inputs, outputs):
    """A program in C++ that does the same with the model of Verilator."""
    columns = [bit for bits in inputs.values() for bit in bits]
    idle = int(name in FALLING)
    lines = [f'#include "V{name}.h"', "#include <cstdio>", "int main() {", f"V{name} dut; char row[4096], out[4096];"]
    lines += [f"dut.clk = {idle}; dut.eval();", "while (fgets(row, sizeof row, stdin)) {"]
    for port, bits in inputs.items():
        given = " | ".join(f"(unsigned)(row[{columns.index(bit)}] & 1) << {place}" for place, bit in enumerate(bits))
        lines.append(f"dut.{port} = {given};")
    lines.append("dut.eval(); int at = 0;")
    for port, bits in outputs.items():
        lines += [f"out[at++] = '0' + ((dut.{port} >> {place}) & 1);" for place in range(len(bits))]
    lines += ["out[at++] = '\\n'; fwrite(out, 1, at, stdout);"]
    return "\n".join(lines + ["dut.clk = !dut.clk; dut.eval(); dut.clk = !dut.clk; dut.eval(); }", "return 0; }"])


def timed(words, folder, stdin=None):
    """The least processor time of three runs of a command, in seconds, a millisecond or more, and what it prints."""
    least = None
    for _ in range(3):
        before = resource.getrusage(resource.RUSAGE_CHILDREN).ru_utime
        with open(folder / stdin if stdin else "/dev/null") as given:
            done = subprocess.run(words, cwd=folder, stdin=given, capture_output=True, text=True, check=True)
        took = resource.getrusage(resource.RUSAGE_CHILDREN).ru_utime - before
        least = took if least is None else min(least, took)
    return max(least, 0.001), done.stdout


def compare(program, name, clocks, chance, folder):
    """A line of the table, and whether outputs differ."""
    if name == "stages":
        (folder / "stages.v").write_text(STAGES)
    else:
        shutil.copy(VERILOG / f"{name}.v", folder)
    run(synthesis(f"{name}.v"), folder)
    design = re.sub(r"^(\.latch .*) 2$", r"\1 0", (folder / f"{name}.blif").read_text(), flags=re.M)
    (folder / f"{name}.blif").write_text(design)
    inputs, outputs = ports_of(design, "inputs"), ports_of(design, "outputs")
    columns = [bit for bits in inputs.values() for bit in bits]
    rows = []
    for clock in range(clocks):
        bits = [str(int(clock == 0)) if column == "rst" else chance.choice("01") for column in columns]
        rows.append("".join(bits))
    (folder / "rows.stim").write_text("\n".join(rows) + "\n")
    (folder / "more.stim").write_text(("\n".join(rows) + "\n") * MORE)
    (folder / "bench.v").write_text(in_icarus(name, inputs, outputs, clocks))
    (folder / "main.cpp").write_text(in_verilator(name, inputs, outputs))
    run(["yosys", "-q", "-p", f"read_blif -wideports {name}.blif; write_verilog -noattr netlist.v"], folder)
    run(["iverilog", "-g2005", "-o", "netlist.out", "bench.v", "netlist.v"], folder)
    verilate = ["verilator", "-O3", "--x-assign", "0", "--x-initial", "0", "-Wno-fatal", "-Wno-lint", "--cc", "--exe"]
    run([*verilate, "--build", "-CFLAGS", "-O2", "--top-module", name, f"{name}.v", "main.cpp"], folder)
    by_icarus, first = timed(["vvp", "-n", "netlist.out"], folder)
    by_verilator, second = timed([f"obj_dir/V{name}"], folder, "more.stim")
    by_sim, trace = timed([program, "sim", f"{name}.blif", "rows.stim"], folder)
    shown = [line.split()[1] for line in trace.splitlines()[1:-1]]
    wrong = shown != first.split() or shown != second.split()[:clocks]
    icarus, sim, verilator = by_icarus * 1e6 / clocks, by_sim * 1e6 / clocks, by_verilator * 1e6 / (clocks * MORE)
    cells = len(re.findall(r"^\.(?:names|latch) ", design, re.M))
    times = f"{icarus:.1f} | {sim:.2f} | {verilator:.3f} | {icarus / sim:.0f} | {sim / verilator:.0f}"
    print(f"| {name} | {cells:,} | {times} | {'yes' if wrong else 'no'} |", flush=True)
    return wrong


def main():
    if len(sys.argv) < 2:
        sys.exit(__doc__)
    missing = [tool for tool in ["yosys", "iverilog", "vvp", "verilator"] if not shutil.which(tool)]
    if missing:
        sys.exit(f"not installed: {' '.join(missing)}")
    program = pathlib.Path(shutil.which(sys.argv[1]) or sys.argv[1]).resolve()
    clocks = int(sys.argv[2]) if len(sys.argv) > 2 else 20000
    chance = random.Random(int(sys.argv[3]) if len(sys.argv) > 3 else 1)
    print("| design | cells | Icarus, µs a clock | `sim` | Verilator | Icarus : `sim` | `sim` : Verilator | differ |")
    print("|---|---|---|---|---|---|---|---|")
    wrong = 0
    for name in ["uart", "datapath", "stages"]:
        with tempfile.TemporaryDirectory() as folder:
            wrong += compare(program, name, clocks, chance, pathlib.Path(folder))
    sys.exit(1 if wrong else 0)


if __name__ == "__main__":
    main()
