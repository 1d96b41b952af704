#!/usr/bin/env python3
"""Simulates emitted boards by two tools, and compares them with the designs that they were made from.

    bench/emitted.py PROGRAM [CLOCKS] [SEED]

PROGRAM is a built vwires, a path or a name on PATH; yosys and Icarus Verilog (iverilog, vvp) have to be installed.
yosys makes seven designs from Verilog by tools/blif.ys, two of them without initial values. Each is planned on a ring
of chips, with a row by chance for each of CLOCKS clocks (default 300). Three things are compared clock by clock: the
trace of `run` by the plan; that of `sim` over the emitted board, each row held for P + 1 clocks, P being the period,
in the last of these clocks; and what Icarus Verilog prints in these clocks, of the Verilog that yosys makes of the
emitted board. It prints a table in Markdown, and ends with 1 where something differs.
"""
import pathlib
import random
import re
import shutil
import sys
import tempfile

sys.dont_write_bytecode = True
sys.path.insert(0, str(pathlib.Path(__file__).resolve().parent.parent / "tools"))
from lib.calls import run, status_of, synthesis, write_text
from lib.hardware import clocks_a_row, held_bench, joined, read_emitted, ring
from lib.texts import different, traced

MODULES = {
    # a shift register with feedback, which can be loaded
    "lfsr": """
module lfsr(input clk, input load, input [15:0] seed, output reg [15:0] state, output odd);
  initial state = 16'hACE1;
  assign odd = ^state;
  always @(posedge clk)
    if (load) state <= seed | 16'h1;
    else state <= (state >> 1) ^ (state[0] ? 16'hB400 : 16'h0);
endmodule""",
    # two decimal digits, each shown by seven segments
    "digits": """
module seven(input [3:0] digit, output reg [6:0] lit);
  always @*
    case (digit)
      4'd0: lit = 7'h3f; 4'd1: lit = 7'h06; 4'd2: lit = 7'h5b; 4'd3: lit = 7'h4f; 4'd4: lit = 7'h66;
      4'd5: lit = 7'h6d; 4'd6: lit = 7'h7d; 4'd7: lit = 7'h07; 4'd8: lit = 7'h7f; default: lit = 7'h6f;
    endcase
endmodule
module digits(input clk, input en, input clear, output [6:0] high_lit, output [6:0] low_lit, output full);
  reg [3:0] high, low;
  initial begin high = 4'd0; low = 4'd0; end
  seven left(high, high_lit);
  seven right(low, low_lit);
  assign full = high == 4'd9 && low == 4'd9;
  always @(posedge clk)
    if (clear) begin high <= 4'd0; low <= 4'd0; end
    else if (en) begin
      low <= low == 4'd9 ? 4'd0 : low + 4'd1;
      if (low == 4'd9) high <= high == 4'd9 ? 4'd0 : high + 4'd1;
    end
endmodule""",
    # a product of two bytes by eight sums
    "product": """
module product(input clk, input start, input [7:0] a, input [7:0] b, output reg [15:0] sum, output busy);
  reg [15:0] left;
  reg [7:0] right;
  reg [3:0] steps;
  initial begin sum = 16'd0; left = 16'd0; right = 8'd0; steps = 4'd0; end
  assign busy = steps != 4'd0;
  always @(posedge clk)
    if (start && !busy) begin sum <= 16'd0; left <= {8'd0, a}; right <= b; steps <= 4'd8; end
    else if (busy) begin
      if (right[0]) sum <= sum + left;
      left <= left << 1;
      right <= right >> 1;
      steps <= steps - 4'd1;
    end
endmodule""",
    # a serial line: a start bit, eight bits, a stop bit, four clocks each
    "serial": """
module serial(input clk, input send, input [7:0] word, output reg line, output idle);
  reg [8:0] rest;
  reg [3:0] bits;
  reg [1:0] wait_for;
  initial begin line = 1'b1; rest = 9'h1ff; bits = 4'd0; wait_for = 2'd0; end
  assign idle = bits == 4'd0;
  always @(posedge clk)
    if (idle) begin
      if (send) begin line <= 1'b0; rest <= {1'b1, word}; bits <= 4'd10; wait_for <= 2'd3; end
    end else if (wait_for != 2'd0) wait_for <= wait_for - 2'd1;
    else begin line <= rest[0]; rest <= {1'b1, rest[8:1]}; bits <= bits - 4'd1; wait_for <= 2'd3; end
endmodule""",
    # four words that wait in a row
    "queue": """
module queue(input clk, input put, input take, input [3:0] word, output [3:0] first, output empty, output full);
  reg [3:0] w0, w1, w2, w3;
  reg [2:0] count;
  initial begin w0 = 4'd0; w1 = 4'd0; w2 = 4'd0; w3 = 4'd0; count = 3'd0; end
  assign first = w0;
  assign empty = count == 3'd0;
  assign full = count == 3'd4;
  wire takes = take && !empty;
  wire puts = put && (!full || takes);
  wire [2:0] place = takes ? count - 3'd1 : count;
  always @(posedge clk) begin
    if (takes) begin w0 <= w1; w1 <= w2; w2 <= w3; end
    if (puts)
      case (place)
        3'd0: w0 <= word;
        3'd1: w1 <= word;
        3'd2: w2 <= word;
        default: w3 <= word;
      endcase
    count <= place + (puts ? 3'd1 : 3'd0);
  end
endmodule""",
}

# designs without initial values, whose registers start at 0 as those of `run` do
UNSET = {
    # the sum of what came, which nothing sets back
    "total": """
module total(input clk, input en, input [3:0] d, output reg [7:0] sum, output odd);
  assign odd = ^sum;
  always @(posedge clk) if (en) sum <= sum + d;
endmodule""",
    # a counter that a reset sets to 5 at the edge, and a flag that a reset takes away at once
    "resets": """
module resets(input clk, input rst, input en, output reg [3:0] count, output reg passed);
  always @(posedge clk)
    if (rst) count <= 4'd5;
    else if (en) count <= count + 4'd1;
  always @(posedge clk or posedge rst)
    if (rst) passed <= 1'b0;
    else passed <= passed | &count;
endmodule""",
}



def as_verilog(models, folder):
    """Turns the emitted board into Verilog with a clock."""
    write_text(folder / "clocked.blif", "".join(model.clocked().text() for model in models.values()))
    run(["yosys", "-q", "-p", "read_blif clocked.blif; write_verilog board.v"], folder)


def bench(board, rows, every):
    """A test bench that holds each row, and prints the outputs before the last edge of each group."""
    taken = {port: f"row[{len(board.inputs) - 1 - int(port[1:])}]" for port in board.inputs}
    ports = {"clk": "clk", **taken, **{port: port for port in board.outputs}}
    placed = [f"wire {', '.join(board.outputs)};", joined("board", "dut", ports)]
    return held_bench(placed, board.outputs, max(1, len(rows[0])), len(rows), every)


def compare(program, name, source, clocks, chance, folder):
    """A line of the table, and how many clocks differ."""
    (folder / f"{name}.v").write_text(source)
    run(synthesis(f"{name}.v"), folder)
    design = (folder / f"{name}.blif").read_text()
    cells = sum(line.startswith((".names", ".latch")) for line in design.splitlines())
    (folder / "ring.board").write_text(ring(cells))
    inputs = re.search(r"^\.inputs (.*)$", design, re.M).group(1).split()
    columns = [port for port in inputs if port != "clk"]
    rows = ["".join(chance.choice("01") for _ in columns) for _ in range(clocks)]
    (folder / "rows.stim").write_text("\n".join(rows) + "\n")
    plan = run([program, "plan", f"{name}.blif", "ring.board"], folder)
    (folder / "board.plan").write_text(plan)
    period = int(plan.split()[4])
    (folder / "held.stim").write_text("".join(f"{row}\nhold {period}\n" for row in rows))
    emitted = run([program, "emit", f"{name}.blif", "ring.board", "plan=board.plan"], folder)
    (folder / "board.blif").write_text(emitted)
    own = run([program, "run", f"{name}.blif", "ring.board", "rows.stim", "plan=board.plan"], folder)
    wanted = [outputs + latches for outputs, latches in traced(own)]
    by_sim = run([program, "sim", "board.blif", "held.stim"], folder)
    shown = [outputs for outputs, _ in traced(by_sim)][period :: period + 1]
    models = read_emitted(emitted)
    as_verilog(models, folder)
    (folder / "rows.mem").write_text("\n".join(rows) + "\n")
    (folder / "bench.v").write_text(bench(models["board"], rows, clocks_a_row(models)))
    run(["iverilog", "-g2005", "-o", "bench.out", "bench.v", "board.v"], folder)
    by_other = run(["vvp", "-n", "bench.out"], folder)
    seen = [line for line in by_other.splitlines() if re.fullmatch("[01xz]+", line)]
    wrong_sim = different(wanted, shown)
    wrong_other = different(wanted, seen)
    board_cells = sum(line.startswith((".names", ".latch")) for line in emitted.splitlines())
    size = f"{board_cells:,} | {len(emitted) / 1000:,.0f}"
    print(f"| {name} | {cells} | {period} | {size} | {len(wanted)} | {wrong_sim} | {wrong_other} |")
    return wrong_sim + wrong_other


def work(words):
    """Does a call, and gives its status."""
    if not words:
        sys.exit(__doc__)
    program = pathlib.Path(shutil.which(words[0]) or words[0]).resolve()
    clocks = int(words[1]) if len(words) > 1 else 300
    chance = random.Random(int(words[2]) if len(words) > 2 else 1)
    print("| design | cells | period | cells of its board | text, kB | clocks | differ in `sim` | differ in Icarus |")
    print("|---|---|---|---|---|---|---|---|")
    wrong = 0
    for name, source in {**MODULES, **UNSET}.items():
        with tempfile.TemporaryDirectory() as folder:
            wrong += compare(program, name, source, clocks, chance, pathlib.Path(folder))
    return 1 if wrong else 0


if __name__ == "__main__":
    sys.exit(status_of(work, sys.argv[1:]))
