#!/usr/bin/env python3
"""Compares traces of designs by yosys with what Icarus Verilog says of their Verilog, clock by clock.

    bench/traces.py PROGRAM [CLOCKS] [SEED] [NAME]..

PROGRAM is a built vwires, a path or a name on PATH. yosys makes designs by the recipe, tools/blif.ys: a UART with a
queue of eight bytes and a datapath, each driven by a test bench in Verilog; the first five designs of
bench/emitted.py; and every other file of bench/verilog, each of which shows one construct. With names it takes only
these. A test bench prints the inputs of each clock, the outputs and some registers; the inputs are the stimulus, and
the registers are probed. Where a design has no test bench, one is generated, with rows by chance, in which resets are
on for the first two clocks and now and then later. There are CLOCKS clocks (default 2,000), and at most 200 for a
construct. Icarus Verilog simulates the Verilog itself, and what it says is compared with the trace of `sim`, whose
latches without an initial value start at 0, and with that of `run` on a ring of four chips with two workers, where
they start at 1. Bits that Icarus doesn't know, x or z, are counted and not compared. Designs that have to be refused
are, and with the line that is expected. It prints two tables in Markdown, and ends with 1 where something differs.
Where yosys, iverilog or vvp isn't installed, it says so, compares nothing and ends with 0.
"""
import pathlib
import random
import re
import shutil
import sys
import tempfile

sys.dont_write_bytecode = True
sys.path.insert(0, str(pathlib.Path(__file__).resolve().parent.parent / "tools"))
from emitted import MODULES
from lib.calls import done, run, status_of, synthesis
from lib.hardware import ring
from lib.texts import traced

VERILOG = pathlib.Path(__file__).resolve().parent / "verilog"
# of designs with a test bench of their own, the registers that it prints, in order
DRIVEN = {
    "uart": "waiting.writes[3:0] waiting.reads[3:0] bits_left[3:0] ticks[1:0] rest[8:0] comes[3:0] phase[1:0] "
    "taken[7:0]",
    "datapath": "left[7:0] right[7:0] sum[7:0] steps[3:0] place[1:0] file[0][7:0] file[1][7:0] file[2][7:0] "
    "file[3][7:0]",
}
# of other designs, registers that are no outputs and are compared as well
REGISTERS = {
    "async_load": "went",
    "async_resets": "sum[3:0]",
    "blocking": "before[4:0]",
    "constant_functions": "place[3:0]",
    "delay_line": "place[2:0] ring[5][3:0]",
    "falling_resets": "kept[3:0]",
    "generate_cases": "first.kept[3:0] third.both.before[3:0]",
    "initial_values": "kept[3:0]",
    "nested_modules": "left.count[2:0] left.low.count[1:0] right.count[2:0] right.low.count[1:0]",
    "odd_ranges": "kept[2:9]",
    "parameters": "wide.low.now[4:0] wide.high.now[4:0] narrow.now[5:0]",
    "ram_initial": "memory[9][7:0]",
    "reset_machine": "state[1:0]",
    "state_machine": "state[2:0]",
    "sv_types": "state[1:0] parts[7:0]",
}
# designs that have to be refused, and what stands in the lines that yosys or vwires then writes
REFUSED = {
    "both_edges": "design 23: several edges down up",
    "clock_as_data": "design 24: clock as data clk",
    "gated_clock": "design 21: gated clock gated",
    "inout_pin": "design 20: two drivers of pin",
    "loop": "found logic loop in module loop:",
    "missing_module": "Module `\\hard_macro' referenced in module `\\missing_module'",
    "multi_driven": "multiple conflicting drivers for multi_driven.\\y:",
    "sv_packed": "syntax error, unexpected '['",
    "sv_return": "syntax error, unexpected",
    "sv_unique_if": "syntax error, unexpected TOK_IF",
    "two_clocks": "design 22: several clocks other clk",
    "while_loop": "While loops are only allowed in constant functions!",
}


def names():
    """All designs: those with a test bench of their own, those of the other script, and one for each further file."""
    files = sorted(file.stem for file in VERILOG.iterdir() if file.suffix in (".v", ".sv"))
    constructs = [name for name in files if name not in DRIVEN and not name.endswith("_bench")]
    return [*DRIVEN, *MODULES, *constructs]


def written(name, folder):
    """Puts the Verilog of a design into the folder, with the files that it may read; gives its file."""
    if name in MODULES:
        (folder / f"{name}.v").write_text(MODULES[name])
        return f"{name}.v"
    for file in [*VERILOG.glob(f"{name}.*v"), *VERILOG.glob(f"{name}_bench.v"), *VERILOG.glob(f"{name}.hex")]:
        shutil.copy(file, folder)
    return next(folder.glob(f"{name}.*v")).name


def refusal(program, name, folder):
    """What yosys or vwires writes where it refuses a design, or an empty text."""
    for command in [synthesis(written(name, folder)), [program, "nets", f"{name}.blif"]]:
        ended = done(command, folder)
        if ended.returncode != 0:
            return ended.stderr.strip()
    return ""


def bits_of(register):
    """The names of the bits of a register that is given as NAME or NAME[FIRST:LAST], in this order."""
    parts = re.fullmatch(r"(.*)\[(\d+):(\d+)\]", register)
    if not parts:
        return [register]
    first, last = int(parts[2]), int(parts[3])
    step = 1 if first < last else -1
    return [f"{parts[1]}[{bit}]" for bit in range(first, last + step, step)]


def whole(register):
    """The name of a register without its range."""
    return re.sub(r"\[\d+:\d+\]$", "", register)


def ports_of(design, line):
    """The ports on a line of a design, each with its bits, the lowest first."""
    ports = {}
    for bit in re.search(rf"^\.{line} (.*)$", design, re.M).group(1).split():
        ports.setdefault(re.sub(r"\[\d+\]$", "", bit), []).append(bit)
    return ports


def in_verilog(name):
    """A name as Verilog has it: one with other characters than those of words begins with a backslash."""
    return name if re.fullmatch(r"[A-Za-z_]\w*", name) else f"\\{name} "


def index(bit):
    """The number of a bit, in brackets."""
    return bit[bit.rindex("[") :]


def declared(ports, kind):
    """Lines that declare ports, whose highest bits stand first."""
    lines = []
    for port, bits in ports.items():
        wide = f"[{index(bits[-1])[1:-1]}:{index(bits[0])[1:-1]}] " if bits[0] != port else ""
        lines.append(f"{kind} {wide}{in_verilog(port)};")
    return lines


def bits_in_verilog(ports):
    """Each bit of ports as Verilog has it, in order."""
    return [in_verilog(port) + (index(bit) if bit != port else "") for port, bits in ports.items() for bit in bits]


def bench(name, design, registers, rows, idle):
    """A test bench that gives each row to a design, and prints row, outputs and registers before the edge."""
    inputs, outputs = ports_of(design, "inputs"), ports_of(design, "outputs")
    clock = ["clk"] if inputs.pop("clk", None) else []
    bits = bits_in_verilog(inputs)
    given = "; ".join(f"{bit} = row[{len(bits) - 1 - place}]" for place, bit in enumerate(bits))
    joined = ", ".join(f".{in_verilog(port)}({in_verilog(port)})" for port in [*clock, *inputs, *outputs])
    shown = bits_in_verilog(outputs) + [f"dut.{whole(register)}" for register in registers]
    return "\n".join(
        ["module bench;", f"reg clk = {idle};", "integer clock;"]
        + declared(inputs, "reg")
        + declared(outputs, "wire")
        + [
            f"reg [{len(bits) - 1}:0] row;",
            f"reg [{len(bits) - 1}:0] rows [0:{len(rows) - 1}];",
            f"{name} dut({joined});",
            "initial begin",
            '$readmemb("rows.mem", rows);',
            f"for (clock = 0; clock < {len(rows)}; clock = clock + 1) begin",
            f"row = rows[clock]; {given}; #1;",
            f'$display("%b {"%b" * len(shown)}", row, {", ".join(shown)});',
            "clk = !clk; #1; clk = !clk; #1;",
            "end",
            "end",
            "endmodule",
        ]
    )


def bit_by_chance(column, clock, chance):
    """A bit of a row. A reset is on in the first two clocks, and in one of sixteen after them."""
    if column not in ("rst", "rst_n"):
        return chance.choice("01")
    on = clock < 2 or chance.random() < 1 / 16
    return str(int(on == (column == "rst")))


def printed(name, file, folder, options):
    """What the test bench prints: the inputs, and the outputs and registers, of each clock."""
    language = "-g2012" if file.endswith(".sv") else "-g2005"
    run(["iverilog", language, "-o", "bench.out", f"{name}_bench.v", file], folder)
    lines = run(["vvp", "-n", "bench.out", *options], folder).splitlines()
    return [line.split() for line in lines if re.fullmatch("[01xz ]+", line)]


def write_bench(name, file, registers, clocks, chance, folder):
    """Writes a test bench for a design that has none, and its rows."""
    design = (folder / f"{name}.blif").read_text()
    columns = [bit for port, bits in ports_of(design, "inputs").items() if port != "clk" for bit in bits]
    rows = ["".join(bit_by_chance(column, clock, chance) for column in columns) for clock in range(clocks)]
    idle = int("negedge clk" in (folder / file).read_text())
    (folder / "rows.mem").write_text("\n".join(rows) + "\n")
    (folder / f"{name}_bench.v").write_text(bench(name, design, registers, rows, idle))


def clocks_apart(seen, shown):
    """In how many clocks a trace has another bit than one that Icarus knows; clocks past the end of one count."""
    apart = sum(any(bit in "01" and bit != other for bit, other in zip(*pair)) for pair in zip(seen, shown))
    return apart + abs(len(seen) - len(shown))


def compare(program, name, clocks, chance, folder):
    """A line of the table of designs that run, and how many clocks differ."""
    file = written(name, folder)
    registers = (DRIVEN.get(name) or REGISTERS.get(name, "")).split()
    run(synthesis(file), folder)
    if name not in DRIVEN:
        write_bench(name, file, registers, clocks, chance, folder)
    seen = printed(name, file, folder, [f"+clocks={clocks}", f"+seed={chance.randint(1, 2**30)}"])
    (folder / "rows.stim").write_text("\n".join(words[0] for words in seen) + "\n")
    bits = ["".join(words[1:]) for words in seen]
    design = (folder / f"{name}.blif").read_text()
    cells = sum(line.startswith((".names", ".latch")) for line in design.splitlines())
    (folder / "ring.board").write_text(ring(cells))
    probes = [f"probe={bit}" for register in registers for bit in bits_of(register)]
    by_sim = run([program, "sim", f"{name}.blif", "rows.stim", *probes], folder)
    words = ["ring.board", "rows.stim", "workers=2", "unknown=1", *probes]
    by_run = run([program, "run", f"{name}.blif", *words], folder)
    apart = [clocks_apart(bits, [outputs for outputs, _ in traced(text)]) for text in (by_sim, by_run)]
    latches = by_sim.split("\n", 1)[0].split()[-1]
    outputs, unknown = len(bits[0]) - len(probes), sum(row.count("x") + row.count("z") for row in bits)
    sizes = f"{cells} | {latches} | {outputs} | {len(probes)} | {len(seen):,} | {unknown}"
    print(f"| {name} | {sizes} | {apart[0]} | {apart[1]} |", flush=True)
    return sum(apart)


def refused(program, name, folder):
    """A line of the table of designs that are refused, and whether the line is another one than expected."""
    text = refusal(program, name, folder)
    expected = REFUSED[name] in text
    shown = [line for line in text.splitlines() if REFUSED[name] in line] or text.splitlines()[-1:] or ["not refused"]
    print(f"| {name} | {shown[0]} | {'yes' if expected else 'no: ' + REFUSED[name]} |", flush=True)
    return not expected


def work(words):
    """Does a call, and gives its status."""
    if not words:
        sys.exit(__doc__)
    missing = [tool for tool in ["yosys", "iverilog", "vvp"] if not shutil.which(tool)]
    if missing:
        print(f"not installed, so nothing was compared: {' '.join(missing)}")
        return 0
    program = pathlib.Path(shutil.which(words[0]) or words[0]).resolve()
    clocks = int(words[1]) if len(words) > 1 else 2000
    seed = words[2] if len(words) > 2 else "1"
    chosen = words[3:] or names()
    print("| design | cells | latches | outputs | probes | clocks | unknown bits | differ in `sim` | differ in `run` |")
    print("|---|---|---|---|---|---|---|---|---|")
    wrong = 0
    for name in [name for name in chosen if name not in REFUSED]:
        with tempfile.TemporaryDirectory() as folder:
            long = name in DRIVEN or name in MODULES
            rows = clocks if long else min(clocks, 200)
            wrong += compare(program, name, rows, random.Random(f"{seed} {name}"), pathlib.Path(folder))
    rejected = [name for name in chosen if name in REFUSED]
    if rejected:
        print("\n| design | refused with | as expected |\n|---|---|---|")
    for name in rejected:
        with tempfile.TemporaryDirectory() as folder:
            wrong += refused(program, name, pathlib.Path(folder))
    return 1 if wrong else 0


if __name__ == "__main__":
    sys.exit(status_of(work, sys.argv[1:]))
