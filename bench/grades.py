#!/usr/bin/env python3
"""Says how many faults of the UART and the datapath of bench/verilog their test benches reveal.

    bench/grades.py PROGRAM [CLOCKS] [SEED]

PROGRAM is a built vwires, a path or a name on PATH; yosys and Icarus Verilog (iverilog, vvp) have to be installed.
yosys makes the designs by the recipe, tools/blif.ys. The stimulus has the inputs of CLOCKS clocks (default 300) that
the test bench of each, which draws by chance from SEED (default 1), gives to it. It prints a table in Markdown: all
faults of `grade`, and those of nets from which some way leads to an output, as tools/seen.awk sets them apart.
"""
import pathlib
import shutil
import sys
import tempfile

sys.dont_write_bytecode = True
from emitted import run, synthesis
from traces import DRIVEN, printed, written

SEEN = pathlib.Path(__file__).resolve().parent.parent / "tools" / "seen.awk"


def graded(program, name, clocks, seed, folder):
    """A line of the table."""
    file = written(name, folder)
    run(synthesis(file), folder)
    rows = [words[0] for words in printed(name, file, folder, [f"+clocks={clocks}", f"+seed={seed}"])]
    (folder / "rows.stim").write_text("\n".join(rows) + "\n")
    netlist = run([program, "nets", f"{name}.blif"], folder)
    grading = run([program, "grade", f"{name}.blif", "rows.stim", "workers=1"], folder)
    (folder / "netlist").write_text(netlist)
    (folder / "grading").write_text(grading)
    gates, latches = netlist.count("\ngate "), netlist.count("\nlatch ")
    _, _, faults, revealed = grading.split("\n", 1)[0].split()
    seen = run(["awk", "-f", SEEN, "netlist", "grading"], folder).splitlines()[-1].split()
    return f"| {name} | {gates} | {latches} | {clocks} | {revealed} of {faults} | {seen[1]} of {seen[3]} |"


def main():
    if len(sys.argv) < 2:
        sys.exit(__doc__)
    program = pathlib.Path(shutil.which(sys.argv[1]) or sys.argv[1]).resolve()
    clocks = int(sys.argv[2]) if len(sys.argv) > 2 else 300
    seed = sys.argv[3] if len(sys.argv) > 3 else "1"
    print("| design | tables | latches | clocks | faults revealed | of nets that lead to an output |")
    print("|---|---|---|---|---|---|")
    for name in DRIVEN:
        with tempfile.TemporaryDirectory() as folder:
            print(graded(program, name, clocks, seed, pathlib.Path(folder)), flush=True)


if __name__ == "__main__":
    main()
