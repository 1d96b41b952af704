#!/usr/bin/env python3
"""Compares the plans of two programs.

    bench/plans.py PROGRAM [--before PROGRAM] [--designs NAME,..] [--boards NAME,..]

Each PROGRAM is a built vwires. yosys has to be installed: it makes the designs of bench/designs, in gates of two inputs or
in tables of four or of six. Each is planned on boards with room for 3 % more cells than there are, whose host is joined to
each chip. A line of the table in Markdown has the wires, the period, and the seconds of processor of a plan, with those of
the program before, and the bound SHORT of `report` for the plan of PROGRAM; what follows says how the periods and the wires of all compare. `check` of the same program has to
accept each plan. The status is 1 where one is refused, or where a period got longer.
"""
import argparse
import math
import os
import pathlib
import resource
import subprocess
import sys
import tempfile

FOLDER = pathlib.Path(__file__).resolve().parent / "designs"
FORMS = {"gates": "abc -g AND,NAND,OR,NOR,XOR,XNOR", "four": "abc -lut 4", "six": "abc -lut 6"}
DESIGNS = [
    ("products", "gates"), ("products", "four"), ("rounds", "gates"), ("rounds", "six"), ("cipher", "four"),
    ("cipher", "six"), ("processor", "gates"), ("processor", "four"), ("filter", "four"), ("sorter", "gates"),
    ("sorter", "six"), ("automaton", "gates"), ("automaton", "six"), ("sums", "four"), ("memory", "six"),
    ("divider", "gates"), ("divider", "four"),
]


def synthesis(name, form):
    """The script of yosys that makes a design in one of the forms."""
    return (f"read_verilog {FOLDER}/{name}.v; synth -flatten -noabc -top {name}; memory_map; opt -full; techmap; "
            f"dfflegalize -cell $_DFF_P_ 01; {FORMS[form]}; opt_clean; splitnets; opt_clean; write_blif design.blif")


def mesh(rows, columns):
    """The pairs of neighbours in a mesh of chips."""
    chip = lambda row, column: 1 + row * columns + column
    across = [(chip(r, c), chip(r, c + 1)) for r in range(rows) for c in range(columns - 1)]
    return across + [(chip(r, c), chip(r + 1, c)) for r in range(rows - 1) for c in range(columns)]


def ring(chips):
    """The pairs of neighbours in a ring of chips."""
    return [(chip, chip % chips + 1) for chip in range(1, chips + 1)]


def full(chips):
    """All pairs of chips."""
    return [(one, other) for one in range(1, chips + 1) for other in range(one + 1, chips + 1)]


# by name: the number of chips, the pairs that are joined, pins, and delay
BOARDS = {
    "mesh": (16, mesh(4, 4), 8, 1),
    "mesh, delays of 3": (16, mesh(4, 4), 8, 3),
    "mesh, one pin": (16, mesh(4, 4), 1, 1),
    "ring": (4, ring(4), 8, 1),
    "all to all": (8, full(8), 8, 1),
}


def board_text(name, cells):
    """The text of a board with room for 3 % more cells."""
    chips, pairs, pins, delay = BOARDS[name]
    pairs = pairs + [(0, chip) for chip in range(1, chips + 1)]
    room = math.ceil(cells * 1.03 / chips)
    links = [f"link {a} {b} {pins} {delay}\nlink {b} {a} {pins} {delay}\n" for a, b in pairs]
    return f"board 2\nchips {chips}\ncells {room}\nsettle 1\npins 4096\n" + "".join(links)


def plan(program, folder):
    """The wires, the period and the seconds of the plan that a program makes, and whether it accepts its own plan."""
    before = resource.getrusage(resource.RUSAGE_CHILDREN)
    made = subprocess.run([*program, "plan", "design.blif", "b.board"], cwd=folder, capture_output=True, check=False)
    after = resource.getrusage(resource.RUSAGE_CHILDREN)
    if made.returncode:
        sys.exit(f"plan: status {made.returncode}: {made.stderr.decode()}")
    (folder / "made.plan").write_bytes(made.stdout)
    words = made.stdout.split(b"\n", 1)[0].split()
    checked = subprocess.run([*program, "check", "design.blif", "b.board", "made.plan"], cwd=folder, capture_output=True, check=False)
    return int(words[3]), int(words[4]), after.ru_utime - before.ru_utime, checked.returncode == 0


def short_bound(program, folder):
    """The bound of `report` for plans with the chips of the plan that was made last, and shortest wires."""
    words = [*program, "report", "design.blif", "b.board", "plan=made.plan"]
    said = subprocess.run(words, cwd=folder, capture_output=True, check=True).stdout
    return int(said.split(b"\n", 1)[0].split()[-1])


def ratio(values):
    """The mean of ratios and the greatest."""
    return f"{sum(values) / len(values):.3f} on average, {max(values):.2f} at most" if values else "none"


def main():
    parser = argparse.ArgumentParser(description=__doc__, formatter_class=argparse.RawDescriptionHelpFormatter)
    parser.add_argument("program")
    parser.add_argument("--before")
    parser.add_argument("--designs", default="")
    parser.add_argument("--boards", default="")
    given = parser.parse_args()
    programs = [word.split() for word in ([given.before] if given.before else []) + [given.program]]
    wanted = given.designs.split(",") if given.designs else []
    boards = given.boards.split(";") if given.boards else list(BOARDS)
    periods, wires, times, over, failed = [], [], [], [], 0
    print("| design | tables | cells | board | wires | period | SHORT | seconds |")
    print("|---|---|---|---|---|---|---|---|")
    for name, form in DESIGNS:
        if wanted and name not in wanted:
            continue
        with tempfile.TemporaryDirectory() as place:
            folder = pathlib.Path(place)
            subprocess.run(["yosys", "-q", "-p", synthesis(name, form)], cwd=folder, check=True)
            text = (folder / "design.blif").read_text()
            cells = text.count("\n.names ") + text.count("\n.latch ")
            for board in boards:
                (folder / "b.board").write_text(board_text(board, cells))
                made = [plan(program, folder) for program in programs]
                failed += sum(not it[3] for it in made)
                shown = [", ".join(str(round(it[at], 2)) for it in made) for at in range(3)]
                bound = short_bound(programs[-1], folder)
                over.append(made[-1][1] / bound)
                print(f"| {name} | {form} | {cells} | {board} | {shown[0]} | {shown[1]} | {bound} | {shown[2]} |", flush=True)
                if len(made) == 2:
                    old, new = made
                    wires.append(new[0] / old[0])
                    periods.append(new[1] / old[1])
                    times.append(new[2] / max(old[2], 0.01))
                    failed += new[1] > old[1]
    if given.before:
        print(f"\nAfter to before: periods {ratio(periods)}; wires {ratio(wires)}; time {ratio(times)}.")
    print(f"Periods to SHORT: {ratio(over)}; {sum(it == 1 for it in over)} of {len(over)} are it.")
    print(f"Load: {os.getloadavg()[0]:.1f} on {os.cpu_count()} processors.")
    sys.exit(1 if failed else 0)


if __name__ == "__main__":
    main()
