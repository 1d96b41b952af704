#!/usr/bin/env python3
"""Brings six designs through tools/bitstreams, and prints how large and how fast their boards are, and what differs.

    bench/bitstreams.py PROGRAM [CLOCKS] [SEED] [NAME]..

PROGRAM is a built vwires, a path or a name on PATH; the programs that tools/bitstreams calls have to be installed.
yosys makes the designs by the recipe from bench/boards and bench/verilog. Each is planned on a board of iCE40 HX8K in
ct256, whose chips form a ring, with links both ways between neighbours and between each chip and the host; for a
`settle` of 0 and of 1 with links that take one microcycle, and two. Over CLOCKS rows by chance (default 300), resets
being on at first and now and then later, the decoded bitstreams are compared with `vwires run`. It prints a table in
Markdown, and ends with 1 where something differs. With names it takes only these designs.
"""
import functools
import itertools
import pathlib
import random
import re
import shutil
import sys
import tempfile

sys.dont_write_bytecode = True
BENCH = pathlib.Path(__file__).resolve().parent
sys.path.insert(0, str(BENCH.parent / "tools"))
from lib.calls import Refused, done, reason, run, status_of, synthesis, write_text
from lib.texts import read_nets

TOOL = BENCH.parent / "tools" / "bitstreams"
# the folder of each design, its chips, and the pins of a link
DESIGNS = {
    "crc": ("boards", 4, 8),
    "uart": ("verilog", 1, 8),
    "datapath": ("verilog", 3, 8),
    "processor": ("boards", 4, 16),
    "fifo": ("boards", 2, 16),
    "stages": ("boards", 4, 16),
}
RESETS = ("rst", "start")
HEAD = (
    "| design | cells | chips | settle | delay | period | logic cells | inside, MHz | to a pad, ns | from a pad, ns "
    "| microclock, ns | clock, MHz | clocks | differ |"
)


def board(chips, cells, pins, settle, delay):
    """A ring of chips with links both ways, which each have links both ways with the host."""
    ends = [(0, chip) for chip in range(1, chips + 1)]
    ends += [(chip, chip % chips + 1) for chip in range(1, chips + 1) if chips > 1]
    both = dict.fromkeys([*ends, *((end, start) for start, end in ends)])
    room = -(-cells * 21 // (20 * chips)) + 4
    lines = ["board 2", f"chips {chips}", f"cells {room}", f"settle {settle}", f"pins {6 * pins}"]
    return "\n".join([*lines, *(f"link {start} {end} {pins} {delay}" for start, end in both)]) + "\n"


def rows_by_chance(columns, clocks, chance):
    """Rows by chance, in which resets are on at first and in one clock of forty."""
    for clock in range(clocks):
        on = clock < 2 or chance.random() < 1 / 40
        yield "".join(str(int(on)) if column in RESETS else chance.choice("01") for column in columns) + "\n"


def figures(text):
    """What tools/bitstreams printed, as the cells of the table; the last one is how many clocks differ."""
    chips = re.findall(r"^chip[0-9]+ +([0-9,]+) +[0-9]+ +(\S+) MHz +(\S+) ns +(\S+) ns$", text, re.M)
    cells, inside, leaving, coming = zip(*chips)
    longest = re.search(r"^microclock (\S+) ns", text, re.M)[1]
    clock = re.search(r"^clock of the design (\S+) MHz, ([0-9]+) microclocks", text, re.M)
    compared = re.search(r"^compared (\S+) clocks of \S+ outputs: (\S+) clocks differ", text, re.M)
    slowest = [min(inside, key=float), max(leaving, key=float), max(coming, key=float)]
    return [int(clock[2]) - 1, ", ".join(cells), *slowest, longest, clock[1], *compared.groups()]


def compare(program, name, settle, delay, rows, folder):
    """A line of the table, and whether bitstreams differ; `rows` makes the stimulus of columns."""
    place, chips, pins = DESIGNS[name]
    shutil.copy(BENCH / place / f"{name}.v", folder)
    run(synthesis(f"{name}.v"), folder)
    nets = read_nets(run([program, "nets", f"{name}.blif"], folder))
    write_text(folder / "ring.board", board(chips, len(nets.cells), pins, settle, delay))
    write_text(folder / "rows.stim", "".join(rows(nets.columns)))
    words = [f"{name}.blif", "ring.board", "--out", "made", "--verify", "rows.stim", "--vwires", program]
    ended = done([sys.executable, TOOL, *words], folder)
    if "compared" not in ended.stdout:
        raise Refused(f"{name}: {reason(ended)}")
    found = figures(ended.stdout)
    print("| " + " | ".join(map(str, [name, f"{len(nets.cells):,}", chips, settle, delay, *found])) + " |", flush=True)
    return found[-1] != "0"


def work(words):
    """Does a call, and gives its status."""
    if not words:
        sys.exit(__doc__)
    program = pathlib.Path(shutil.which(words[0]) or words[0]).resolve()
    clocks = int(words[1]) if len(words) > 1 else 300
    seed = words[2] if len(words) > 2 else "1"
    print(HEAD, "|" + "---|" * (HEAD.count("|") - 1), sep="\n", flush=True)
    wrong = 0
    for name, settle, delay in itertools.product(words[3:] or DESIGNS, (0, 1), (1, 2)):
        chance = random.Random(f"{seed} {name}")
        with tempfile.TemporaryDirectory() as folder:
            rows = functools.partial(rows_by_chance, clocks=clocks, chance=chance)
            wrong += compare(program, name, settle, delay, rows, pathlib.Path(folder))
    return 1 if wrong else 0


if __name__ == "__main__":
    sys.exit(status_of(work, sys.argv[1:]))
