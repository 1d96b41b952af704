#!/usr/bin/env python3
"""How much faster several workers run a board than one, with idle and with busy processors.

    bench/workers.py PROGRAM [WORKERS] [BUSY] [RUNS] [OLD]

PROGRAM is a built vwires, a path or a name on PATH, and OLD another one to compare with. WORKERS and BUSY are numbers with
commas between them (by default 1,2,3,4,16 and 0,2,4): with how many workers, and beside how many other programs that keep a
processor busy each. It prints tables in Markdown. Each entry is the time of a run with one worker of PROGRAM by the time of
a run with so many, the median of RUNS pairs (5) with the least and the most, each pair one run after the other; a run with
one worker is beside another one. Of each time that of a run over no clocks is taken off, which reads the design and checks
the plan. All runs have to write the same trace.
"""
import os
import pathlib
import random
import resource
import shutil
import statistics
import subprocess
import sys
import tempfile
import time


def ideal():
    """Four blocks of 15,000 cells: each table reads three of the 300 nets before it in its block, or registers that the block
    before it has sent; 19 registers of each block go to the next one."""
    chance = random.Random(1)
    lines = [".model m", ".inputs i", ".outputs b0n14999"]
    for block in range(4):
        sent = [f"s{(block + 3) % 4}x{number}" for number in range(19)]
        for cell in range(15000):
            near = [f"b{block}n{other}" for other in range(max(0, cell - 300), cell)] + sent
            net = f"b{block}n{cell}"
            if cell % 8 == 7:
                lines.append(f".latch {chance.choice(near)} {net} 0")
            else:
                lines += [".names " + " ".join(chance.sample(near, 3)) + " " + net, "11- 1", "--1 1"]
        lines += [f".latch b{block}n{14000 + 50 * number} s{block}x{number} {number % 2}" for number in range(19)]
    return "\n".join(lines + [".end"]) + "\n"


def grid(side):
    """Cells in a square; each reads the ones left of it and above it, and every eighth column is latches."""
    lines = [".model m", ".inputs a b", f".outputs x{side - 1}y{side - 1}"]
    for y in range(side):
        for x in range(side):
            left, above = f"x{x - 1}y{y}" if x else "a", f"x{x}y{y - 1}" if y else "b"
            lines += [f".latch {left} x{x}y{y} 0"] if x % 8 == 7 else [f".names {left} {above} x{x}y{y}", "10 1", "01 1"]
    return "\n".join(lines + [".end"]) + "\n"


def window(count, reach):
    """Tables that read three of the nets before them within a window; every tenth cell is a latch."""
    chance = random.Random(2)
    lines = [".model m", ".inputs i", f".outputs n{count - 1}"]
    for cell in range(count):
        nets = [f"n{max(0, cell - 1 - chance.randrange(reach))}" if cell else "i" for _ in range(3)]
        nets = ["i" if net == f"n{cell}" else net for net in nets]
        if cell % 10 == 9:
            lines.append(f".latch {nets[0]} n{cell} 0")
        else:
            lines += [".names " + " ".join(nets) + f" n{cell}", "11- 1", "--1 1"]
    return "\n".join(lines + [".end"]) + "\n"


def board(cells, chips, links):
    """A board with so many chips and these links, each a pair of nodes and a number of pins, with a delay of 1."""
    lines = ["board 2", f"chips {chips}", f"cells {-(-cells * 103 // (100 * chips))}", "settle 0", "pins 4096"]
    return "\n".join(lines + [f"link {a} {b} {pins} 1" for a, b, pins in links]) + "\n"


def mesh(cells, side):
    """Chips in a square, each linked to its neighbours and to the host, with 8 pins a link."""
    nodes = side * side + 1
    beside = lambda p, q: (q == p + 1 and q % side) or q == p + side
    linked = lambda a, b: a == 0 or b == 0 or beside(a - 1, b - 1) or beside(b - 1, a - 1)
    return board(cells, side * side, [(a, b, 8) for a in range(nodes) for b in range(nodes) if a != b and linked(a, b)])


def circle(cells):
    """Four chips in a circle, with 10 pins a link, each linked to the host."""
    links = [(a, a % 4 + 1, 10) for a in range(1, 5)]
    return board(cells, 4, links + [(a, 0, 1) for a in range(1, 5)] + [(0, a, 1) for a in range(1, 5)])


def ring(cells, chips):
    """Chips and the host in a ring, with one pin a link."""
    nodes = chips + 1
    pairs = {(a, (a + 1) % nodes) for a in range(nodes)}
    return board(cells, chips, sorted((a, b, 1) for a, b in pairs | {(b, a) for a, b in pairs}))


# what each design is called, its text, its board, and over how many clocks it runs
DESIGNS = [
    ("ideal", ideal, lambda: circle(60076), 4096),
    ("grid, 4 chips", lambda: grid(245), lambda: mesh(60025, 2), 4096),
    ("window, 4 chips", lambda: window(60000, 400), lambda: mesh(60000, 2), 4096),
    ("grid, 16 chips", lambda: grid(245), lambda: mesh(60025, 4), 2048),
    ("window, 16 chips", lambda: window(60000, 400), lambda: mesh(60000, 4), 2048),
    ("chatty", lambda: window(400, 32), lambda: ring(400, 15), 16384),
]


class Bench:
    """A design on its board, by a plan that was made before."""

    def __init__(self, program, folder, name, clocks):
        self.folder, self.name, self.wanted = folder, name, None
        chance = random.Random(3)
        inputs = (folder / "d").read_text().split(".inputs ")[1].split("\n")[0].split()
        rows = ["".join(chance.choice("01") for _ in inputs) for _ in range(clocks)]
        (folder / "s").write_text("\n".join(rows) + "\n")
        (folder / "none").write_text("")
        (folder / "p").write_bytes(self.call([program, "plan", "d", "b"])[0])
        self.period = (folder / "p").read_text().split("\n")[0].split()[4]
        self.wires = (folder / "p").read_text().split("\n")[0].split()[3]

    def call(self, words):
        begun, used = time.monotonic(), used_by_others()
        ended = subprocess.run(words, cwd=self.folder, capture_output=True, timeout=300)
        if ended.returncode:
            sys.exit(f"{words} in {self.folder}: {ended.stderr.decode()}")
        seconds = time.monotonic() - begun
        return ended.stdout, seconds, (used_by_others() - used) / seconds

    def run(self, program, workers):
        """The seconds of a run, without those of a run over no clocks; and how many processors others used."""
        words = lambda stimulus: [program, "run", "d", "b", stimulus, "plan=p", f"workers={workers}"]
        text, seconds, others = self.call(words("s"))
        self.wanted = self.wanted or text
        if text != self.wanted:
            sys.exit(f"{self.name} with {workers} workers: another trace, in {self.folder}")
        return max(1e-3, seconds - self.call(words("none"))[1]), others

    def pair(self, alone, program, workers):
        """How many times as fast a program is with so many workers as one worker of another, and what others used."""
        before, some = self.run(alone, 1)
        after, others = self.run(program, workers)
        return before / after, (some + others) / 2


def used_by_others():
    """How many seconds of all processors other programs have used so far."""
    ticks = [int(word) for word in pathlib.Path("/proc/stat").read_text().split("\n")[0].split()[1:]]
    children = resource.getrusage(resource.RUSAGE_CHILDREN)
    return (sum(ticks[:3]) + sum(ticks[5:8])) / os.sysconf("SC_CLK_TCK") - children.ru_utime - children.ru_stime


def busy(count):
    """So many programs that keep a processor busy each."""
    return [subprocess.Popen([sys.executable, "-c", "while True: pass"]) for _ in range(count)]


def entry(ratios):
    return f"{statistics.median(ratios):.2f} ({min(ratios):.2f} to {max(ratios):.2f})"


def numbers(words, place, default):
    return [int(word) for word in (words[place] if len(words) > place else default).split(",")]


def benches_in(top, program, chosen):
    """The designs with these numbers, planned."""
    for number in chosen:
        name, design, its_board, clocks = DESIGNS[number]
        folder = pathlib.Path(top) / str(number)
        folder.mkdir()
        (folder / "d").write_text(design())
        (folder / "b").write_text(its_board())
        yield Bench(program, folder, name, clocks)


def main():
    words = sys.argv
    if len(words) < 2:
        sys.exit(__doc__)
    find = lambda word: os.path.abspath(shutil.which(word) or word)
    program, workers, beside = find(words[1]), numbers(words, 2, "1,2,3,4,16"), numbers(words, 3, "0,2,4")
    runs = int(words[4]) if len(words) > 4 else 5
    programs = ([("old", find(words[5]))] if len(words) > 5 else []) + [("new", program)]
    with tempfile.TemporaryDirectory() as top:
        benches = list(benches_in(top, program, range(len(DESIGNS))))
        for bench in benches:
            print(f"{bench.name}: {bench.wires} wires, a period of {bench.period}")
        for others in beside:
            print(f"\n{others} of {os.cpu_count()} processors kept busy\n")
            print("| design | workers | " + " | ".join(name for name, _ in programs) + " | others |")
            print("|---|---|" + "---|" * len(programs) + "---|", flush=True)
            kept = busy(others)
            try:
                for bench in benches:
                    for many in workers:
                        made = [[bench.pair(program, it, many) for _ in range(runs)] for _, it in programs]
                        entries = [entry([ratio for ratio, _ in pairs]) for pairs in made]
                        used = statistics.median(some for pairs in made for _, some in pairs)
                        print(f"| {bench.name} | {many} | " + " | ".join(entries) + f" | {used:.1f} |", flush=True)
            finally:
                for other in kept:
                    other.kill()
                    other.wait()


if __name__ == "__main__":
    main()
