#!/usr/bin/env python3
"""Times a grading whole and in shares, over the engines of tools/farm.

    bench/farms.py PROGRAM [CELLS] [CLOCKS] [SHARES]

PROGRAM is a built vwires. The design has CELLS tables and latches (default 20,000), each of which reads some of the eight
nets before it, and the stimulus CLOCKS rows (default 50), both made from a number. The table in Markdown has the seconds of
`grade` by one worker and by four, and of `tools/farm grade` in SHARES shares (default 32) over each engine that is
installed; for Slurm a cluster has to be up (SLURM_CONF). The joined grading has to be that of one worker.
"""
import os
import pathlib
import random
import shutil
import subprocess
import sys
import tempfile
import time

FARM = pathlib.Path(__file__).resolve().parent.parent / "tools" / "farm"


def design(cells):
    """A design, one cell in ten of which is a latch."""
    chance = random.Random(7)
    lines = [".model m", ".inputs " + " ".join(f"i{n}" for n in range(8)), f".outputs n{cells - 1} n{cells // 2}"]
    net = lambda n: f"n{n}" if n >= 0 else f"i{n + 8}"
    for n in range(cells):
        reads = [net(n - 1 - chance.randrange(8)) for _ in range(4)]
        if n % 10 == 9:
            lines.append(f".latch {reads[0]} n{n} 0")
        else:
            lines.append(f".names {' '.join(reads)} n{n}\n11-- 1\n-01- 1\n0--1 1\n1-00 1")
    return "\n".join([*lines, ".end", ""])


def timed(*words):
    """The seconds of a command, and what it prints."""
    begun = time.monotonic()
    done = subprocess.run([str(word) for word in words], stdout=subprocess.PIPE, stderr=subprocess.DEVNULL, check=True)
    return time.monotonic() - begun, done.stdout


def main():
    if len(sys.argv) < 2:
        sys.exit(__doc__)
    program = pathlib.Path(shutil.which(sys.argv[1]) or sys.argv[1]).resolve()
    cells, clocks, shares = (int(word) for word in [*sys.argv[2:], *("20000", "50", "32")[len(sys.argv) - 2 :]])
    print("| how | seconds |")
    print("|---|---|")
    with tempfile.TemporaryDirectory() as place:
        folder = pathlib.Path(place)
        chance = random.Random(3)
        (folder / "d.blif").write_text(design(cells))
        (folder / "s.stim").write_text("".join("".join(chance.choice("01") for _ in range(8)) + "\n" for _ in range(clocks)))
        files = [folder / "d.blif", folder / "s.stim"]
        one, whole = timed(program, "grade", *files, "workers=1")
        print(f"| whole, one worker | {one:.1f} |", flush=True)
        print(f"| whole, four workers | {timed(program, 'grade', *files, 'workers=4')[0]:.1f} |", flush=True)
        for engine, needed in (("local", "true"), ("parallel", "parallel"), ("slurm", "sbatch")):
            if not shutil.which(needed) or (engine == "slurm" and "SLURM_CONF" not in os.environ):
                continue
            words = [FARM, "grade", *files, "--shares", shares, "--engine", engine, "--out", folder / engine, "--vwires", program]
            seconds, _ = timed(*words)
            if (folder / engine / "grade.txt").read_bytes() != whole:
                sys.exit(f"{engine}: another grading")
            print(f"| {shares} shares, {engine} | {seconds:.1f} |", flush=True)
    print(f"\n{cells} cells, {clocks} clocks. Processors: {os.cpu_count()}. Load: {os.getloadavg()[0]:.1f}.")


if __name__ == "__main__":
    main()
