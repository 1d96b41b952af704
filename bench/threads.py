#!/usr/bin/env python3
"""Runs small designs on boards with 2 to 64 workers, and compares each run with the one of one worker, byte by byte.

    bench/threads.py PROGRAM RUNS [SEED]

PROGRAM is a built vwires, a path or a name on PATH. Designs, boards and stimuli are made by chance from SEED. A run that
takes longer than a minute is stopped and counts as one that hangs. The texts of each run that differs or hangs are kept in
a folder whose name is printed. At the end it prints how much longer the runs took than those of one worker, all in all and
at the most, and ends with 1 where a run differs or hangs. Let something else keep the processors busy beside it.
"""
import os
import random
import shutil
import subprocess
import sys
import tempfile
import time


def design(chance, cells, inputs):
    """A design whose gates read nets that are not far before them, and whose latches read any net."""
    window = chance.choice([8, 32, 200])
    nets = [f"i{number}" for number in range(inputs)]
    lines = [".model m", ".inputs " + " ".join(nets)]
    body = []
    for number in range(cells):
        net = f"n{number}"
        if chance.random() < 0.25:
            source = chance.choice(nets[-window:])
            body.append(f".latch {source} {net} {chance.choice([0, 1, 2, 3])}")
        else:
            reads = [chance.choice(nets[-window:]) for _ in range(chance.randint(1, 4))]
            reads = list(dict.fromkeys(reads))
            body.append(".names " + " ".join(reads) + " " + net)
            for _ in range(chance.randint(1, 3)):
                body.append("".join(chance.choice("01-") for _ in reads) + " 1")
        nets.append(net)
    outputs = chance.sample(nets, min(len(nets), 8))
    lines.append(".outputs " + " ".join(outputs))
    return "\n".join(lines + body + [".end"]) + "\n"


def board(chance, cells):
    """A ring of chips with the host in it, or links between all; of one to eight pins, with delays or without."""
    chips = chance.choice([1, 2, 3, 5, 8, 15])
    room = max(1, -(-cells // chips) + chance.choice([0, 2, 20]))
    nodes = chips + 1
    if chips < 9 and chance.random() < 0.5:
        pairs = [(a, b) for a in range(nodes) for b in range(nodes) if a != b]
    else:
        pairs = sorted({(a, (a + 1) % nodes) for a in range(nodes)} | {((a + 1) % nodes, a) for a in range(nodes)})
    delays = chance.random() < 0.5
    lines = [f"board {2 if delays else 1}", f"chips {chips}", f"cells {room}", f"settle {chance.choice([0, 1, 3])}"]
    links = [(a, b, chance.choice([1, 2, 8])) for a, b in pairs]
    pins = {node: 0 for node in range(nodes)}
    for a, b, width in links:
        pins[a] += width
        pins[b] += width
    lines.append(f"pins {max(pins.values())}")
    for a, b, width in links:
        lines.append(f"link {a} {b} {width}" + (f" {chance.choice([1, 2, 5])}" if delays else ""))
    return "\n".join(lines) + "\n"


def rows(chance, inputs):
    clocks = chance.choice([0, 1, 40, 256, 300, 700])
    return "".join("".join(chance.choice("01") for _ in range(inputs)) + "\n" for _ in range(clocks))


def call(program, words, folder):
    """What a call answers, and how many seconds it took. A call that is too long is killed."""
    begun = time.monotonic()
    ended = subprocess.run([program, *words], cwd=folder, capture_output=True, timeout=60)
    return ended, time.monotonic() - begun


def write(folder, name, text):
    with open(os.path.join(folder, name), "wb") as file:
        file.write(text)


def make_texts(chance, folder):
    cells, inputs = chance.choice([3, 20, 100, 400]), chance.choice([1, 4, 12])
    write(folder, "d", design(chance, cells, inputs).encode())
    write(folder, "b", board(chance, cells).encode())
    write(folder, "s", rows(chance, inputs).encode())


def fault_of(program, words, folder, alone):
    """What is wrong with a run, or an empty text, and its seconds."""
    try:
        ran, seconds = call(program, words, folder)
    except subprocess.TimeoutExpired:
        return "hangs", 60.0
    if ran.returncode:
        return f"ends with {ran.returncode}: {ran.stderr.decode()}", seconds
    return "" if ran.stdout == alone.stdout else "differs", seconds


def main():
    if len(sys.argv) < 3:
        sys.exit(__doc__)
    program, runs = os.path.abspath(shutil.which(sys.argv[1]) or sys.argv[1]), int(sys.argv[2])
    chance = random.Random(int(sys.argv[3]) if len(sys.argv) > 3 else 1)
    done = bad = 0
    times, times_alone, longest = 0.0, 0.0, (0.0, "")
    with tempfile.TemporaryDirectory() as folder:
        while done < runs:
            make_texts(chance, folder)
            plan, _ = call(program, ["plan", "d", "b"], folder)
            alone, seconds_alone = call(program, ["run", "d", "b", "s", "workers=1"], folder)
            if plan.returncode or alone.returncode:
                sys.exit(f"not accepted: {plan.stderr} {alone.stderr}")
            write(folder, "p", plan.stdout)
            for workers in [2, 3, 4, 64, chance.randint(2, 64)]:
                for given in [[], ["plan=p"]]:
                    words = ["run", "d", "b", "s", f"workers={workers}", *given]
                    fault, seconds = fault_of(program, words, folder, alone)
                    done += 1
                    times, times_alone = times + seconds, times_alone + seconds_alone
                    longest = max(longest, (seconds / seconds_alone, " ".join(words)))
                    if fault:
                        bad += 1
                        kept = shutil.copytree(folder, tempfile.mkdtemp(prefix="vwires-threads-"), dirs_exist_ok=True)
                        print(f"{fault}: {' '.join(words)} in {kept}", flush=True)
    print(f"{done} runs, {bad} of them differ, fail or hang")
    print(f"{times:.1f} s, {times / times_alone:.1f} times as long as with one worker; at the most {longest[0]:.1f} times ({longest[1]})")
    sys.exit(1 if bad else 0)


main()
