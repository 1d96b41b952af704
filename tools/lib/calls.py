"""Calls of other programs, and how a tool ends that can't go on."""
import argparse
import os
import pathlib
import re
import shutil
import subprocess
import sys

# the package of Debian that has a program
PACKAGES = {
    "yosys": "yosys",
    "iverilog": "iverilog",
    "vvp": "iverilog",
    "nextpnr-ice40": "nextpnr-ice40",
    "icepack": "fpga-icestorm",
    "iceunpack": "fpga-icestorm",
    "icebox_vlog": "fpga-icestorm",
}
RECIPE = pathlib.Path(__file__).resolve().parent.parent / "blif.ys"


class Refused(Exception):
    """A tool can't go on, for the reason that is given."""


def say(line):
    """Writes a line of progress."""
    print(line, file=sys.stderr, flush=True)


def need(*programs):
    """Refuses where a program isn't installed."""
    for program in programs:
        if not shutil.which(program):
            raise Refused(f"{program} isn't installed: apt install {PACKAGES[program]}")


def vwires_at(word):
    """The path of vwires: the word of --vwires, or the one on the path."""
    found = shutil.which(word or "vwires")
    if not found:
        raise Refused(f"no program {word}" if word else "vwires isn't on the path: name it by --vwires")
    return str(pathlib.Path(found).resolve())


def done(words, folder=None):
    """How a command ended, and what it wrote."""
    return subprocess.run(
        [str(word) for word in words], cwd=folder, capture_output=True, text=True, encoding="latin-1", check=False
    )


def reason(ended):
    """The line by which a program says why it failed: its last error, or its last line."""
    lines = [line.strip() for line in (ended.stdout + ended.stderr).splitlines() if line.strip()]
    errors = [line for line in lines if re.match("error", line, re.I)]
    return (errors or lines or ["no message"])[-1]


def run(words, folder=None):
    """What a command prints; refused where it fails, with its reason."""
    ended = done(words, folder)
    if ended.returncode != 0:
        raise Refused(f"{pathlib.Path(str(words[0])).name}: status {ended.returncode}: {reason(ended)}")
    return ended.stdout


def synthesis(file):
    """The command that makes a design NAME.blif of NAME.v by the recipe, whose top module is NAME."""
    name = pathlib.Path(file).stem
    return ["yosys", "-q", "-r", name, "-s", RECIPE, "-o", f"{name}.blif", file]


def read_text(name):
    """The text of a file, of which each byte is one character."""
    return pathlib.Path(name).read_text(encoding="latin-1")


def write_text(name, text):
    """Writes a text to a file, each character as one byte."""
    pathlib.Path(name).write_text(text, encoding="latin-1", newline="\n")


def parser(page):
    """What reads the words of a tool, whose page is shown by --help as it stands."""
    return argparse.ArgumentParser(
        prog=f"tools/{os.path.basename(sys.argv[0])}",
        description=page.strip(),
        formatter_class=argparse.RawDescriptionHelpFormatter,
    )


def status_of(work, words):
    """The status of a tool whose work is done over these words: 1 where it is refused, 2 where a file can't be used."""
    try:
        return work(words) or 0
    except Refused as refused:
        print(refused, file=sys.stderr)
        return 1
    except OSError as fault:
        print(f"{fault.filename or 'standard output'}: {fault.strerror}", file=sys.stderr)
        return 2
