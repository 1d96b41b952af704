"""Devices of the iCE40 family: their packages and the pads of these, from the chip databases of icestorm."""
import collections
import pathlib
import re

from lib.calls import Refused

# the database of a device, as fpga-icestorm-chipdb names it
DATABASES = {"hx1k": "1k", "hx8k": "8k", "up5k": "5k"}
FOLDERS = ["/usr/share/fpga-icestorm/chipdb", "/usr/share/icebox", "/usr/local/share/icebox"]
# places of the pads that a board needs for itself: those by which a chip reads its configuration, and, of the up5k,
# those that drive a lamp
TAKEN = {
    "1k": {(11, 0, 0), (11, 0, 1), (12, 0, 0), (12, 0, 1)},
    "8k": {(30, 0, 0), (30, 0, 1), (31, 0, 0), (31, 0, 1)},
    "5k": {(23, 0, 0), (23, 0, 1), (24, 0, 0), (24, 0, 1), (4, 31, 0), (5, 31, 0), (6, 31, 0)},
}
# the names of a package's pads in order, those that drive a global net, and those that are free for links
Package = collections.namedtuple("Package", "device name pads clocks free")


def natural(name):
    """What sorts the names of pads as readers do: A2 before A10, and A10 before B1."""
    return [(int(part), "") if part.isdigit() else (-1, part) for part in re.findall(r"\d+|\D+", name)]


def sections(device):
    """The first sections of a device's database by their first lines: lists of lines of words."""
    name = f"chipdb-{DATABASES[device]}.txt"
    files = [file for file in (pathlib.Path(folder) / name for folder in FOLDERS) if file.exists()]
    if not files:
        raise Refused(f"{name} isn't installed: apt install fpga-icestorm-chipdb")
    found = {}
    with open(files[0], encoding="latin-1") as lines:
        for words in map(str.split, lines):
            if words[:1] == [".io_tile"]:
                break
            if words and words[0].startswith("."):
                lists = found.setdefault(" ".join(words), [])
            elif words and found:
                lists.append(words)
    return found


def package_of(device, name):
    """A package of a device."""
    found = sections(device)
    names = [words.split()[1] for words in found if words.startswith(".pins ") and ":" not in words]
    if name not in names:
        raise Refused(f"{device} has no package {name}: it has {' '.join(names)}")
    places = {pad: tuple(map(int, place[:3])) for pad, *place in found[f".pins {name}"]}
    drivers = {tuple(map(int, words[:3])) for words in found[".gbufpin"]}
    pads = sorted(places, key=natural)
    free = [pad for pad in pads if places[pad] not in TAKEN[DATABASES[device]]]
    return Package(device, name, pads, [pad for pad in free if places[pad] in drivers], free)
