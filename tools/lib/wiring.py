"""The wiring of a board of real chips: which pad of which chip is joined to which, by the nets of the emitted board.

A line of its text is `NET FROM PAD TO PAD`. NET is pA_B for pin B of the link with number A, or clk for the clock of a
chip; FROM and TO are host, or chip1 and so on; the pad of the host is any word. `#` begins a comment.
"""
import collections
import re

from lib.calls import Refused, read_text
from lib.texts import words_in

Join = collections.namedtuple("Join", "net start start_pad end end_pad")
HEAD = """\
# Pads of {package} packages ({device}) and what joins them: NET FROM PAD TO PAD.
# p3_0 is pin 0 of the link with number 3 in the board's text; clk is the common clock. A dash is a pad of the host.
"""


def node_name(node):
    """A node as a text of wiring has it."""
    return f"chip{node}" if node else "host"


def nets_of(board):
    """Each net that a board joins, with the nodes at its ends: clocks first, and then the pins of the links."""
    clocks = [("clk", 0, chip) for chip in range(1, board.chips + 1)]
    links = enumerate(board.links)
    return clocks + [(f"p{number}_{pin}", link.start, link.end) for number, link in links for pin in range(link.pins)]


def assigned(board, package):
    """A wiring for all pins of a board's links, with the pads of the package in order."""
    free = {}
    for chip in range(1, board.chips + 1):
        wanted = sum(chip in ends for _, *ends in nets_of(board))
        if wanted > len(package.free):
            room = f"{package.device} {package.name} has {len(package.free)} that are free"
            raise Refused(f"chip{chip}: {wanted} pins with the clock, and {room}")
        free[chip] = [pad for pad in package.free if pad not in package.clocks[:1]]
    joins = []
    for net, start, end in nets_of(board):
        pads = [package.clocks[0] if net == "clk" else free[node].pop(0) if node else "-" for node in (start, end)]
        joins.append(Join(net, start, "-" if net == "clk" else pads[0], end, pads[1]))
    return joins


def wiring_text(joins, package):
    """The text of a wiring, in columns."""
    rows = [(net, node_name(start), one, node_name(end), other) for net, start, one, end, other in joins]
    lines = [f"{net:<7} {start:<6} {one:<4} {end:<6} {other}".rstrip() for net, start, one, end, other in rows]
    return HEAD.format(package=package.name, device=package.device) + "\n".join(lines) + "\n"


def read_wiring(name, board, package):
    """The wiring that a file has, whose nets have to be those of the board, and its pads those of the package."""
    ends, joins, taken = {(net, end): start for net, start, end in nets_of(board)}, [], {}
    for number, line in enumerate(read_text(name).splitlines(), 1):
        words = words_in(line.partition("#")[0])
        if not words:
            continue
        where = f"{name}: line {number}:"
        if len(words) != 5 or not all(re.fullmatch("host|chip[1-9][0-9]*", words[place]) for place in (1, 3)):
            raise Refused(f"{where} wanted NET FROM PAD TO PAD")
        start, end = (int(words[place][4:]) if words[place] != "host" else 0 for place in (1, 3))
        join = Join(words[0], start, words[2], end, words[4])
        if ends.get((join.net, end), "none") != start:
            raise Refused(f"{where} the board has no {join.net} from {words[1]} to {words[3]}")
        check_pads(where, join, package, taken)
        joins.append(join)
    return joins


def check_pads(where, join, package, taken):
    """Refuses pads that the package doesn't have, or that another net has; notes those of this one."""
    for node, pad in ((join.start, join.start_pad), (join.end, join.end_pad)):
        if node == 0:
            continue
        if pad not in package.pads:
            raise Refused(f"{where} {package.name} has no pad {pad}")
        if join.net == "clk" and pad not in package.clocks:
            raise Refused(f"{where} {pad} is no pad for a clock: {' '.join(package.clocks)} are")
        if (node, pad) in taken:
            raise Refused(f"{where} {taken[node, pad]} has pad {pad} of {node_name(node)}")
        taken[node, pad] = join.net


def pads_of(joins, chip):
    """The pad of each net at a chip."""
    pads = {join.net: join.start_pad for join in joins if join.start == chip}
    return {**pads, **{join.net: join.end_pad for join in joins if join.end == chip}}
