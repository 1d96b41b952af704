"""Texts that vwires reads and writes: lines of designs, stimuli, netlists, boards, plans and traces."""
import collections
import itertools
import re

from lib.calls import Refused

Board = collections.namedtuple("Board", "chips cells settle pins links")
Link = collections.namedtuple("Link", "start end pins delay")
Plan = collections.namedtuple("Plan", "period chips wires")
Wire = collections.namedtuple("Wire", "net node hops")
Hop = collections.namedtuple("Hop", "start end pin microcycle")
# a cell is a kind, a net, and the nets that it reads
Cell = collections.namedtuple("Cell", "kind net reads")
# names are those of all nets; outputs are pairs of a net and a name
Nets = collections.namedtuple("Nets", "columns cells outputs names")


def words_in(line):
    """The words of a line, between blanks as vwires has them."""
    return re.findall(r"[^\t\n\v\f\r ]+", line)


def number_in(word, reason):
    """The number that a word is."""
    if not re.fullmatch("[0-9]+", word):
        raise Refused(reason)
    return int(word)


def joined_lines(lines):
    """The words of each line of a design, without comments; a line that ends in a backslash goes on in the next one."""
    joined = ""
    for line in lines:
        joined += line.partition("#")[0].rstrip("\t\n\v\f\r ")
        if joined.endswith("\\"):
            joined = joined[:-1]
            continue
        yield words_in(joined)
        joined = ""
    yield words_in(joined)


def read_rows(lines, width):
    """The row of each clock of a stimulus."""
    row = "0" * width
    for number, line in enumerate(lines, 1):
        words = words_in(line.partition("#")[0])
        if len(words) == 2 and words[0] == "hold":
            yield from itertools.repeat(row, number_in(words[1], f"stimulus: line {number}: bad hold"))
        elif len(words) == 1 and re.fullmatch("[01]+|-", words[0]):
            row = words[0].replace("-", "")
            if len(row) != width:
                raise Refused(f"stimulus: line {number}: found {len(row)} bits, wanted {width}")
            yield row
        elif words:
            raise Refused(f"stimulus: line {number}: neither a row nor a hold")


def read_nets(text):
    """What `vwires nets` writes."""
    nets = Nets([], [], [], {})
    for kind, *words in map(str.split, text.splitlines()[1:-1]):
        net = int(words[0])
        if kind == "output":
            nets.outputs.append((net, words[1]))
            continue
        nets.names[net] = words[1]
        if kind == "column":
            nets.columns.append(words[1])
        else:
            nets.cells.append(Cell(kind, net, [int(word) for word in words[2:]]))
    return nets


def read_board(text):
    """A board, from a text that vwires has accepted."""
    lines = [words for words in joined_lines(text.splitlines()) if words]
    chips, cells, settle, pins = (int(words[1]) for words in lines[1:5])
    links = [Link(*map(int, [*words[1:], "1"][:4])) for words in lines[5:]]
    return Board(chips, cells, settle, pins, links)


def read_plan(text):
    """A plan, from a text that vwires has accepted."""
    lines = text.splitlines()
    plan = Plan(int(lines[0].split()[4]), [int(word) for word in lines[1].split()[1:]], [])
    for kind, *numbers in map(str.split, lines[2:-1]):
        numbers = [int(number) for number in numbers]
        if kind == "wire":
            plan.wires.append(Wire(numbers[0], numbers[1], []))
        else:
            plan.wires[-1].hops.append(Hop(*numbers))
    return plan


def traced(text):
    """The outputs of each clock, and the latch values, of a trace."""
    lines = [line.split() for line in text.splitlines()[1:-1]]
    return [(outputs.replace("-", ""), latches.replace("-", "")) for _, outputs, latches in lines]


def different(one, other):
    """At how many places two lists differ; those past the end of one of them count."""
    return sum(left != right for left, right in zip(one, other)) + abs(len(one) - len(other))
