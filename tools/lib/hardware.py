"""Emitted boards: their models, the clock that their latches get, and a bench in Verilog that holds each row."""
from lib.calls import Refused
from lib.texts import joined_lines


class Model:
    """A model of an emitted board: its name, its ports, and the words of the lines of its items."""

    def __init__(self, name, inputs=(), outputs=(), items=()):
        self.name, self.inputs, self.outputs, self.items = name, list(inputs), list(outputs), list(items)

    def text(self):
        """The model in BLIF."""
        head = [[".model", self.name], [".inputs", *self.inputs], [".outputs", *self.outputs]]
        return "".join(" ".join(words) + "\n" for words in [*head, *self.items, [".end"]])

    def clocked(self, unknown="0"):
        """The same model with a clock for its latches and for the models in it; latches that may start at any value
        start at `unknown`."""
        return Model(
            self.name, ["clk", *self.inputs], self.outputs, [clocked_item(words, unknown) for words in self.items]
        )


def clocked_item(words, unknown):
    """An item of an emitted board with the clock."""
    if words[0] == ".subckt":
        return [*words[:2], "clk=clk", *words[2:]]
    if words[0] != ".latch":
        return words
    if len(words) != 4:
        raise Refused(f"emitted board: no latch of an emitted board: {' '.join(words)}")
    return [*words[:3], "re", "clk", unknown if words[3] == "2" else words[3]]


def read_emitted(text):
    """The models of an emitted board by name: `board`, the host `node0`, and the chips."""
    models, model = {}, None
    for words in filter(None, joined_lines(text.splitlines())):
        if words[0] == ".model" and len(words) == 2:
            model = models[words[1]] = Model(words[1])
        elif model is None:
            raise Refused("emitted board: it doesn't begin with .model")
        elif words[0] in (".inputs", ".outputs"):
            (model.inputs if words[0] == ".inputs" else model.outputs).extend(words[1:])
        elif words[0] != ".end":
            model.items.append(words)
    if not {"board", "node0"} <= set(models):
        raise Refused("emitted board: it has no model board or no model node0")
    return models


def clocks_a_row(models):
    """How many clocks of an emitted board a row is held for: the period and one, as many as its sequencer counts."""
    first = next(iter(models["node0"].items), [])
    if first[:1] != [".latch"] or len(first) < 3 or first[2] != "t0" or not first[1][1:].isdigit():
        raise Refused("emitted board: its host doesn't begin with a sequencer")
    return int(first[1][1:]) + 1


def held_bench(placed, shown, width, rows, every):
    """A test bench of lines in Verilog that place a board on `clk`, `row` and wires.

    It gives it each row of rows.mem for `every` clocks, and prints what is shown before the last edge of these.
    """
    lines = [
        "module bench;",
        "reg clk = 0;",
        f"reg [{width - 1}:0] rows [0:{rows - 1}];",
        f"reg [{width - 1}:0] row;",
        "integer clock, micro;",
        *placed,
        "initial begin",
        '$readmemb("rows.mem", rows);',
        f"for (clock = 0; clock < {rows}; clock = clock + 1)",
        f"for (micro = 0; micro < {every}; micro = micro + 1) begin",
        "row = rows[clock]; #1;",
        f'if (micro == {every - 1}) $display("{"%b" * len(shown)}", {", ".join(shown)});',
        "clk = 1; #1; clk = 0; #1;",
        "end",
        "$finish;",
        "end",
        "endmodule",
    ]
    return "\n".join(lines) + "\n"


def joined(name, instance, ports):
    """A line in Verilog that places a module, with what each port is joined to."""
    return f"{name} {instance}({', '.join(f'.{port}({net})' for port, net in ports.items())});"


def ring(cells):
    """A ring of four chips with the host in it, of two pins each way, whose links take one to three microcycles."""
    nodes = 5
    lines = ["board 2", "chips 4", f"cells {-(-cells // 4) + 4}", "settle 1", "pins 8"]
    for node in range(nodes):
        after = (node + 1) % nodes
        lines.append(f"link {node} {after} 2 {1 + node % 3}")
        lines.append(f"link {after} {node} 2 1")
    return "\n".join(lines) + "\n"
