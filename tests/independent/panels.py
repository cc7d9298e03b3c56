"""Panels: what a design spells, drawn with pen and ruler.

A design is a tree of parts. Each part takes its wires in order, draws its cells
and gives its outputs in order; nothing is known of rows until the whole is
drawn. A panel is then its layers of cells, each cell the pair of wires on its
inlets, and the order in which the wires of the last level come out.
"""

from dataclasses import dataclass

from .networks import BITONIC, Drawing, depth


class Cell:
    """One cell."""

    width, depth = 2, 1

    def draw(self, drawing, level, wires):
        """The next cell of the layer."""
        return drawing.cell(level, *wires)


class Named:
    """The network of that width and construction."""

    def __init__(self, width, construction):
        self.width, self.construction = width, construction
        self.depth = depth(width, construction)

    def draw(self, drawing, level, wires):
        """The network as it is drawn alone; at width 1 it is a plain wire."""
        build = drawing.bitonic if self.construction == BITONIC else drawing.periodic
        return build(level, wires)[1]


class Cross:
    """Wires change places, and no cell is passed."""

    depth = 0

    def __init__(self, places):
        self.width, self.places = len(places), places

    def draw(self, _drawing, _level, wires):
        """Each wire comes out at its new place."""
        outputs = list(wires)
        for wire, place in zip(wires, self.places):
            outputs[place] = wire
        return outputs


class Series:
    """Members one after another, all of one width."""

    def __init__(self, members):
        self.members, self.width = members, members[0].width
        self.depth = sum(member.depth for member in members)

    def draw(self, drawing, level, wires):
        """What comes out of one goes into the next."""
        for member in self.members:
            wires = member.draw(drawing, level, wires)
            level += member.depth
        return wires


class Beside:
    """Members side by side, all of one depth."""

    def __init__(self, members):
        self.members, self.depth = members, members[0].depth
        self.width = sum(member.width for member in members)

    def draw(self, drawing, level, wires):
        """The first member has the lowest wires, and its cells come first."""
        outputs = []
        for member in self.members:
            mine, wires = wires[:member.width], wires[member.width:]
            outputs += member.draw(drawing, level, mine)
        return outputs


@dataclass
class Panel:
    """Layers of cells, and the wires of the last level in the order of their exits."""

    width: int
    layers: list
    exits: list


def panel_of(tree):
    """The panel that the tree spells."""
    drawing = Drawing()
    exits = tree.draw(drawing, 0, list(range(tree.width)))
    return Panel(tree.width, drawing.layers, exits)


def feed_rows(panel):
    """The rows: 2c + s where a wire feeds inlet s of cell c, and last of all each wire's exit."""
    rows = []
    for cells in panel.layers:
        row = [None] * panel.width
        for c, (inlet0, inlet1) in enumerate(cells):
            row[inlet0], row[inlet1] = 2 * c, 2 * c + 1
        rows.append(row)
    last = [None] * panel.width
    for place, wire in enumerate(panel.exits):
        last[wire] = place
    return rows + [last]


def feed_sheet(tree):
    """The feed sheet of the tree's panel, (depth + 1) * w bytes."""
    return b"".join(bytes(row) for row in feed_rows(panel_of(tree)))
