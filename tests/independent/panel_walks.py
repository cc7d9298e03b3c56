"""Walking through a design part by part, each cell with a toggle of its own.

Nothing here knows of layers, levels or rows of the whole: it is what a request
would go through in the panel as built. A run over the feed sheet must send the
same requests to the same exits.
"""

from .networks import rows
from .panels import Beside, Cell, Cross, Series


class Walk:
    """A panel as built; a cell is found by the way to it."""

    def __init__(self, tree):
        self.tree = tree
        self.down = set()

    def request(self, wire):
        """The exit of a request on the wire, after all before it are out."""
        return self.through(self.tree, wire, ())

    def cell(self, way):
        """The outlet, up first; the toggle flips."""
        outlet = 1 if way in self.down else 0
        self.down ^= {way}
        return outlet

    def through(self, part, wire, way):
        """The output of the part by which what came in on the wire leaves."""
        if isinstance(part, Cell):
            return self.cell(way)
        if isinstance(part, Cross):
            return part.places[wire]
        if isinstance(part, Series):
            for number, member in enumerate(part.members):
                wire = self.through(member, wire, (*way, number))
            return wire
        if isinstance(part, Beside):
            return self.through_one(part.members, wire, way)
        for layer, row in enumerate(rows(part.width, part.construction)):
            cell = row[wire] // 2
            wire = 2 * cell + self.cell((*way, layer, cell))
        return wire

    def through_one(self, members, wire, way):
        """The member that has the wire; its outputs stand behind those of the members before."""
        before = 0
        for number, member in enumerate(members):
            if wire < before + member.width:
                return before + self.through(member, wire - before, (*way, number))
            before += member.width
        raise ValueError(f"no member has wire {wire}")
