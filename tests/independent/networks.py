"""The wiring of both builds: networks as lists of wires, rows, sheets, views.

A wire is its number in its level. A layer is the list of its cells, a cell the
pair of wires on its inlets 0 and 1.
"""

from functools import lru_cache

WIDTHS = (1, 2, 4, 8, 16, 32, 64)
BITONIC = 1
PERIODIC = 2
NAMES = {BITONIC: "bitonic", PERIODIC: "periodic"}


class Drawing:
    """A network being drawn, layer by layer.

    Each part takes the level it begins at and its wires there, in order, and
    gives the level it ends at and its outputs there, in order. Cells stand in
    a layer in the order of drawing: side by side, the first part's come first.
    """

    def __init__(self):
        self.layers = []

    def cell(self, layer, inlet0, inlet1):
        """The next cell c of the layer; its outlets are wires 2c and 2c + 1."""
        while len(self.layers) <= layer:
            self.layers.append([])
        c = len(self.layers[layer])
        self.layers[layer].append((inlet0, inlet1))
        return [2 * c, 2 * c + 1]

    def last_layer(self, layer, first, second):
        """Output i of the first goes to inlet 0 of cell i, of the second to inlet 1."""
        outputs = []
        for one, other in zip(first, second):
            outputs += self.cell(layer, one, other)
        return layer + 1, outputs

    def bitonic(self, level, wires):
        """Two of half the width, on the lower and the upper half, then a merger."""
        if len(wires) == 1:
            return level, wires
        half = len(wires) // 2
        end, lower = self.bitonic(level, wires[:half])
        end, upper = self.bitonic(level, wires[half:])
        return self.merger(end, lower, upper)

    def merger(self, level, x, y):
        """Inputs x (lower half) and y (upper half, the paper's x')."""
        if len(x) == 1:
            return level + 1, self.cell(level, x[0], y[0])
        end, first = self.merger(level, evens(x), odds(y))
        end, second = self.merger(level, odds(x), evens(y))
        return self.last_layer(end, first, second)

    def block(self, level, wires):
        """A first block on two low bits 00 or 11, a second on 01 or 10."""
        if len(wires) == 2:
            return level + 1, self.cell(level, wires[0], wires[1])
        alike = [wire for i, wire in enumerate(wires) if i % 4 in (0b00, 0b11)]
        unlike = [wire for i, wire in enumerate(wires) if i % 4 in (0b01, 0b10)]
        end, first = self.block(level, alike)
        end, second = self.block(level, unlike)
        return self.last_layer(end, first, second)

    def periodic(self, level, wires):
        """k copies of the block of width 2^k, exit i into wire i of the next."""
        for _ in range(exponent(len(wires))):
            level, wires = self.block(level, wires)
        return level, wires


def evens(wires):
    """The wires at even places."""
    return wires[0::2]


def odds(wires):
    """The wires at odd places."""
    return wires[1::2]


def exponent(width):
    """The k of width = 2^k."""
    return WIDTHS.index(width)


@lru_cache(maxsize=None)
def depth(width, construction):
    """Bitonic k(k + 1)/2, periodic k * k."""
    k = exponent(width)
    return k * (k + 1) // 2 if construction == BITONIC else k * k


@lru_cache(maxsize=None)
def rows(width, construction):
    """The rows in layer order: byte v is 2c + s where wire v feeds inlet s of cell c."""
    drawing = Drawing()
    build = drawing.bitonic if construction == BITONIC else drawing.periodic
    build(0, list(range(width)))
    result = []
    for cells in drawing.layers:
        row = [0] * width
        for c, (inlet0, inlet1) in enumerate(cells):
            row[inlet0] = 2 * c
            row[inlet1] = 2 * c + 1
        result.append(bytes(row))
    return tuple(result)


def refused(width, construction):
    """1, 2: width not allowed, construction not 1 or 2; else 0."""
    if width not in WIDTHS:
        return 1
    if construction not in (BITONIC, PERIODIC):
        return 2
    return 0


def sheet(width, construction, lent):
    """Fill the lent bytes with the sheet; give the refusal and the bytes filled.

    Order 1, 2, 3. A longer buffer's further bytes stay as they were.
    """
    refusal = refused(width, construction)
    if refusal:
        return refusal, 0
    size = depth(width, construction) * width
    if len(lent) < size:
        return 3, 0
    lent[:size] = b"".join(rows(width, construction))
    return 0, size


def view(width, construction, layer, bitonic_sheet, periodic_sheet):
    """The refusal, and the very w bytes at layer * w of the sheet that the construction says.

    Order 1, 2, 10, 3, the last of the chosen sheet only. Empty on refusal.
    """
    refusal = refused(width, construction)
    if refusal:
        return refusal, b""
    if layer >= depth(width, construction):
        return 10, b""
    chosen = bitonic_sheet if construction == BITONIC else periodic_sheet
    if len(chosen) < depth(width, construction) * width:
        return 3, b""
    return 0, chosen[layer * width:(layer + 1) * width]
