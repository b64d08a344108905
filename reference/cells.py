"""Cells of the world. A cell is named by its kind, the vat that it belongs to, if it belongs to one, and its own name.

    ("name", TEXT)               contents.Vat
    ("message", MESSAGE)         contents.Message
    ("board", PROMISE)           contents.Published
    ("top", VAT, TEXT)           what a top noun of a vat stands for: a value, or a variable's slot
    ("slot", VAT, SLOT)          the value of a variable
    ("object", VAT, OBJECT)      contents.Made or contents.Resolver
    ("view", VAT, PROMISE)       contents.OPEN, or the value that the vat knows the promise resolved to
    ("fence", VAT, REFERENCE)    a set of names of messages; where the cell is absent the set is empty
"""
from dataclasses import dataclass, field


class World(dict):
    """Cells with their contents. Those that are named alike up to their own names also stand together, since all of them are
    looked through again and again."""

    def __init__(self):
        super().__init__()
        self.alike = {}

    def enter(self, written):
        """Enters what an event wrote."""
        self.update(written)
        for cell, content in written.items():
            self.alike.setdefault(cell[:-1], {})[cell[-1]] = content


@dataclass
class Cells:
    """The world that an event finds, the cells that it touches, and what it writes. It touches what it finds absent too,
    and what it writes. A write of equal content is a write."""
    world: dict
    touched: set = field(default_factory=set)
    written: dict = field(default_factory=dict)

    def read(self, cell, absent=None):
        self.touched.add(cell)
        return self.written.get(cell, self.world.get(cell, absent))

    def write(self, cell, content):
        self.touched.add(cell)
        self.written[cell] = content


@dataclass
class Home:
    """The cells of one vat among all cells."""
    cells: Cells
    vat: int

    def read(self, kind, name, absent=None):
        return self.cells.read((kind, self.vat, name), absent)

    def write(self, kind, name, content):
        self.cells.write((kind, self.vat, name), content)


def listed(world, *beginning):
    """The cells that are named so up to their own names, as pairs of this name and the content, in the order of names."""
    return sorted(world.alike.get(beginning, {}).items(), key=lambda it: it[0])
