"""What `show` says is there: vats, names, objects, messages and promises."""
import re
from dataclasses import dataclass, field

VAT = re.compile(r"vat (\S+) (e\d+)")
NOUN = re.compile(r" noun (\S+) = .*", re.DOTALL)
VARIABLE = re.compile(r" noun (\S+) = slot (e\d+\.s\d+)")
OBJECT = re.compile(r" object (e\d+\.o\d+) .*", re.DOTALL)
OPEN = re.compile(r" view (e\d+\.p\d+) open")
MESSAGE = re.compile(r"msg (e\d+\.m\d+) (flying|at|done) (\S+)")
BOARD = re.compile(r"board (e\d+\.p\d+) = (.*)", re.DOTALL)


@dataclass
class World:
    """The vats with their births, the top nouns and the objects of each, the variables that top nouns stand for, with noun and
    vat, where the messages are, what promises were published as, and which promises are open in a vat."""

    vats: dict = field(default_factory=dict)
    nouns: dict = field(default_factory=dict)
    objects: dict = field(default_factory=dict)
    variables: dict = field(default_factory=dict)
    messages: dict = field(default_factory=dict)
    promises: dict = field(default_factory=dict)
    open: dict = field(default_factory=dict)


def read_world(lines):
    """The world that the lines of `show` tell."""
    world, vat = World(), None
    for line in lines:
        if found := VAT.fullmatch(line):
            vat = found[1]
            world.vats[vat], world.nouns[vat], world.objects[vat], world.open[vat] = found[2], [], [], []
        elif found := MESSAGE.fullmatch(line):
            world.messages[found[1]] = (found[2], found[3])
        elif found := BOARD.fullmatch(line):
            world.promises[found[1]] = found[2]
        else:
            if vat and (found := VARIABLE.fullmatch(line)):
                world.variables[found[2]] = (found[1], vat)
            for kind, held in ((NOUN, world.nouns), (OBJECT, world.objects), (OPEN, world.open)):
                if vat and (found := kind.fullmatch(line)):
                    held[vat].append(found[1])
    return world
