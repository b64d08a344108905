"""What the cells of the world hold, texts, values and fences aside."""
from dataclasses import dataclass

from values import PromiseName


@dataclass(frozen=True)
class Vat:
    """A vat's number is the event of its birth. Of its earlier vats and its script's names each is known by the program that
    it is asked; the second part tells which of them are variables."""
    number: int
    top_names: dict


@dataclass(frozen=True)
class Open:
    """What a vat's view holds of a promise that it does not know resolved."""


OPEN = Open()


@dataclass(frozen=True)
class Made:
    """An object: the expression that made it, and the names that it captured with what they stand for."""
    node: object
    captured: tuple


@dataclass(frozen=True)
class Resolver:
    promise: PromiseName


@dataclass(frozen=True)
class Published:
    """A value on the board, and the fences that travel with the references in it; an empty one is left out."""
    value: object
    fences: dict


@dataclass(frozen=True)
class Flying:
    vat: int


@dataclass(frozen=True)
class At:
    vat: int


@dataclass(frozen=True)
class Done:
    event: int


@dataclass(frozen=True)
class Opening:
    """A vat's script. The earlier vats are named with the promises of their opening messages' results."""
    items: tuple
    earlier: tuple


@dataclass(frozen=True)
class Asked:
    items: tuple


@dataclass(frozen=True)
class Sent:
    """A call for a target, with the fences that travel with the references in its arguments; an empty one is left out."""
    target: object
    verb: str
    arguments: tuple
    fences: dict


@dataclass(frozen=True)
class Waiting:
    """A `when`: the value as it was, not settled; the expression; the names that it captured with what they stand for."""
    value: object
    node: object
    captured: tuple


@dataclass(frozen=True)
class Message:
    """What is delivered, the promise of the result, the names of messages that it comes after, and its place."""
    content: object
    result: PromiseName
    after: frozenset
    place: object
