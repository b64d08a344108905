"""Names and values: how they are written, how large a value may be, when two are the same, and the verbs of data.

A value is null (None), a truth value, an integer, a text, a list (a tuple), a reference (an object, an ejector or a promise)
or broken."""
import operator
from dataclasses import dataclass, field

MOST_WEIGHT, MOST_LISTS = 65_536, 64
INTEGER_VERBS = {"add": operator.add, "subtract": operator.sub, "multiply": operator.mul, "floorDivide": operator.floordiv,
                 "lessThan": operator.lt, "atMost": operator.le, "moreThan": operator.gt, "atLeast": operator.ge}
SHOWN_ESCAPES = str.maketrans({'"': '\\"', "\\": "\\\\", "\n": "\\n", "\t": "\\t", "\r": "\\r"})


class Thrown(Exception):
    """A problem."""


@dataclass(frozen=True, order=True)
class Name:
    """What an event made, counted from 0 among what it made of this kind."""
    event: int
    index: int

    letter = ""

    def __str__(self):
        return f"e{self.event}.{self.letter}{self.index}"


@dataclass(frozen=True, order=True)
class MessageName(Name):
    letter = "m"


@dataclass(frozen=True, order=True)
class SlotName(Name):
    letter = "s"


@dataclass(frozen=True, order=True)
class Reference(Name):
    """An object, an ejector or a promise, with the vat that an object or an ejector belongs to, or that is a promise's
    home. Event and index alone tell it from others of its kind."""
    vat: int = field(compare=False)


@dataclass(frozen=True, order=True)
class PromiseName(Reference):
    letter = "p"


@dataclass(frozen=True, order=True)
class ObjectName(Reference):
    letter = "o"


@dataclass(frozen=True, order=True)
class EjectorName(Reference):
    letter = "j"


@dataclass(frozen=True)
class Broken:
    problem: str


def quoted(text):
    return f'"{text.translate(SHOWN_ESCAPES)}"'


def shown(value):
    if value is None or isinstance(value, bool):
        return {None: "null", True: "true", False: "false"}[value]
    if isinstance(value, str):
        return quoted(value)
    if isinstance(value, tuple):
        return f"[{', '.join(map(shown, value))}]"
    if isinstance(value, Broken):
        return f"<broken {quoted(value.problem)}>"
    return f"<{value}>" if isinstance(value, Reference) else str(value)


def references_in(value):
    """The references in a value, at any depth of lists, from the left."""
    if isinstance(value, Reference):
        yield value
    if isinstance(value, tuple):
        for item in value:
            yield from references_in(item)


def promises_in(value):
    return (it for it in references_in(value) if isinstance(it, PromiseName))


def own_weight(value):
    """What a value weighs without the items that it has as a list."""
    if isinstance(value, Broken):
        return 1 + len(value.problem.encode())
    return 1 + len(value.encode()) if isinstance(value, str) else 1


def weight(value):
    return own_weight(value) + (sum(map(weight, value)) if isinstance(value, tuple) else 0)


def list_depth(value):
    return 1 + max(map(list_depth, value), default=0) if isinstance(value, tuple) else 0


def limited(value):
    if weight(value) > MOST_WEIGHT or list_depth(value) > MOST_LISTS:
        raise Thrown("value too large")
    return value


def same(one, other):
    """Whether two settled values without promises are the same."""
    if type(one) is not type(other):
        return False
    if isinstance(one, tuple):
        return len(one) == len(other) and all(map(same, one, other))
    return one == other


def wanted(value, kind, problem):
    if type(value) is not kind:
        raise Thrown(problem)
    return value


def in_range(result):
    if type(result) is int and not -2 ** 63 <= result < 2 ** 63:
        raise Thrown("integer too large")
    return result


def integer_call(left, verb, right):
    if verb == "floorDivide" and right == 0:
        raise Thrown("division by zero")
    return in_range(INTEGER_VERBS[verb](left, right))


def item_at(items, index):
    if not 0 <= index < len(items):
        raise Thrown("index out of range")
    return items[index]


def data_call(receiver, verb, arguments, datum):
    """What a verb of data gives. `datum` gives an argument as a datum of the kind that is wanted, or throws: so what no verb
    was found for, and what `with` adds to a list, is looked at no further."""
    match receiver, verb, arguments:
        case bool(), "not", ():
            return not receiver
        case bool(), _, _:
            pass
        case int(), "negate", ():
            return in_range(-receiver)
        case int(), _, (argument,) if verb in INTEGER_VERBS:
            return integer_call(receiver, verb, datum(argument, int, "bad argument"))
        case str() | tuple(), "size", ():
            return len(receiver)
        case str() | tuple(), "add", (argument,):
            return limited(receiver + datum(argument, type(receiver), "bad argument"))
        case tuple(), "with", (argument,):
            return limited((*receiver, argument))
        case tuple(), "get", (argument,):
            return item_at(receiver, datum(argument, int, "bad argument"))
    raise no_method(verb, arguments)


def no_method(verb, arguments):
    return Thrown(f"no method {verb}/{len(arguments)}")
