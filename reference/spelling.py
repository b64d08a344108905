"""The canonical spelling of trees: one way to write each."""
from reading import (Assign, BreakRef, Call, Define, DefineList, Escape, For, Hide, If, List, Literal, NewPromise, Noun,
                     Null, Object, Same, Send, StateRef, Throw, Try, Variable, When, While)
from values import shown

STANDS_ALONE = (Define, DefineList, Variable, Assign)
BARE_RECEIVERS = (Noun, Null, Literal, List, Call, Send, Same)


def program(items):
    return "; ".join(map(spelled, items))


def block(items):
    return f"{{ {program(items)} }}" if items else "{ }"


def bound(pattern):
    return pattern or "_"


def part(node):
    """Only as an item of a block does a definition, a variable or an assignment stand without brackets."""
    return f"({spelled(node)})" if isinstance(node, STANDS_ALONE) else spelled(node)


def receiver(node):
    return spelled(node) if isinstance(node, BARE_RECEIVERS) else f"({spelled(node)})"


def message(verb, arguments):
    return f"{verb}({', '.join(arguments)})"


def method(made):
    return f"method {message(made.verb, map(bound, made.parameters))} {block(made.block)}"


def caught(pattern, handler):
    return f" catch {bound(pattern)} {block(handler)}"


def methods(found):
    return f"{{ {' '.join(map(method, found))} }}" if found else "{ }"


def spelled(node):
    """A tree as it stands as an item of a block."""
    match node:
        case Null():
            return "null"
        case Literal(value):
            return shown(value)
        case Noun(name):
            return name
        case Define(pattern, right):
            return f"def {bound(pattern)} := {part(right)}"
        case DefineList(patterns, right):
            return f"def [{', '.join(map(bound, patterns))}] := {part(right)}"
        case Variable(name, right):
            return f"var {name} := {part(right)}"
        case Assign(name, right):
            return f"{name} := {part(right)}"
        case Call(of, verb, arguments):
            return f"{receiver(of)}.{message(verb, map(part, arguments))}"
        case Send(of, verb, arguments):
            return f"{receiver(of)} <- {message(verb, map(part, arguments))}"
        case List(items):
            return f"[{', '.join(map(part, items))}]"
        case Same(left, right):
            return f"({part(left)} == {part(right)})"
        case Object(pattern, found):
            return f"def {bound(pattern)} {methods(found)}"
        case Throw(problem):
            return f"throw({part(problem)})"
        case NewPromise():
            return "Ref.promise()"
        case BreakRef(problem):
            return f"Ref.broken({part(problem)})"
        case StateRef(value):
            return f"Ref.state({part(value)})"
    return with_blocks(node)


def with_blocks(node):
    """What has a block of its own, methods aside."""
    match node:
        case Hide(items):
            return block(items)
        case If(condition, first, second):
            return f"if ({part(condition)}) {block(first)} else {block(second)}"
        case While(condition, items):
            return f"while ({part(condition)}) {block(items)}"
        case For(pattern, items, body):
            return f"for {bound(pattern)} in {part(items)} {block(body)}"
        case Try(items, pattern, handler):
            return f"try {block(items)}{caught(pattern, handler)}"
        case Escape(name, items):
            return f"escape {name} {block(items)}"
        case When(value, items, pattern, handler):
            return f"when ({part(value)}) -> {block(items)}" + ("" if handler is None else caught(pattern, handler))
    raise TypeError(node)
