"""Texts into trees: tokens, line breaks, the grammar, and the forms that stand for others."""
import re
from dataclasses import dataclass
from typing import NamedTuple

RESERVED = frozenset("""def var method to return if else while for in escape try catch when true false null throw
Ref""".split())
# A longer sign stands before one that it begins with.
SIGNS = "<- -> := == != <= >= && || // ( ) [ ] { } , ; . < > ! + - *".split()
ENDS_AN_ITEM = frozenset("NAME INT TEXT true false null return ) ] }".split())
BEGINS_AN_ITEM = frozenset("""NAME INT TEXT true false null Ref throw def var if while for escape try when return ( [ !
-""".split())
BEGINS_AN_OPERATION = frozenset("""INT TEXT true false null NAME [ ( { if while for escape try throw def when Ref ! -
""".split())
# A token that is no text; a piece of a text up to its end or an escape; blanks and comments.
TOKEN = re.compile(rb"(?P<digits>[0-9]+)|(?P<word>[A-Za-z_][A-Za-z0-9_]*)|" + b"|".join(re.escape(it).encode() for it in SIGNS))
PLAIN = re.compile(rb'[^"\\]*')
BLANKS = re.compile(rb"(?:[ \t\r\n]+|#[^\n]*)*")
ESCAPED = {b'"': b'"', b"\\": b"\\", b"'": b"'", b"n": b"\n", b"t": b"\t", b"r": b"\r"}
COMPARISONS = {"<": "lessThan", "<=": "atMost", ">": "moreThan", ">=": "atLeast"}
SUMS = {"+": "add", "-": "subtract"}
PRODUCTS = {"*": "multiply", "//": "floorDivide"}
PREFIXES = {"!": "not", "-": "negate"}
BEHIND_REF = ("promise", "broken", "state")
MOST_BYTES, MOST_TOKENS, MOST_BRACKETS = 65_536, 16_384, 100


class Refusal(Exception):
    """What a reply says behind `no`."""


class Token(NamedTuple):
    kind: str
    offset: int
    value: object = None


@dataclass(frozen=True)
class Null:
    pass


@dataclass(frozen=True)
class Literal:
    """A truth value, an integer or a text."""
    value: object


@dataclass(frozen=True)
class Noun:
    name: str


@dataclass(frozen=True)
class Define:
    pattern: object
    right: object


@dataclass(frozen=True)
class DefineList:
    patterns: tuple
    right: object


@dataclass(frozen=True)
class Variable:
    name: str
    right: object


@dataclass(frozen=True)
class Assign:
    name: str
    right: object


@dataclass(frozen=True)
class Call:
    receiver: object
    verb: str
    arguments: tuple = ()


@dataclass(frozen=True)
class List:
    items: tuple


@dataclass(frozen=True)
class Same:
    left: object
    right: object


@dataclass(frozen=True)
class Hide:
    block: tuple


@dataclass(frozen=True)
class If:
    condition: object
    first: tuple
    second: tuple


@dataclass(frozen=True)
class While:
    condition: object
    block: tuple


@dataclass(frozen=True)
class For:
    pattern: object
    list: object
    block: tuple


@dataclass(frozen=True)
class Try:
    block: tuple
    pattern: object
    handler: tuple


@dataclass(frozen=True)
class Throw:
    problem: object


@dataclass(frozen=True)
class Escape:
    name: str
    block: tuple


@dataclass(frozen=True)
class Send:
    receiver: object
    verb: str
    arguments: tuple = ()


@dataclass(frozen=True)
class When:
    """Without a `catch` it has no handler."""
    value: object
    block: tuple
    pattern: object = None
    handler: object = None


@dataclass(frozen=True)
class NewPromise:
    pass


@dataclass(frozen=True)
class BreakRef:
    problem: object


@dataclass(frozen=True)
class StateRef:
    value: object


@dataclass(frozen=True)
class Method:
    verb: str
    parameters: tuple
    block: tuple


@dataclass(frozen=True)
class Object:
    pattern: object
    methods: tuple


def returning(block):
    """The block of a method that may return."""
    return (Escape("__return", (*block, Null())),)


def text_token(text, start):
    """The text between quotation marks that begins here, and where it ends."""
    written, at = bytearray(), start + 1
    while True:
        plain = PLAIN.match(text, at)
        written += plain[0]
        at = plain.end()
        if text[at:at + 1] == b'"':
            return Token("TEXT", start, written.decode()), at + 1
        escaped = text[at + 1:at + 2]
        if not escaped:
            raise Refusal(f"L2 UnclosedText {start}")
        if escaped not in ESCAPED:
            raise Refusal(f"L3 BadEscape {at}")
        written += ESCAPED[escaped]
        at += 2


def integer(digits, start):
    shortest = digits.lstrip(b"0") or b"0"
    if len(shortest) > 19 or int(shortest) >= 2 ** 63:
        raise Refusal(f"L4 IntegerTooLarge {start}")
    return Token("INT", start, int(shortest))


def word_token(word, start):
    return Token(word, start) if word == "_" or word in RESERVED else Token("NAME", start, word)


def token_at(text, start):
    """The longest token that begins here, and where it ends."""
    if text.startswith(b'"', start):
        return text_token(text, start)
    found = TOKEN.match(text, start)
    if not found:
        raise Refusal(f"L1 BadCharacter {start}")
    match found.lastgroup:
        case "digits":
            return integer(found[0], start), found.end()
        case "word":
            return word_token(found[0].decode(), start), found.end()
    return Token(found[0].decode(), start), found.end()


def blanks(text, at):
    """Where the blanks and comments end that begin here, and whether a line ends in them."""
    found = BLANKS.match(text, at)
    return found.end(), b"\n" in found[0]


def tokens(text):
    """The tokens of a text, with the semicolons of its line breaks."""
    if len(text) > MOST_BYTES:
        raise Refusal("L8 TooLong")
    found, opened, most, at = [], [], 0, 0
    while True:
        at, is_broken = blanks(text, at)
        if at == len(text):
            break
        token, at = token_at(text, at)
        breaks = is_broken and found and opened[-1:] in ([], ["{"]) and found[-1].kind in ENDS_AN_ITEM
        if breaks and token.kind in BEGINS_AN_ITEM:
            found.append(Token(";", token.offset))
        found.append(token)
        if len(found) > MOST_TOKENS:
            raise Refusal("L8 TooLong")
        if token.kind in ("(", "[", "{"):
            opened.append(token.kind)
            most = max(most, len(opened))
        elif token.kind in (")", "]", "}") and opened:
            opened.pop()
    if most > MOST_BRACKETS:
        raise Refusal("L6 TooDeep")
    return found


class Reader:
    """Reads by recursive descent, with one token of look-ahead. A pattern is a name, or None for `_`."""

    def __init__(self, text):
        self.tokens = [*tokens(text), Token("END", len(text))]
        self.at = 0

    @property
    def kind(self):
        return self.tokens[self.at].kind

    def unexpected(self):
        raise Refusal(f"L5 Unexpected {self.tokens[self.at].offset}")

    def take(self, *kinds):
        if self.kind not in kinds:
            self.unexpected()
        self.at += 1
        return self.tokens[self.at - 1]

    def skip(self, kind):
        """Whether such a token was there, and was taken."""
        if self.kind == kind:
            self.at += 1
            return True
        return False

    def name(self):
        return self.take("NAME").value

    def pattern(self):
        return None if self.skip("_") else self.name()

    def parts(self, close, part):
        """Parts with commas between, and the bracket behind them."""
        found = []
        if self.kind != close:
            found.append(part())
            while self.skip(","):
                found.append(part())
        self.take(close)
        return tuple(found)

    def parameters(self):
        self.take("(")
        return self.parts(")", self.pattern)

    def items(self, close):
        found = []
        while self.skip(";"):
            pass
        while self.kind != close:
            found.append(self.item())
            if self.kind != close:
                self.take(";")
            while self.skip(";"):
                pass
        return tuple(found)

    def block(self):
        self.take("{")
        items = self.items("}")
        self.take("}")
        return items

    def item(self):
        if self.kind == "def":
            return self.definition()
        if self.skip("var"):
            name = self.name()
            self.take(":=")
            return Variable(name, self.operation())
        if self.kind == "NAME" and self.tokens[self.at + 1].kind == ":=":
            name = self.name()
            self.take(":=")
            return Assign(name, self.operation())
        if self.skip("return"):
            value = self.operation() if self.kind in BEGINS_AN_OPERATION else Null()
            return Call(Noun("__return"), "run", (value,))
        return self.operation()

    def definition(self):
        begin = self.at
        self.take("def")
        if self.skip("["):
            patterns = self.parts("]", self.pattern)
            self.take(":=")
            return DefineList(patterns, self.operation())
        pattern = self.pattern()
        if self.skip(":="):
            return Define(pattern, self.operation())
        self.at = begin
        return self.operation()

    def operation(self):
        left = self.conjunction()
        while self.skip("||"):
            left = If(left, (Literal(True),), (self.conjunction(),))
        return left

    def conjunction(self):
        left = self.comparison()
        while self.skip("&&"):
            left = If(left, (self.comparison(),), (Literal(False),))
        return left

    def comparison(self):
        left = self.sum()
        sign = self.kind
        if sign not in ("==", "!=", *COMPARISONS):
            return left
        self.take(sign)
        right = self.sum()
        if sign == "==":
            return Same(left, right)
        return Call(Same(left, right), "not") if sign == "!=" else Call(left, COMPARISONS[sign], (right,))

    def sum(self):
        return self.joined(SUMS, lambda: self.joined(PRODUCTS, self.unary))

    def joined(self, verbs, operand):
        left = operand()
        while self.kind in verbs:
            verb = verbs[self.take(self.kind).kind]
            left = Call(left, verb, (operand(),))
        return left

    def unary(self):
        if self.kind in PREFIXES:
            verb = PREFIXES[self.take(self.kind).kind]
            return Call(self.postfix(), verb)
        return self.postfix()

    def postfix(self):
        made = self.primary()
        while True:
            if self.skip("."):
                verb = self.name()
                self.take("(")
                made = Call(made, verb, self.parts(")", self.operation))
            elif self.skip("("):
                made = Call(made, "run", self.parts(")", self.operation))
            elif self.skip("["):
                made = Call(made, "get", self.parts("]", self.operation))
            elif self.skip("<-"):
                verb = "run" if self.kind == "(" else self.name()
                self.take("(")
                made = Send(made, verb, self.parts(")", self.operation))
            else:
                return made

    def condition(self):
        self.take("(")
        made = self.operation()
        self.take(")")
        return made

    def choice(self):
        self.take("if")
        condition, first = self.condition(), self.block()
        if not self.skip("else"):
            return If(condition, first, ())
        return If(condition, first, (self.choice(),) if self.kind == "if" else self.block())

    def primary(self):
        if self.kind in ("INT", "TEXT"):
            return Literal(self.take("INT", "TEXT").value)
        if self.kind in ("true", "false"):
            return Literal(self.take("true", "false").kind == "true")
        if self.kind == "NAME":
            return Noun(self.name())
        if self.kind == "if":
            return self.choice()
        if self.kind == "{":
            return Hide(self.block())
        begin = self.take("null", "[", "(", "while", "for", "escape", "try", "throw", "def", "when", "Ref").kind
        if begin == "null":
            return Null()
        if begin == "[":
            return List(self.parts("]", self.operation))
        if begin == "(":
            made = self.item()
            self.take(")")
            return made
        if begin == "while":
            return While(self.condition(), self.block())
        if begin == "for":
            pattern = self.pattern()
            self.take("in")
            return For(pattern, self.operation(), self.block())
        if begin == "escape":
            return Escape(self.name(), self.block())
        if begin == "try":
            block = self.block()
            self.take("catch")
            return Try(block, self.pattern(), self.block())
        if begin == "when":
            value = self.condition()
            self.take("->")
            block = self.block()
            return When(value, block, self.pattern(), self.block()) if self.skip("catch") else When(value, block)
        if begin == "Ref":
            return self.reference()
        if begin == "throw":
            return Throw(self.condition())
        return self.object()

    def reference(self):
        self.take(".")
        if self.tokens[self.at].value not in BEHIND_REF:
            self.unexpected()
        word = self.name()
        if word == "promise":
            self.take("(")
            self.take(")")
            return NewPromise()
        return BreakRef(self.condition()) if word == "broken" else StateRef(self.condition())

    def object(self):
        pattern = self.pattern()
        if self.kind == "(":
            return Object(pattern, (Method("run", self.parameters(), returning(self.block())),))
        self.take("{")
        methods = []
        while not self.skip("}"):
            may_return = self.take("to", "method").kind == "to"
            verb, parameters, block = self.name(), self.parameters(), self.block()
            methods.append(Method(verb, parameters, returning(block) if may_return else block))
        return Object(pattern, tuple(methods))


def read(text):
    """The items of the program that a text, as bytes, spells."""
    return Reader(text).items("END")
