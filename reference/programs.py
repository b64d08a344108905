"""Random programs: most can be read and checked, and some are spoilt."""
import re

NAMES = [*"abcdxyfgo"]
OBJECT_VERBS = ["run", "add", "get", "with", "size", "not", "negate", "m", "up"]
VERBS = [*OBJECT_VERBS, "subtract", "multiply", "floorDivide", "lessThan", "atMost", "moreThan", "atLeast"]
LEAVES = ["0", "1", "2", "3", "7", "10", "9223372036854775807", "true", "false", "null", '"a"', '""', '"é\\n"', '"x\\"y"',
          "[]"]
WORDS = """def var method to return if else while for in escape try catch when true Ref throw ( ) [ ] { } , ; . <- -> := ==
< + - ! _ x 1 "t" & ? é / 99999999999999999999 " \\""".split() + ["\n", "#c\n"]
TOKEN = re.compile(r'"(?:[^"\\]|\\.)*"|\w+|<-|->|:=|==|!=|<=|>=|&&|\|\||//|\s+|.', re.S)
# What random programs seldom come to. E stands for an expression.
IDIOMS = [
    "var j := null; escape k { j := k; E }; j(E)",
    "escape out { try { out(E) } catch p { 7 } }",
    "escape p { escape q { p(E); q(E) }; E }",
    "(escape k { k }) == (escape k { k })",
    'var t := "ab"; while (true) { t := t + t }',
    "var l := [E]; while (true) { l := l + l }",
    "var l := []; while (true) { l := [l, l] }",
    "def r(x) { r(E) }; r(1)",
    "def r(x) { if (x < 1) { return 0 }; return x + r(x - 1) }; r(E)",
    "while (true) { def _ { } }",
    "while (true) { var z := 1 }",
    "def p { method a(x) { x } to a() { return p.a(E) } method b(x, y) { x + y } }; [p.a(), p.b(E, E), p == p]",
    "var n := E; def h() { n := n + 1; return n }; [h(), h(), n]",
    "def h(v) { return def _ { to get() { v } method set(q) { q } } }; h(E).get()",
    "var i := 0; while (i < 5) { var z := i; i := i + 1; def w { method run() { z } }; w() }",
    "var u := 3; u := (var v := u + 1); [u, v]",
    "var u := 0; while ((def k := u) < 3) { u := k + 1 }; u",
    "for q in [E, E] { if (q == 1) { throw(E) } }",
    "[1, [true, E]] == [1, [true, E]]",
    "def [_, _] := [E, E]",
]
IDIOMS_OF_REFERENCES = [
    "def [q, r] := Ref.promise(); r.resolve(E); q <- run(E)",
    "def [q, r] := Ref.promise(); q <- run(E); r.resolve(def _ { method run(x) { x } })",
    "def [q, r] := Ref.promise(); r.resolve([q, E]); [Ref.state(q), E]",
    "def [q, r] := Ref.promise(); r.resolve([q]); q == E",
    'def [q, r] := Ref.promise(); r.smash("lost"); try { q + E } catch p { p }',
    'Ref.broken("lost") + E',
    "when (E) -> { E } catch p { [p, E] }",
    "when (E <- size()) -> { E }",
    "Ref.state(E <- run(E))",
    "([E, E] <- get(E)) <- add(E)",
    "def [q, r] := Ref.promise(); r.resolve(E); r.resolve(E)",
    "var u := 0; while (u < 5) { u := u + 1; E <- run(u) }",
]

# A script of variables, data and objects, and what asked programs do with them.
SHARED = [
    "var a := E",
    "var b := E",
    "def c := a",
    "def f() { a := a + 1; return a }",
    "def g { method m() { b } method up(x) { b := x; a } method get(v) { v() } }",
    "var x := f",
    "def y() { return def _ { to get() { x } method up(v) { x := v } } }",
    "var d := y()",
]
USES = [
    "a",
    "b",
    "c",
    "d",
    "a := E",
    "b := a + 1",
    "[a, b] == [c, E]",
    "if (a < b) { x } else { d }",
    "f()",
    "f() + f()",
    "g.m()",
    "g.up(E)",
    "g.get(f)",
    "g.add()",
    "x()",
    "x.get(E)",
    "x := f",
    "x := def _ { method run() { a } }",
    "d := y()",
    "d.get()",
    "d.up(E)",
    "d.up(f); d.get()()",
    "a := x",
    "b := a",
    "a.none()",
    "b.none()",
    "g.up(a)",
    "g.get(b)",
    "def k() { b }; k",
    "def k { to m() { f } to up() { c } }",
    "x := (def k() { b := 3; b })",
    "var n := a; x := (def k() { n := n + 1; return n })",
    "var a := b; a := a + 1; a",
    "try { a := E; throw(b) } catch p { p }",
    "b := E; throw(c)",
    "while (true) { a := a + 1 }",
    "g.up(f()); while (true) { def _ { } }",
    "escape j { x := j; f() }",
]


def filled(text, write):
    """A text with something written for each E."""
    return re.sub(r"\bE\b", lambda _: write(), text)


def shared_script(random):
    """The script that is shared, as a rule whole, or with a throw somewhere in it."""
    items = [filled(item, Program(random).leaf) for item in SHARED]
    if random.random() < 0.2:
        items.insert(random.randrange(len(items)), 'throw("t")')
    return "\n".join(items)


class Program:
    """Writes a program in which these names stand in the scope around it: names with whether they are variables. With
    references it has sends, whens and the `Ref` forms."""

    def __init__(self, random, names=(), has_references=False):
        self.random, self.scopes, self.has_references = random, [dict(names), {}], has_references
        self.size = random.choice([6, 12, 25, 50, 90])

    def chance(self, part):
        return self.random.random() < part

    def known(self, only_variables=False):
        seen = {name: kind for scope in self.scopes for name, kind in scope.items()}
        return [name for name, is_variable in seen.items() if is_variable or not only_variables]

    def name(self, only_variables=False):
        known = self.known(only_variables)
        return self.random.choice(known if known and self.chance(0.99) else NAMES)

    def fresh(self, is_variable=False):
        fresh = [name for name in NAMES if name not in self.scopes[-1]]
        name = self.random.choice(fresh if fresh and self.chance(0.99) else NAMES)
        self.scopes[-1].setdefault(name, is_variable)
        return name

    def pattern(self):
        return "_" if self.chance(0.12) else self.fresh()

    def joined(self, items):
        separators = ["; ", "; ", "\n", " ;\n", ";;", "\n\n "]
        return "".join((self.random.choice(separators) if place else "") + item for place, item in enumerate(items))

    def block(self, *names, most=3, first=""):
        self.scopes.append(dict.fromkeys(names, False))
        items = [self.item() for _ in range(self.random.randint(0, most))]
        self.scopes.pop()
        return f"{{ {self.joined(items if not first else [first, *items])} }}"

    def bound(self, write, count=1):
        """What is written with so many patterns, and a block in whose scope they are."""
        self.scopes.append({})
        patterns = [self.pattern() for _ in range(count)]
        self.scopes.pop()
        return write(", ".join(patterns)) + " " + self.block(*(it for it in patterns if it != "_"))

    def parts(self, *counts):
        return ", ".join(self.expression() for _ in range(self.random.choice(counts)))

    def item(self):
        self.size -= 1
        if self.size <= 0:
            return self.leaf()
        if self.chance(0.15):
            idioms = IDIOMS_OF_REFERENCES if self.has_references and self.chance(0.5) else IDIOMS
            return filled(self.random.choice(idioms), self.expression)
        kind = self.random.choices(["def", "var", "assign", "list", "return", ""], [16, 10, 16, 4, 4, 50])[0]
        match kind:
            case "def":
                right = self.expression()
                return f"def {self.pattern()} := {right}"
            case "var":
                right = self.expression()
                return f"var {self.fresh(True)} := {right}"
            case "assign" if self.known(True):
                return f"{self.name(True)} := {self.expression()}"
            case "list":
                count = self.random.randint(0, 3)
                right = f"[{self.parts(count)}]" if self.chance(0.7) else self.expression()
                return f"def [{', '.join(self.pattern() for _ in range(count))}] := {right}"
            case "return" if "__return" in self.known():
                return "return" if self.chance(0.5) else f"return {self.expression()}"
        return self.expression()

    def leaf(self):
        return self.name() if self.known() and self.chance(0.5) else self.random.choice(LEAVES)

    def operand(self):
        return self.leaf() if self.chance(0.6) else self.call() if self.chance(0.5) else f"({self.expression()})"

    def call(self):
        receiver = self.leaf() if self.chance(0.7) else f"({self.expression()})"
        kind = self.random.random()
        if kind < 0.45:
            return f"{receiver}.{self.random.choice(VERBS)}({self.parts(0, 1, 1, 1, 2)})"
        return f"{receiver}({self.parts(0, 1, 1, 2)})" if kind < 0.8 else f"{receiver}[{self.parts(0, 1, 1, 1, 2)}]"

    def expression(self):
        self.size -= 1
        if self.size <= 0:
            return self.leaf()
        ways = {self.leaf: 22, self.operation: 29, self.call: 14, self.control: 15, self.object: 5}
        if self.has_references:
            ways[self.reference] = 15
        return self.random.choices([*ways], [*ways.values()])[0]()

    def reference(self):
        match self.random.choice(["send", "send", "send", "when", "promise", "broken", "state"]):
            case "send":
                return f"{self.operand()} <- {self.random.choice(VERBS)}({self.parts(0, 1, 1, 1, 2)})"
            case "when":
                head = f"when ({self.expression()}) -> {self.block()}"
                return head if self.chance(0.4) else f"{head} " + self.bound(lambda it: f"catch {it}")
            case "promise":
                return f"Ref.promise(){self.random.choice(['', '[0]', '[1]'])}"
            case "broken":
                return f"Ref.broken({self.leaf()})"
        return f"Ref.state({self.expression()})"

    def operation(self):
        kind = self.random.choices(["join", "prefix", "list", "item"], [28, 3, 6, 2])[0]
        match kind:
            case "join":
                sign = self.random.choice("+ - * // + - < <= > >= == != && ||".split())
                return f"{self.operand()} {sign} {self.operand()}"
            case "prefix":
                return self.random.choice("!-") + self.call()
            case "list":
                return f"[{self.parts(0, 1, 2, 3)}]"
        return f"({self.item()})"

    def control(self):
        kind = self.random.choice(["if", "if", "while", "for", "escape", "try", "throw", "hide"])
        match kind:
            case "if":
                other = self.random.choice(["", " else ", f" else if ({self.expression()}) {self.block()} else "])
                return f"if ({self.expression()}) {self.block()}" + (other and other + self.block())
            case "while":
                counter = self.name(True)
                if not self.known(True) or self.chance(0.3):
                    return f"while ({self.expression()}) {self.block()}"
                head = f"while ({counter} < {self.random.choice([3, 5, 20])})"
                return f"{head} {self.block(first=f'{counter} := {counter} + 1', most=2)}"
            case "for":
                items = self.expression()
                return self.bound(lambda it: f"for {it} in {items}")
            case "escape":
                name = self.random.choice(NAMES)
                return f"escape {name} {self.block(name)}"
            case "try":
                return f"try {self.block()} " + self.bound(lambda it: f"catch {it}")
            case "throw":
                return f"throw({self.expression()})"
        return f"({self.block()})"

    def object(self):
        pattern, count = self.pattern(), self.random.choice([0, 1, 1, 2])
        self.scopes.append({"__return": False})
        if self.chance(0.5):
            made = self.bound(lambda it: f"def {pattern}({it})", count)
        else:
            methods = [self.method() for _ in range(self.random.choice([0, 1, 2, 3, 10]))]
            made = f"def {pattern} {{ {self.random.choice(' ' + chr(10)).join(methods)} }}"
        self.scopes.pop()
        return made

    def method(self):
        head = f"{self.random.choice(['to', 'method'])} {self.random.choice(OBJECT_VERBS)}"
        return self.bound(lambda it: f"{head}({it})", self.random.choice([0, 0, 1, 1, 2]))

    def text(self):
        return self.joined([self.item() for _ in range(self.random.randint(0, 6))])

    def use(self, uses):
        """A short program of these uses of the shared script."""
        return filled("; ".join(self.random.choices(uses, k=self.random.choice([1, 1, 1, 2]))), self.leaf)


def spoilt(random, text):
    """A text with some of its tokens lost, added, changed or exchanged."""
    tokens = TOKEN.findall(text) or ["x"]
    for _ in range(random.choice([1, 1, 2, 4])):
        place = random.randrange(len(tokens))
        match random.randrange(4):
            case 0 if len(tokens) > 1:
                del tokens[place]
            case 1:
                tokens.insert(place, random.choice(WORDS))
            case 2:
                tokens[place] = random.choice(WORDS)
            case _:
                other = random.randrange(len(tokens))
                tokens[place], tokens[other] = tokens[other], tokens[place]
    return "".join(tokens)
