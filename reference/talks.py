"""Random scripts and programs of vats that know each other: they send, wait, pass references and resolvers on, and
resolve."""
import re

from programs import Program

# The methods of a vat's object. O stands for another vat. What a method leaves in `last` is met again later.
METHODS = {
    "put(x)": "last := x",
    "give()": "last",
    "own()": "p",
    "resolver()": "r",
    "bump()": "n := n + 1; n",
    "make()": "def [q, s] := Ref.promise(); last := s; q",
    "pair()": "def [q, s] := Ref.promise(); q <- bump(); [q, s]",
    "list()": "[p, last, [o]]",
    "tie(x)": "r.resolve(x); x",
    "cut()": 'r.smash("cut"); p',
    "settle(x, y)": "x <- resolve(y); y <- bump()",
    "smash(x)": 'x <- smash("lost")',
    "send(x, y)": "x <- put(y); x <- give()",
    "pass(x, y)": "y <- bump(); x <- put([y, [p]]); y <- give()",
    "relay(x)": "x <- give()",
    "chain(x, y)": "(x <- give()) <- put(y)",
    "first(x)": "(x <- list()) <- get(0)",
    "deep(x)": "((x <- list()) <- get(0)) <- bump()",
    "wait(x)": "when (x) -> { last := x; n } catch e { last := e; e }",
    "later(x, y)": "when (x) -> { x <- put(y); y }",
    "state(x)": "[Ref.state(x), Ref.state(last)]",
    "near(x)": "x.give()",
    "tell(x)": "O <- put(x); x",
    "hand(x, y)": "O <- settle(y, x); O <- give()",
    "is(x, y)": "x == y",
    "fail(x)": 'x <- bump(); throw("failed")',
    "spin(x)": "last := x; while (true) { x <- bump() }",
    "run()": "escape k { last := k; k(p) }",
    "get(x)": "[last, p, x]",
}
# E stands for an expression, O for another vat, M for a verb with arguments, S for a send. D, P and R stand for new names,
# each for the same one in the whole item.
ITEMS = [
    "E",
    "(O <- give()) <- M",
    "(O <- give()) <- M",
    "(O <- own()) <- M",
    "(O <- first(E)) <- M",
    "(O <- relay(O)) <- M",
    "def D := O <- give(); D <- M; O <- put(D)",
    "def D := O <- own(); O <- tie(E); D <- M",
    "O <- put(O); O <- relay(O)",
    "O <- tie(O)",
    "O <- settle(r, O)",
    "def D := O <- M; O <- tell(D); D <- M",
    "def D := O <- make(); O <- hand(D, E); O <- tell(D)",
    "def D := O <- make(); O <- tie(D); (O <- own()) <- M",
    "def D := O <- M; O <- tie(D); (O <- own()) <- M",
    "def [P, R] := Ref.promise(); [P, E] <- size(); R.resolve(O)",
    "def [P, R] := Ref.promise(); when ([P]) -> { S }; R.resolve(O)",
    "S",
    "S",
    "S",
    "S",
    "S",
    "def D := S",
    "def D := S",
    "last := E",
    "last := S",
    "def [P, R] := Ref.promise()",
    "def [P, R] := Ref.promise(); P <- M; R.resolve(E)",
    "def [P, R] := Ref.promise(); try { P.put({ R.resolve(o); E }) } catch e { e }",
    "def [P, R] := Ref.promise(); P <- put({ R.resolve(E); P })",
    "def [P, R] := Ref.promise(); try { P == { R.resolve(E); E } } catch e { e }",
    "def [P, R] := Ref.promise(); R.resolve([E, O]); last := (def [_, D] := P); D <- M",
    "def [P, R] := Ref.promise(); R.resolve(E); def [D, _] := [P, E]",
    "def [P, R] := Ref.promise(); R.resolve(E); last := [P].with(P)",
    "def [P, R] := Ref.promise(); R.resolve(E); last := [P, E][0]",
    "def [P, R] := Ref.promise(); R.resolve(E); for x in [P, E] { last := x }",
    "r.resolve(E)",
    "r <- resolve(E)",
    'r.smash("gone")',
    "try { last.resolve(E) } catch e { e }",
    "try { r.smash(E) } catch e { [e, E] }",
    "try { r.resolve(E) } catch e { [e, E] }",
    "try { r.resolve([E, O]); p == E } catch e { e }",
    "E == { r.resolve(E); E }",
    'try { when (throw("thrown")) -> { last } } catch e { [e, S] }',
    "try { when ({ n := n + 1; E }) -> { last } catch e { r } } catch e { S }",
    "p <- M; r.resolve(E)",
    "p <- M; S; r.resolve([E, O])",
    "E <- resolve(E)",
    "when (E) -> { S } catch e { S }",
    "when (S) -> { E }",
    "def D := when (E) -> { last := E } catch e { e }",
    "Ref.state(E)",
    "try { E == E } catch e { e }",
    "try { E.give() } catch e { e }",
    "o.bump()",
    "o.put(E)",
    "def D { method put(x) { x <- bump(); S } method give() { E } }",
    "def D(x) { last := x; return S }",
    "escape k { last := k; S }",
    "n := n + 1",
    "[E, [E]]",
    'throw("thrown")',
    "while (true) { S }",
    "while (true) { when (E) -> { S } }",
    'Ref.broken("lost") <- put(E)',
    "[E, E] <- get(0)",
    "E[0]",
]


# What ends a turn early, or leaves little to be done, stands in few scripts.
WRECKS = ('throw("thrown")', "while (true)", "r.smash", "r.resolve")


def signature(method):
    """The verb of a method and the number of its parameters."""
    verb, parameters = method.rstrip(")").split("(")
    return verb, len(parameters.split(", ")) if parameters else 0


SIGNATURES = [signature(method) for method in METHODS]


class Talk:
    """Writes a script or a program in which these names stand; others are of other vats, and are written more often."""

    def __init__(self, random, names, others):
        self.random, self.names, self.others, self.made = random, [*names], [*others], 0

    def chance(self, part):
        return self.random.random() < part

    def fresh(self):
        self.made += 1
        return f"x{self.made}"

    def leaf(self):
        if self.others and self.chance(0.35):
            return self.random.choice(self.others)
        if self.names and self.chance(0.85):
            return self.random.choice(self.names[-8:])
        return self.random.choice(["1", "null", '"t"', 'Ref.broken("lost")', "[]"])

    def expression(self):
        if self.chance(0.8):
            return self.leaf()
        return self.send() if self.chance(0.4) else f"[{', '.join(self.leaf() for _ in range(self.random.choice([1, 2])))}]"

    def other(self):
        return self.random.choice(self.others) if self.others and self.chance(0.9) else self.leaf()

    def message(self):
        verb, count = self.random.choice(SIGNATURES) if self.chance(0.97) else (self.random.choice(["add", "none"]), 1)
        return f"{verb}({', '.join(self.expression() for _ in range(count))})"

    def send(self):
        receiver = self.leaf() if self.chance(0.65) else f"({self.send()})"
        return f"{receiver} <- {self.message()}"

    def item(self, items=ITEMS):
        """An item with something written for each large letter that stands alone. What it defines can be used behind it."""
        defined = {}
        writers = {"E": self.expression, "S": self.send, "O": self.other, "M": self.message,
                   **{letter: lambda it=letter: defined.setdefault(it, self.fresh()) for letter in "DPR"}}
        parts = re.split(r"\b([ESOMDPR])\b", self.random.choice(items))
        written = "".join(writers[part]() if part in writers else part for part in parts)
        self.names += defined.values()
        return written

    def program(self):
        if self.chance(0.04):
            return Program(self.random, has_references=True).text().replace("\n", " ; ").lstrip(" ;\t")
        return "; ".join(self.item() for _ in range(self.random.choice([1, 1, 2, 3, 5])))

    def script(self):
        """As a rule it ends with the vat's object; its earlier vats are among the names."""
        first = self.random.choice(["null", "p", *self.others, *self.others])
        lines = ["def [p, r] := Ref.promise()", f"var last := {first}", "var n := 0"]
        others = self.others or ["o"]
        methods = {it: re.sub(r"\bO\b", lambda _: self.random.choice(others), body) for it, body in METHODS.items()}
        lines += ["def o {", *(f" method {it} {{ {body} }}" for it, body in methods.items() if self.chance(0.85)), "}"]
        self.names += ["p", "r", "o", "last"]
        if self.chance(0.2):
            # It has no settled form, and the value behind it is looked at only where it is made.
            lines += ["def [ring, tie] := Ref.promise()", f"tie.resolve([ring, {self.other()}])"]
            self.names.append("ring")
        if self.chance(0.3):
            harmless = [it for it in ITEMS if not it.startswith(WRECKS)]
            lines += [self.item(harmless) for _ in range(self.random.randint(1, 3))]
        if self.chance(0.06):
            place = self.random.choice([1, 2, 3, len(lines)])
            lines.insert(place, self.random.choice(['throw("early")', "while (true) { var i := 0; i := i + 1 }"]))
        ends = {"o": 24, "p": 3, "[o, p]": 1, "r": 1, "o <- own()": 1, "last": 2}
        return "\n".join([*lines, *self.random.choices([*ends], [*ends.values()])])
