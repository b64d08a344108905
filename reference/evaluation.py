"""How a program is evaluated among the cells of its vat."""
from checking import captures, captures_of_when
from contents import Made, Resolver
from reading import (Assign, BreakRef, Call, Define, DefineList, Escape, For, Hide, If, List, Literal, NewPromise, Noun,
                     Null, Object, Same, Send, StateRef, Throw, Try, Variable, When, While)
from references import end_of, settled, state_of
from values import (Broken, EjectorName, ObjectName, PromiseName, Reference, SlotName, Thrown, data_call, limited, no_method,
                    promises_in, same, wanted)
from working import Abandoned, Working

DEEPEST = 1_000
UNDEFINED = object()


class Ejected(Exception):
    """An ejector, and the value that it was given."""


class Scope:
    """Names with what they stand for, the newest first: a value, or a variable's slot. The names of a script's own scope are
    its vat's top nouns."""

    def __init__(self, names=None, is_script=False):
        self.names = names
        self.is_script = is_script


class Turn(Working):
    """Evaluates. A node begins: the budget is tested, its step is taken, its level is tested. Then its parts are evaluated
    from the left. What a construct touches of the vat's cells is what it reads and writes here by `home`."""

    def __init__(self, home, event, steps):
        super().__init__(home, event, steps)
        self.open = []

    def meaning(self, scope, name):
        """What a name stands for. One that no scope around has is a top noun: its Top is touched, an absent one too."""
        names = scope.names
        while names is not None:
            spelled, meaning, names = names
            if spelled == name:
                return meaning
        meaning = self.home.read("top", name, UNDEFINED)
        if meaning is UNDEFINED:
            raise Thrown(f"undefined noun {name}")
        return meaning

    def captured(self, scope, names):
        """Captures go in order of the text. A capture touches Top and never Slot; an undefined top noun throws at its
        own capture, and the Tops until then are touched, its own absent one too."""
        return tuple((name, self.meaning(scope, name)) for name in names)

    def bind(self, scope, name, meaning):
        if name is None:
            return
        if scope.is_script:
            self.home.write("top", name, meaning)
        else:
            scope.names = (name, meaning, scope.names)

    def items(self, scope, items, level):
        value = None
        for item in items:
            value = self.value(scope, item, level)
        return value

    def block(self, names, items, level, bound=()):
        scope = Scope(names)
        for name, value in bound:
            self.bind(scope, name, value)
        return self.items(scope, items, level)

    def datum(self, value, kind, problem):
        """The end of a value where a datum of this kind is wanted. A broken end throws its problem; an unresolved promise
        and another reference are of the wrong kind."""
        end = end_of(self.home, value)
        if isinstance(end, Broken):
            raise Thrown(end.problem)
        return wanted(end, kind, problem)

    def truth(self, scope, condition, level):
        return self.datum(self.value(scope, condition, level), bool, "not a truth value")

    def value(self, scope, node, level):
        if self.steps == 0:
            raise Abandoned("turn budget spent")
        self.steps -= 1
        if level > DEEPEST:
            raise Abandoned("calls too deep")
        return self.begun(scope, node, level + 1)

    def begun(self, scope, node, level):
        """The value of a node whose step was taken; its parts stand at this level."""
        match node:
            case Null():
                return None
            case Literal(value):
                return limited(value)
            case Noun(name):
                meaning = self.meaning(scope, name)
                return self.home.read("slot", meaning) if isinstance(meaning, SlotName) else meaning
            case Define(pattern, right):
                value = self.value(scope, right, level)
                self.bind(scope, pattern, value)
                return value
            case DefineList(patterns, right):
                return self.define_list(scope, patterns, self.value(scope, right, level))
            case Variable(name, right):
                value = self.value(scope, right, level)
                self.bind(scope, name, self.new_slot(value))
                return value
            case Assign(name, right):
                value = self.value(scope, right, level)
                self.home.write("slot", self.meaning(scope, name), value)
                return value
            case List(items):
                return limited(tuple(self.value(scope, item, level) for item in items))
            case Same(left, right):
                left = self.value(scope, left, level)
                return self.same(left, self.value(scope, right, level))
            case Hide(block):
                return self.block(scope.names, block, level)
            case If(condition, first, second):
                chosen = first if self.truth(scope, condition, level) else second
                return self.block(scope.names, chosen, level)
            case Throw(problem):
                raise Thrown(self.datum(self.value(scope, problem, level), str, "not a text"))
            case Object():
                return self.define_object(scope, node)
            case Call(receiver, verb, arguments):
                receiver = self.value(scope, receiver, level)
                return self.call(receiver, verb, tuple(self.value(scope, it, level) for it in arguments), level)
            case Send(receiver, verb, arguments):
                receiver = self.value(scope, receiver, level)
                return self.send(receiver, verb, tuple(self.value(scope, it, level) for it in arguments))
            case When(value):
                value = self.value(scope, value, level)
                return self.wait(value, node, self.captured(scope, captures_of_when(node)))
            case NewPromise():
                return self.promise_and_resolver()
            case BreakRef(problem):
                return Broken(self.datum(self.value(scope, problem, level), str, "not a text"))
            case StateRef(value):
                return state_of(self.home, self.value(scope, value, level))
            case Escape(name, block):
                return self.escape(scope, name, block, level)
            case Try(block, pattern, handler):
                try:
                    return self.block(scope.names, block, level)
                except Thrown as problem:
                    caught = str(problem)
                return self.block(scope.names, handler, level, [(pattern, caught)])
            case For(pattern, items, block):
                for item in self.datum(self.value(scope, items, level), tuple, "not a list"):
                    self.block(scope.names, block, level, [(pattern, item)])
                return None
            case While(condition, block):
                names = scope.names
                while self.truth(scope, condition, level):
                    self.block(scope.names, block, level)
                    scope.names = names
                return None

    def define_list(self, scope, patterns, value):
        """The items are bound as they stand in the list, and the value is what it was, a promise perhaps."""
        items = self.datum(value, tuple, "wrong list")
        if len(items) != len(patterns):
            raise Thrown("wrong list")
        for pattern, item in zip(patterns, items):
            self.bind(scope, pattern, item)
        return value

    def define_object(self, scope, node):
        """Captures are taken before the object is made, so one that throws draws no index."""
        captured = self.captured(scope, captures(node))
        made = self.new_object(Made(node, captured))
        self.bind(scope, node.pattern, made)
        return made

    def same(self, left, right):
        """Both sides are evaluated, then both are settled, the left one first, and only then looked at: a side that has no
        settled form is told before a promise is. Where the left side has none the right one's Views are not touched."""
        left, right = settled(self.home, left), settled(self.home, right)
        if any(promises_in((left, right))):
            raise Thrown("not settled")
        return same(left, right)

    def escape(self, scope, name, block, level):
        ejector = self.new_ejector()
        self.open.append(ejector)
        try:
            return self.block(scope.names, block, level, [(name, ejector)])
        except Ejected as ejected:
            given_to, value = ejected.args
            if given_to != ejector:
                raise
            return value
        finally:
            self.open.pop()

    def call(self, receiver, verb, arguments, level):
        """An immediate call goes to the receiver's end, which is taken when the arguments were evaluated. The parts of a
        method stand at this level."""
        match end_of(self.home, receiver):
            case Broken(problem):
                raise Thrown(problem)
            case PromiseName():
                raise Thrown("not near")
            case Reference(vat=vat) if vat != self.home.vat:
                raise Thrown("not near")
            case ObjectName() as made:
                return self.call_object(made, verb, arguments, level)
            case EjectorName() as ejector:
                return self.call_ejector(ejector, verb, arguments)
            case data:
                return data_call(data, verb, arguments, self.datum)

    def call_ejector(self, ejector, verb, arguments):
        """An ejector is no cell."""
        if verb != "run" or len(arguments) > 1:
            raise no_method(verb, arguments)
        if ejector not in self.open:
            raise Thrown("ejector is spent")
        raise Ejected(ejector, *(arguments or (None,)))

    def call_object(self, made, verb, arguments, level):
        """The Object is touched, also where the verb is not found; no argument is then looked at."""
        content = self.home.read("object", made)
        if isinstance(content, Resolver):
            return self.call_resolver(content.promise, verb, arguments)
        for method in content.node.methods:
            if method.verb == verb and len(method.parameters) == len(arguments):
                bound = [*content.captured, (content.node.pattern, made), *zip(method.parameters, arguments)]
                return self.block(None, method.block, level, bound)
        raise no_method(verb, arguments)

    def call_resolver(self, promise, verb, arguments):
        """What is given is settled, or looked at as a text, before it is tried whether the resolver was used."""
        match verb, arguments:
            case "resolve", (value,):
                self.resolve(promise, settled(self.home, value))
            case "smash", (problem,):
                self.resolve(promise, Broken(self.datum(problem, str, "not a text")))
            case _:
                raise no_method(verb, arguments)
