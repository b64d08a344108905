"""Random sessions: commands as they are written, with the replies that the interpreter gives."""
import random
import re

from book import Book
from cells import listed
from commands import Engine
from contents import At
from programs import USES, Program, shared_script, spoilt
from running import bytes_of
from talks import Talk

BUDGETS = [3, 10, 30, 100, 1_000, 10_000, 100_000]


class Session:
    def __init__(self, budget):
        self.budget, self.book, self.commands, self.replies = budget, Book(budget), [], []
        self.engine = Engine(self.book)

    def give(self, text):
        """One command, with its script lines if it has some."""
        self.commands.append(text)
        self.replies += self.engine.answers(bytes_of(f"{text}\n"))

    @property
    def input(self):
        return "\n".join([*self.commands, ""])


class RandomSession(Session):
    """What random sessions have in common: they choose events, late ones rather, give undo, redo, exchange, cone and settle,
    and ask questions."""

    def __init__(self, seed, budgets):
        self.random = random.Random(seed)
        super().__init__(self.random.choice(budgets))

    def chance(self, part):
        return self.random.random() < part

    def event(self):
        return self.random.randint(1, self.book.next)

    def some(self, events, most=4):
        """Some of these events, rather late ones, or any others where there are none."""
        weights = range(1, len(events) + 1)
        return self.random.choices(events, weights, k=self.random.randint(1, most)) if events else [self.event()]

    def marked(self, is_live):
        """The events that are marked so and not settled."""
        journal = self.book.journal
        return [it.event for it in journal.entries[journal.settled:] if it.is_live == is_live]

    def spoilt(self, part, text):
        return spoilt(self.random, text) if self.chance(part) else text

    def vats(self):
        return dict(listed(self.book.world, "name"))

    def ask_text(self, name, text):
        text = text.replace("\n", " ; ").lstrip(" \t")
        self.give(f"ask {name} {text}")

    def change(self):
        match self.random.choice("cone undo-cone undo-cone undo undo redo redo redo exchange exchange settle".split()):
            case "exchange":
                self.give(f"exchange {self.position()}")
            case "settle":
                self.give("show")
                self.give(f"settle {self.settling()}")
                self.give("show")
            case "undo":
                self.mark("undo", self.undoable())
            case "redo":
                self.mark("redo", self.redoable())
            case kind:
                self.mark(kind, self.some(self.marked(True), 1) if self.chance(0.9) else [self.event()])

    def position(self):
        """A position in the journal or next to it, often one where two live turns stand behind one another."""
        entries = self.book.journal.entries
        turns = [it.is_live and it.told.startswith("turn") for it in entries]
        found = [place for place in range(1, len(turns)) if turns[place - 1] and turns[place]]
        return self.random.choice(found) if found and self.chance(0.7) else self.random.randint(0, len(turns) + 1)

    def settling(self):
        """A position not far behind what is settled, or any."""
        journal = self.book.journal
        far = len(journal.entries) if self.chance(0.2) else journal.settled + (len(journal.entries) - journal.settled) // 4
        return self.random.randint(0, far + 1)

    def mark(self, kind, chosen):
        self.give(" ".join([kind, *(f"e{event}" for event in chosen)]))

    def undoable(self):
        """Events, as a rule live ones, often with all that came of them, or with all of that but one."""
        events = self.some(self.marked(True)) if self.chance(0.95) else [self.event(), self.event()]
        if self.chance(0.3) or not set(events) <= set(self.marked(True)):
            return events
        return self.shuffled({it.event for event in events for it in self.book.journal.cone(event)})

    def redoable(self):
        """Events, as a rule undone ones, often with all undone ones that they came of, or with all of these but one."""
        events = self.some(self.marked(False)) if self.chance(0.95) else [self.event(), self.event()]
        if self.chance(0.3):
            return events
        undone, wanted = set(self.marked(False)), set(events)
        for entry in reversed(self.book.journal.entries):
            if entry.event in wanted:
                wanted |= entry.causes & undone
        return self.shuffled(wanted)

    def shuffled(self, events):
        """These events in any order, now and then without one of them."""
        events = self.random.sample(sorted(events), len(events))
        return events[1:] if len(events) > 1 and self.chance(0.2) else events

    def named(self, kind, letter):
        """A name of something in the world, rather a late one, or any such name."""
        found = sorted({str(cell[-1]) for cell in self.book.world if cell[0] == kind}, key=lambda it: [*map(int, it[1:].split(f".{letter}"))])
        if found and self.chance(0.85):
            return self.random.choices(found, range(1, len(found) + 1))[0]
        return f"e{self.event()}.{letter}{self.random.choice([0, 0, 1, 2])}"

    def question(self):
        """Why one event came of another, what an event touched, what a message delivers, what is in an object."""
        events = [f"e{it.event}" for it in self.book.journal.entries] if self.chance(0.95) else []
        one, two = (self.random.choice(events) if events else f"e{self.event()}" for _ in range(2))
        self.give(self.spoilt(0.02, self.random.choice([f"why {one} {two}", f"why {one} {two}", f"event {one}",
                                                        f"message {self.named('message', 'm')}",
                                                        f"object {self.named('object', 'o')}"])))

    def refused(self):
        """Why the pair that the last reply refuses came of one another, if it does refuse one."""
        found = re.fullmatch("no B1[5-8] [A-Za-z]+ (e[0-9]+) (e[0-9]+)", self.replies[-1]) if self.replies else None
        if found:
            self.give(f"why {found[1]} {found[2]}")

    def go(self, ways, counts, ends):
        """Goes these ways some times, each with its weight, and gives the last commands."""
        for _ in range(self.random.choice(counts)):
            self.random.choices([*ways], [*ways.values()])[0]()
            self.refused()
            if self.chance(0.1):
                self.question()
            if self.chance(0.05):
                self.give("show")
        for command in ends:
            self.give(command)
        return self


class OneVat(RandomSession):
    """Sessions of vats that stand alone, whose programs have no sends, whens and promises. The whole language is read: a text
    that is spoilt may have one."""

    def __init__(self, seed):
        # A few uses of the shared script, each of them often, and a budget in which its opening turn ends.
        chosen = random.Random(seed)
        self.uses = chosen.sample(USES, 8) if chosen.random() < 0.6 else []
        super().__init__(seed, BUDGETS[2:] if self.uses else BUDGETS)
        self.is_prompt = self.chance(0.5)

    def birth(self):
        name = self.random.choice("aabc")
        script = self.spoilt(0.1, shared_script(self.random) if self.uses else Program(self.random).text())
        self.give("\n".join([f"vat {name} () {script.count(chr(10)) + 1}", script]))
        self.turn_of_newest(0.9)

    def ask(self):
        vats = self.vats()
        if not vats and self.chance(0.8):
            self.birth()
            return
        name = self.random.choice([*vats, *vats, "a"])
        program = Program(self.random, vats[name].top_names if name in vats else {})
        self.ask_text(name, self.spoilt(0.1, program.use(self.uses) if self.uses and self.chance(0.8) else program.text()))
        self.turn_of_newest(0.8 if self.is_prompt else 0.2)

    def turn_of_newest(self, part):
        if self.replies[-1].startswith("ok") and self.chance(part):
            self.turn(f"e{self.book.next - 1}.m0")

    def turn(self, message):
        self.give(f"turn {message}")

    def any_turn(self):
        waiting = [name for name, message in listed(self.book.world, "message") if isinstance(message.place, At)]
        if self.chance(0.1):
            self.turn(f"e{self.event()}.m0")
        elif waiting:
            self.turn(self.random.choice(waiting))
        else:
            self.ask()

    def write(self):
        while not self.book.journal.entries:
            self.birth()
        ways = {self.ask: 8, self.any_turn: 3 if self.is_prompt else 7, self.birth: 1, self.change: 7}
        return self.go(ways, [4, 8, 16, 30], ["show", "journal"])


class SeveralVats(RandomSession):
    """Sessions of vats that know each other. What is enabled is done in random order; so promises are learnt early or late,
    and messages are forwarded, arrive and are run across one another."""
    NAMES = ["ann", "bob", "cat", "dan", "eve"]
    # How often the newest message has its turn at once, beside what is usual.
    prompt = 1

    def __init__(self, seed, has_logs=False):
        super().__init__(seed, [30, *BUDGETS[3:], *BUDGETS[4:]])
        self.has_logs = has_logs
        self.undoes = self.random.choice([0, 0, 3, 10, 25])

    def birth(self):
        known = [*self.vats()]
        fresh = [it for it in self.NAMES if it not in known]
        name = self.random.choice(fresh if fresh and self.chance(0.94) else self.NAMES)
        earlier = self.random.sample(known, self.random.randint(min(1, len(known)), min(3, len(known))))
        if self.chance(0.06):
            earlier.append(self.random.choice(self.NAMES))
        script = self.spoilt(0.03, Talk(self.random, [], earlier).script())
        self.give("\n".join([f"vat {name} ({' '.join(earlier)}) {script.count(chr(10)) + 1}", script]))
        if self.replies[-1].startswith("ok") and self.chance(0.92 * self.prompt):
            self.give(f"turn e{self.book.next - 1}.m0")

    def ask(self):
        vats = self.vats()
        if not vats:
            self.birth()
            return
        name = self.random.choice([*vats])
        names = vats[name].top_names
        others = [it for it in names if it in self.NAMES]
        program = Talk(self.random, [it for it in names if it not in others], others).program()
        self.ask_text(name, self.spoilt(0.03, program))
        if self.replies[-1].startswith("ok") and self.chance(0.7 * self.prompt):
            self.give(f"turn e{self.book.next - 1}.m0")

    def act(self, without=(), learning=1):
        """What is enabled, any of it but these, rather what a message does than what a vat learns; most often a forwarding,
        which seldom is."""
        found = [action for action in (" ".join(map(str, it)) for it in self.book.enabled()) if action not in without]
        if found:
            weights = [{"learn": learning, "forward": 20}.get(action.split()[0], 4) for action in found]
            self.give(self.random.choices(found, weights)[0])

    def act_often(self):
        for _ in range(self.random.choice([2, 4, 8])):
            self.act()

    def step(self):
        self.give(self.random.choice(["step", "step", "run 3", "run 0", f"run {self.random.randint(1, 12)}", "enabled"]))

    def run_on(self):
        """To the end, where there is one."""
        self.give("run 60")

    def miss(self):
        """What may not be enabled: any message, any vat with any promise, a wrong word."""
        message = f"e{self.event()}.m{self.random.choice([0, 0, 1, 2])}"
        waiting = [str(name) for name, it in listed(self.book.world, "message") if isinstance(it.place, At)]
        if waiting and self.chance(0.7):
            message = self.random.choice(waiting)
        promises = [str(cell[2]) for cell in self.book.world if cell[0] == "view"] or ["e1.p0"]
        name = self.random.choice(self.NAMES)
        self.give(self.random.choice([f"turn {message}", f"turn {message}", f"forward {message}", f"arrive {message}",
                                      f"learn {name} {self.random.choice(promises)}", f"learn {name} e{self.event()}.p0",
                                      f"turn {message}x", "learn ann", "run 1000001"]))

    def again(self):
        """A closed set is undone, something else happens, and the set is redone: what came between may stand in its way."""
        live = self.marked(True)
        if live:
            cone = self.book.journal.cone(self.random.choice(live[-12:]))
            events = sorted(it.event for it in cone)
            self.mark("undo", events)
            for _ in range(self.random.choice([1, 2, 3])):
                if self.chance(0.15):
                    self.ask()
                else:
                    self.act({it.told for it in cone}, learning=4)
            self.mark("redo", events)

    def log(self):
        self.give(f"log {self.random.choice(self.NAMES)}")

    def write(self):
        for _ in range(self.random.randint(2, 4)):
            self.birth()
        ways = {self.ask: 6, self.act: 8, self.act_often: 8, self.step: 2, self.run_on: 0.3, self.miss: 1.5, self.birth: 0.7,
                self.change: self.undoes, self.again: self.undoes / 2}
        ends = ["enabled", "show", "journal"]
        if self.has_logs:
            ways[self.log] = 1
            ends += [f"log {it}" for it in self.NAMES]
        return self.go(ways, [6, 12, 25, 50], ends)
