"""All that has happened: the journal, the name that comes next, and the calls that enter an event. A refused call draws no
name and changes nothing."""
import events
from cells import Cells, listed
from contents import OPEN, At, Done, Flying
from journal import Entry, Journal
from reading import Refusal

MOST_ENTRIES, MOST_NAMES = 1_048_576, 4_294_967_295


class Book:
    def __init__(self, budget):
        self.budget, self.next, self.journal = budget, 1, Journal()

    @property
    def world(self):
        return self.journal.world

    def enter(self, told, does):
        """Enters an event that is possible, where there is room for one; that is looked at last. Answers its entry and what
        else the event tells."""
        cells = Cells(self.world)
        answer = does(cells)
        if len(self.journal.entries) >= MOST_ENTRIES or self.next > MOST_NAMES:
            raise Refusal("B8 Full")
        entry = Entry(self.next, told, cells.touched, cells.written, does)
        self.journal.enter(entry)
        self.next += 1
        return entry, answer

    def birth(self, name, earlier, items):
        event = self.next
        return self.enter(f"birth {name}", lambda cells: events.birth(cells, event, name, earlier, items))

    def ask(self, name, items):
        event = self.next
        return self.enter(f"ask {name}", lambda cells: events.ask(cells, event, name, items))

    def arrive(self, message):
        return self.enter(f"arrive {message}", lambda cells: events.arrive(cells, message))

    def forward(self, message):
        return self.enter(f"forward {message}", lambda cells: events.forward(cells, message))

    def learn(self, name, promise):
        """The command names the vat, the event has its number."""
        vat, known = events.found_vat(Cells(self.world), name).number, self.with_home(promise)
        return self.enter(f"learn {name} {promise}", lambda cells: events.learn(cells, vat, known))

    def with_home(self, promise):
        """The promise of this name with the home that it was made with, if it was: commands name it without."""
        return next((cell[2] for cell in self.world if cell[0] == "view" and cell[2] == promise), promise)

    def turn(self, message):
        event, budget = self.next, self.budget
        entry, (vat, outcome) = self.enter(f"turn {message}", lambda cells: events.turn(cells, event, message, budget))
        entry.vat, entry.notes = vat, [{"kind": "Got", "message": str(message)}, *outcome.notes]
        return entry, outcome

    def vats(self):
        """The vats by number."""
        return dict(sorted((vat.number, name) for name, vat in listed(self.world, "name")))

    def enabled(self):
        """What may be done next, as the words of a command: what a message can do, in order of message name, then what vats
        can learn, in order of birth and of promise."""
        for name, message in listed(self.world, "message"):
            match message.place:
                case Flying():
                    yield "arrive", name
                case At():
                    if self.is_possible(events.forward, name):
                        yield "forward", name
                    elif self.is_possible(events.ready, name):
                        yield "turn", name
                case Done():
                    pass
        for number, name in self.vats().items():
            for promise, known in listed(self.world, "view", number):
                if known is OPEN and ("board", promise) in self.world:
                    yield "learn", name, promise

    def is_possible(self, event, name):
        try:
            event(Cells(self.world), name)
            return True
        except Refusal:
            return False
