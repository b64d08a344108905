"""The journal: entries with their causes, the world that the live ones lead to, undo, redo, exchange and settling."""
from dataclasses import dataclass, field

from cells import World
from reading import Refusal


@dataclass
class Entry:
    """An event: its name, what the journal tells of it, the cells that it touched, what it wrote, and what does it again on
    the cells of any world. A turn has its vat and its records for the log."""
    event: int
    told: str
    touched: set
    written: dict
    does: object
    vat: object = None
    notes: list = field(default_factory=list)
    causes: set = field(default_factory=set)
    is_live: bool = True

    def __post_init__(self):
        # Two sets are compared by the hashes that both keep.
        self.writes = frozenset(self.written)

    def wrote_for(self, other):
        """Whether it wrote a cell that the other touches."""
        return not other.touched.isdisjoint(self.writes)


class Journal:
    """The entries in order, live and undone. The first of them may be settled: they stay live, where they are."""

    def __init__(self):
        self.entries = []
        self.settled = 0
        self.world = World()

    def enter(self, entry):
        entry.causes = {it.event for it in self.entries if it.is_live and it.wrote_for(entry)}
        self.entries.append(entry)
        self.world.enter(entry.written)

    def among(self, events):
        """The entries with these names, in the journal's order."""
        return [it for it in self.entries if it.event in events]

    def selected(self, events, is_live):
        """The entries with these names, where all are there and marked so: those that are not there go by number, the others
        by the journal's present order."""
        for event in sorted(events):
            if not self.among({event}):
                raise Refusal(f"B12 NoEvent e{event}")
        found = self.among(events)
        self.expect_open(it for it in self.entries[:self.settled] if it.event in events)
        for entry in found:
            if entry.is_live != is_live:
                raise Refusal(f"{'B13 NotLive' if is_live else 'B14 IsLive'} e{entry.event}")
        return found

    def expect_open(self, settled):
        """None of these settled entries is asked for."""
        for entry in settled:
            raise Refusal(f"B22 Settled e{entry.event}")

    def cone(self, event):
        """The entries of the least closed set that has the event. Causes stand before what they caused."""
        self.selected({event}, True)
        found = {event}
        for entry in self.entries:
            if entry.is_live and entry.causes & found:
                found.add(entry.event)
        return self.among(found)

    def undo(self, events):
        chosen = self.selected(events, True)
        for entry in chosen:
            for later in self.entries:
                if later.is_live and entry.event in later.causes and later.event not in events:
                    raise Refusal(f"B15 NotClosed e{entry.event} e{later.event}")
        return self.mark(chosen, False)

    def redo(self, events):
        """Live and set together must be sound. Missing causes are asked of all before any crossing is."""
        chosen = self.selected(events, False)
        members = [it for it in self.entries if it.is_live or it.event in events]
        names = {it.event for it in members}
        for entry in members:
            for cause in self.among(entry.causes - names):
                raise Refusal(f"B17 CauseMissing e{entry.event} e{cause.event}")
        for place, entry in enumerate(members):
            for earlier in members[:place]:
                if earlier.event not in entry.causes and earlier.wrote_for(entry):
                    raise Refusal(f"B16 Crossed e{entry.event} e{earlier.event}")
        return self.mark(chosen, True)

    def mark(self, chosen, is_live):
        """Marks the entries. The world is what the live entries wrote, one after another."""
        for entry in chosen:
            entry.is_live = is_live
        self.world = World()
        for entry in self.entries:
            if entry.is_live:
                self.world.enter(entry.written)
        return len(chosen)

    def expect_place(self, position):
        if not 1 <= position <= len(self.entries):
            raise Refusal(f"B12 NoEvent {position}")

    def settle(self, position):
        """Settles the entries up to a position: they can no longer be taken back."""
        self.expect_place(position)
        self.expect_open(self.entries[position - 1:self.settled][:1])
        for entry in self.entries[:position]:
            if not entry.is_live:
                raise Refusal(f"B13 NotLive e{entry.event}")
        self.settled = position

    def exchange(self, position):
        self.expect_place(position)
        self.expect_place(position + 1)
        self.expect_open(self.entries[position - 1:self.settled][:1])
        first, second = self.entries[position - 1:position + 1]
        self.selected({first.event, second.event}, True)
        if first.wrote_for(second) or second.wrote_for(first):
            raise Refusal(f"B18 Dependent e{first.event} e{second.event}")
        self.entries[position - 1:position + 1] = second, first
        return first.event, second.event
