"""In which vat each event happens, and how turns ended, by what the program says. What was seen once is kept, whatever is
taken back or settled since."""
import contextlib
import json

from .commands import MOST_LINE
from .journal import MAKING_A_MESSAGE, NAMING_A_VAT, maker_of, origins
from .program import TooMuch
from .replies import refusal_in
from .world import read_world

# Commands behind which the program no longer tells what it told before.
HIDING = {"undo", "undo-cone", "settle"}
# Behind so many events the journal takes too long to be asked for before each of these commands, and what follows takes too long.
MOST_LOOKED_AT = 2_000
# How many forwardings are taken back at most, one after another, to see where they were.
MOST_TRIED = 50


class Places:
    """The vats of events, the turns in which promises were published, and the ends of turns that no reply told."""

    def __init__(self):
        self.vats, self.published, self.ends, self.births = {}, {}, {}, {}
        self.authored, self.count, self.taken = set(), 0, 0

    def look_before(self, session, command):
        """Looks before a command that hides something, where anything happened since the last look."""
        if command.word in HIDING and self.taken < len(session.answered) and self.count <= MOST_LOOKED_AT:
            with contextlib.suppress(TooMuch):
                self.look(session)

    def look(self, session):
        """Notes all that the program tells now."""
        events, world = session.events(), session.world()
        self.taken, self.count = len(session.answered), len(events)
        self.note_named(session, events, world)
        self.note_turns(session, events, world)
        self.note_messages(events, world)
        self.spread(events)
        if self.count <= MOST_LOOKED_AT and self.try_forwardings(session, events):
            self.spread(events)

    def note_named(self, session, events, world):
        """What names its vat: a birth, an ask, what a vat learns, and the turns of the first two."""
        self.authored.update(session.authored)
        self.vats.update(session.authored)
        self.vats.update((event.name, event.arguments[0]) for event in events if event.kind in NAMING_A_VAT)
        self.authored.update(event.name for event in events if event.kind in MAKING_A_MESSAGE)
        births = {event.arguments[0]: event.name for event in events if event.kind == "birth"}
        for vat, event in {**births, **world.vats}.items():
            self.births.setdefault(vat, int(event[1:]))
        for event in events:
            if event.kind == "turn" and (maker := maker_of(event.message)) in self.authored:
                self.vats.setdefault(event.name, self.vats[maker])

    def note_turns(self, session, events, world):
        """What the logs of vats tell of turns, where a turn's vat or end is not known yet."""
        turns = [event.name for event in events if event.kind == "turn" and event.is_live]
        texts = session.said()
        if all(name in self.vats and (name in texts or name in self.ends) for name in turns):
            return
        for vat in world.vats:
            for records in turns_in(session.ask(f"log {vat}")):
                self.note_log(vat, records, world)

    def note_log(self, vat, records, world):
        event = world.messages.get(records[0].get("message"), ("", ""))[1]
        self.vats[event] = vat
        promises = [record["condition"] for record in records if kind_of(record) == "Resolved"]
        self.published.update(dict.fromkeys(promises, event))
        problems = [record["text"] for record in records if kind_of(record) == "Comment"]
        if problems:
            self.ends[event] = f"problem {json.dumps(problems[-1], ensure_ascii=False)}"
        elif promises and promises[-1] in world.promises:
            self.ends[event] = f"value {world.promises[promises[-1]]}"

    def note_messages(self, events, world):
        """Where messages are now: so what brought them there is of that vat, and what took them from there once."""
        last = {event.message: event for event in events if event.is_live and event.kind in ("arrive", "forward")}
        here = {}
        for message, (place, vat) in world.messages.items():
            if place != "done":
                mover = last.get(message)
                here[message] = place, vat, mover.name if mover else maker_of(message)
                if place == "at" and mover and mover.kind == "arrive":
                    self.vats[mover.name] = vat
        sources = origins(events)
        for event in events:
            place, vat, mover = here.get(event.message, ("", "", None))
            wanted = "flying" if event.kind == "arrive" else "at"
            if event.message and sources[event.name] == mover and place == wanted:
                self.vats.setdefault(event.name, vat)

    def spread(self, events):
        """A message is taken where it arrived."""
        kinds, sources = {event.name: event.kind for event in events}, origins(events)
        pairs = [(sources[event.name], event.name) for event in events if event.kind in ("turn", "forward")]
        for arrival, taken in pairs:
            if kinds.get(arrival) == "arrive":
                if taken in self.vats:
                    self.vats.setdefault(arrival, self.vats[taken])
                elif arrival in self.vats:
                    self.vats[taken] = self.vats[arrival]

    def try_forwardings(self, session, events):
        """Sees where forwarded messages were: takes the forwarding back, looks, and redoes what was taken back. Gives how many
        were seen. A redo of what was just undone leaves all as it was."""
        unknown = [event for event in events if event.kind == "forward" and event.is_live and event.name not in self.vats]
        for event in unknown[:MOST_TRIED]:
            cone = session.ask(f"cone {event.name}")[0].removeprefix("cone ")
            if len(cone) < MOST_LINE - len("redo "):
                place, vat = self.seen_without(session, event, cone)
                if place == "at":
                    self.vats[event.name] = vat
        return len(unknown)

    @staticmethod
    def seen_without(session, event, cone):
        """Where an event's message is without it."""
        session.program.reply([f"undo-cone {event.name}"])
        world = read_world(session.program.reply(["show"]))
        if refusal_in(session.program.reply([f"redo {cone}"])):
            session.begin_anew()
        return world.messages.get(event.message, ("", ""))

    def homes(self, events):
        """The vat of each event. Of one that nothing tells of, that of the event which made its message."""
        found = {}
        for event in events:
            maker = maker_of(event.message) if event.message else None
            found[event.name] = self.vats.get(event.name) or found.get(maker) or self.vats.get(maker) or next(iter(self.births))
        return found

    def lanes(self, homes):
        """The vats of these events in the order of their births."""
        return sorted(set(homes.values()), key=lambda vat: self.births.get(vat, 0))

    def publisher(self, event, by_name):
        """The turn that published what a vat learns in an event, as the log told; else the last turn among its causes."""
        told = self.published.get(event.arguments[1])
        if told in by_name and told in event.causes:
            return told
        turns = [cause for cause in event.causes if cause in by_name and by_name[cause].kind == "turn"]
        return turns[-1] if turns else None


def kind_of(record):
    """The kind of a record of a log, as `Sent`."""
    return record["class"][0].rpartition(".")[2]


def turns_in(reply):
    """The records of each turn in the reply to `log`; none where it is a refusal."""
    if refusal_in(reply) or not reply:
        return []
    turns = {}
    for record in json.loads(reply[0]):
        turns.setdefault(record["anchor"]["turn"]["number"], []).append(record)
    return list(turns.values())
