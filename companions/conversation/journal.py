"""What the lines of a journal say: events, where their messages came from, and what came of an event."""
import re
import sys
from dataclasses import dataclass

HEAD = re.compile(r"(\d+) (e\d+) (live|undone) (\S+)(.*)")
CAUSES = re.compile(r"(?: e\d+)*")
BASE = re.compile(r"base (\d+)")

NAMING_A_VAT = {"birth", "ask", "learn"}
MAKING_A_MESSAGE = {"birth", "ask"}
TAKING_A_MESSAGE = {"turn", "arrive", "forward"}


class JournalFault(Exception):
    """A journal that no run of the program prints."""


@dataclass(frozen=True)
class Event:
    """An entry of the journal."""

    name: str
    is_live: bool
    kind: str
    arguments: tuple
    causes: tuple
    line: str

    @property
    def position(self):
        return int(self.line.split(" ", 1)[0])

    @property
    def message(self):
        """The message that the event takes, if it takes one."""
        return self.arguments[0] if self.kind in TAKING_A_MESSAGE and self.arguments else None


def read_event(line):
    # A line may be long: the causes of an event may be nearly all before it.
    head, _, causes = line.rpartition(" causes")
    found = HEAD.fullmatch(head)
    if not found or not CAUSES.fullmatch(causes):
        raise JournalFault(f"this is no line of a journal: {line}")
    _, name, mark, kind, arguments = found.groups()
    # A name stands in many lines, and is kept once.
    return Event(sys.intern(name), mark == "live", kind, tuple(arguments.split()), tuple(map(sys.intern, causes.split())), line)


def read_journal(lines):
    """The events of a journal, in its order. Causes stand before what came of them, or are settled and so not listed."""
    has_base = bool(lines) and BASE.fullmatch(lines[0]) is not None
    events, names = [], set()
    for line in lines[has_base:]:
        event = read_event(line)
        if not has_base and not names.issuperset(event.causes):
            raise JournalFault(f"a cause does not stand before its event: {line}")
        events.append(event)
        names.add(event.name)
    return events


def maker_of(message):
    """The event that made a message."""
    return message.partition(".")[0]


def origins(events):
    """Of each event that takes a message, the event that brought it there: the last arrival or forwarding of it among the
    causes, else what made it."""
    moves, found = {}, {}
    for event in events:
        if event.message:
            movers = (mover for mover in reversed(moves.get(event.message, [])) if mover in event.causes)
            found[event.name] = next(movers, maker_of(event.message))
            if event.kind in ("arrive", "forward"):
                moves.setdefault(event.message, []).append(event.name)
    return found


def cone(events, name):
    """The event of this name with all live events that came of it."""
    members = {name}
    for event in events:
        if event.is_live and not members.isdisjoint(event.causes):
            members.add(event.name)
    return members


def undone_cone(events, name):
    """The event of this name with all undone events that came of it."""
    members = {name}
    for event in events:
        if not event.is_live and not members.isdisjoint(event.causes):
            members.add(event.name)
    return members


def between(events, first, last):
    """The events that came of one event and are causes of another one, in the journal's order."""
    by_name = {event.name: event for event in events}
    causes = by_name[last].causes if last in by_name else ()
    return [name for name in causes if name in by_name and first in by_name[name].causes]


def with_causes(events, names):
    """The events of these names with all undone causes of theirs, in the journal's order."""
    members = set(names)
    for event in reversed(events):
        if event.name in members:
            members.update(event.causes)
    return [event.name for event in events if event.name in members and (event.name in names or not event.is_live)]
