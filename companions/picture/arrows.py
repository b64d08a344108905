"""The arrows between the events of a journal."""
from dataclasses import dataclass

from conversation.journal import maker_of, origins


@dataclass(frozen=True)
class Arrow:
    """From an event to one that took a message from it, or that came of it. Folded events are those that moved the message on
    the way."""

    kind: str
    source: str
    target: str
    is_live: bool
    folded: tuple = ()


def direct_causes(events):
    """Of each event, the causes that are not also causes of another cause of it. Settled ones are no events here."""
    # Sets of events as integers, with a bit for each place in the journal.
    places, before, direct = {}, [], {}
    for place, event in enumerate(events):
        causes, followed, found = [places[cause] for cause in event.causes if cause in places], 0, []
        for cause in reversed(causes):
            if not followed >> cause & 1:
                found.append(events[cause].name)
                followed |= before[cause] | 1 << cause
        direct[event.name] = found[::-1]
        before.append(followed)
        places[event.name] = place
    return direct


def hops(source, sources, shown):
    """The event on the picture from which a message came that a source brought, and those on the way that are not shown."""
    folded = []
    while source not in shown and source in sources:
        folded.append(source)
        source = sources[source]
    return source, tuple(reversed(folded))


def message_arrows(events, shown):
    """An arrow to each event that took a message, from the one that brought it there."""
    sources, lives = origins(events), {event.name: event.is_live for event in events}
    found = []
    for event in events:
        if event.name in shown and event.message:
            source, folded = hops(sources[event.name], sources, shown)
            if source in shown:
                found.append(Arrow("message", source, event.name, event.is_live and lives[source], folded))
    return found


def arrows_to_waiting(waiting, events, shown):
    """An arrow to each message that is not done, from the event that brought it where it is."""
    sources, found = origins(events), []
    for message in waiting:
        source, folded = hops(message.causes[0], sources, shown)
        if source in shown:
            found.append(Arrow("message", source, message.name, True, folded))
    return found


def cause_arrows(events, shown):
    """An arrow to each event from those of its causes that follow from no other cause, where no message came from there.
    Events that are not shown stand for their own causes."""
    direct, by_name = direct_causes(events), {event.name: event for event in events}
    found = []
    for event in events:
        if event.name in shown:
            maker = maker_of(event.message) if event.message else None
            sources = dict.fromkeys(source for cause in direct[event.name] for source in visible(cause, direct, shown))
            found += [Arrow("cause", source, event.name, event.is_live and by_name[source].is_live)
                      for source in sources if source != maker]
    return found


def visible(cause, direct, shown):
    """A cause where it is shown, else those from which it came."""
    waiting, found = [cause], {}
    while waiting:
        name = waiting.pop()
        if name in shown:
            found[name] = None
        else:
            waiting += direct[name]
    return list(found)
