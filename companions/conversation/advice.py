"""What helps next behind a refusal, from what the program says that there is now."""
import difflib

from .commands import ASK, words_of
from .journal import between, cone, with_causes
from .language import read_documents, told_of
from .replies import refusal_in
from .telling import answer_in_words
from .texts import openness

MOST_NAMES = 12
BRACKETS = "Its brackets stand there always: `vat a () 1`, and `vat b (a) 1` where it sees the vat a."


def listed(names):
    """Some names in a row, and how many more there are."""
    names = list(names)
    more = f" and {len(names) - MOST_NAMES} more" if len(names) > MOST_NAMES else ""
    return " ".join(names[:MOST_NAMES]) + more


def ordered(session, names):
    return [event.name for event in session.events() if event.name in names]


def chosen(command):
    """The events that a command names."""
    return [f"e{int(word[1:])}" for word in words_of(command.line)[1:] if word[1:].isdigit()]


def why(session, first, second):
    """What the program itself says of how one event came of another one, in words, where it has that command."""
    if "why" not in session.usages:
        return []
    line = f"why {first} {second}"
    reply = session.ask(line)
    return [] if refusal_in(reply) else [f"`{line}` says:", *(f"  {each}" for each in answer_in_words(session, "why", reply))]


def evaluated(command):
    """The text of a command, in which refusals of texts count their bytes."""
    asked = ASK.fullmatch(command.line)
    return asked[1] or "" if asked else "\n".join(command.script)


def pointed(command, refusal):
    """The line of a text at which a refusal points, and below it a mark at the place."""
    if refusal.code[0] != "L" or not refusal.arguments:
        return []
    data, offset = evaluated(command).encode(errors="surrogateescape"), int(refusal.arguments[0])
    start = data.rfind(b"\n", 0, offset) + 1
    line = data[start:].split(b"\n")[0].decode(errors="replace")
    before = data[start:offset].decode(errors="replace")
    return [f"  {line}", f"  {''.join(each if each == chr(9) else ' ' for each in before)}^"]


def unknown_command(session, command, refusal):
    near = difflib.get_close_matches(command.word, session.words, 1, 0.5)
    return [f"`{near[0]}` is one." if near else "`help` lists them."]


def bad_words(session, command, refusal):
    usage = session.usages.get(command.word)
    wants = told_of(read_documents(), command.word)[0]
    told = [f"It is `{usage.words}`{': ' if wants else ''}{'; '.join(wants)}."] if usage else []
    return told + ([BRACKETS] if usage and command.word == "vat" else [])


def not_a_text(session, command, refusal):
    """What to look at first where a script is no program and ends in the midst of one: whether its lines were counted well."""
    if command.word != "vat" or not openness("\n".join(command.script)).is_open:
        return []
    head = command.line.rpartition(")")[0]
    return [f"{len(command.script)} lines were taken for the script, and at their end a bracket or a text is still open.",
            f"`{head})` without a number takes it up to an empty line outside of brackets."]


def unbound(session, command, refusal):
    if refusal.arguments[:1] == ("__return",):
        return ["`return` stands outside of a function, and outside of a method that begins with `to`."]
    nouns = session.world().nouns.get((words_of(command.line)[1:] or [""])[0], []) if command.word == "ask" else []
    return [f"Names that the vat has: {listed(nouns)}."] if nouns else []


def no_vat(session, command, refusal):
    vats = session.world().vats
    return [f"The vats that are there: {listed(vats)}." if vats else "There is none yet: `help vat` tells how one is made."]


def enabled_of(session, word):
    """What may be done now with a message or in a vat."""
    return [f"`{line}`" for line in session.enabled() if word in line.split()[1:]]


def no_message(session, command, refusal):
    found = [f"`{line}`" for line in session.enabled()]
    return [f"May be done now: {listed(found)}." if found else "No message waits: `ask` makes one."]


def elsewhere(session, command, refusal):
    """Where a message is that is not where a command wants it."""
    message = (words_of(command.line)[1:] or [""])[0]
    where = {"flying": "on its way to {}", "at": "at {}", "done": "done: event {} took it"}
    place = session.world().messages.get(message)
    told = [f"{message} is {where[place[0]].format(place[1])}."] if place else []
    found = enabled_of(session, message)
    return told + ([f"May be done now: {found[0]}."] if found else [])


def may_be_done(session, command, refusal):
    words = [*refusal.arguments, *words_of(command.line)[1:2]]
    found = list(dict.fromkeys(line for word in words for line in enabled_of(session, word)))
    return [f"May be done now: {listed(found)}."] if found else ["`enabled` lists what may be done now."]


def no_event(session, command, refusal):
    events = session.events()
    if not events:
        return ["The journal has no event that is not settled."]
    places = [event.line.split()[0] for event in (events[0], events[-1])]
    return [f"It has the positions {places[0]} to {places[1]}; `journal` lists them."]


def not_live(session, command, refusal):
    return [f"`redo {' '.join(with_causes(session.events(), refusal.arguments))}` would make it live again."]


def is_live(session, command, refusal):
    undone = [event.name for event in session.events() if event.name in chosen(command) and not event.is_live]
    return [f"`redo {' '.join(undone)}` leaves out what is live."] if undone else []


def not_closed(session, command, refusal):
    """The undo that takes with it all that came of the events, and what lies between the two that were told."""
    events, names = session.events(), chosen(command)
    first, second = refusal.arguments
    whole = ordered(session, set().union(*(cone(events, name) for name in names)))
    line = f"undo-cone {names[0]}" if len(names) == 1 else f"undo {' '.join(whole)}"
    others = between(events, first, second)
    told = [f"Between them in the journal, as causes: {listed(others)}."] if others else []
    return [f"`{line}` would do: it takes back {listed(whole)}.", *told, *why(session, first, second)]


def cause_missing(session, command, refusal):
    whole = with_causes(session.events(), chosen(command))
    return [f"`redo {' '.join(whole)}` has the causes that are missing.", *why(session, *refusal.arguments)]


def crossed(session, command, refusal):
    """Which of the two that cross has to go first."""
    first, second = refusal.arguments
    live = [event.name for event in session.events() if event.name in (first, second) and event.is_live]
    told = [f"{second} stands before {first} in the journal, and is no cause of it."]
    if live:
        told.append(f"`undo-cone {live[0]}` first: it takes {live[0]} back, with what came of it.")
    else:
        told.append(f"Both were to be redone: leave {first} out, or {second}.")
    return told + why(session, first, second)


def dependent(session, command, refusal):
    return why(session, *refusal.arguments)


def behind_an_undo(session):
    """Which messages wait again that an undone event had taken: a run would take them anew, and so bar a redo."""
    taken = {event.message for event in session.events() if event.message and not event.is_live}
    waiting = [f"`{line}`" for line in session.enabled() if line.split()[1] in taken]
    return [f"May be done anew: {listed(waiting)}. What was undone there could not be redone beside that."] if waiting else []


HELPS = {
    "S1": unknown_command, "S2": bad_words, "L2": not_a_text, "L5": not_a_text, "K1": unbound, "B1": no_vat, "B3": no_message, "B4": elsewhere, "B5": may_be_done,
    "B6": may_be_done, "B7": may_be_done, "B12": no_event, "B13": not_live, "B14": is_live, "B15": not_closed, "B16": crossed,
    "B17": cause_missing, "B18": dependent,
}


def advice(session, command, refusal):
    """What helps next, a sentence in each line; none where nothing is known."""
    found = HELPS.get(refusal.code)
    return found(session, command, refusal) if found else []
