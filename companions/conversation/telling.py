"""An event, a message, or what is named otherwise, in words: what the program tells of it, and what the session knows."""
import re

from .journal import maker_of
from .places import kind_of, turns_in
from .questions import answer_to, cells_in, why_in
from .world import BOARD, MESSAGE, VAT

NO_SUCH_COMMAND = "This program cannot tell more: it does not know the command `{}`."
PLACES = {"flying": "It is on its way to {}.", "at": "It waits at {}.", "done": "{} took it."}
ENDS = {
    "value": "It ended with the value {}.",
    "problem": "It ended with the problem {}. What it wrote before that stays.",
    "abandoned": "It was abandoned: {}. The vat is as it was before.",
}
EVENTS = {
    "birth": "The vat {0} was made. Its script is the message {1}.m0.",
    "ask": "The vat {0} was asked a program, which is the message {1}.m0.",
    "arrive": "The message {0} arrived at {2}.",
    "forward": "The message {0} went on from {2} to where its target leads.",
    "learn": "The vat {0} learnt what the promise {3} was published as.",
    "turn": "The vat {2} took the message {0} and ran it to its end.",
}
LOGGED = {
    "Got": "took the message {message}",
    "Sent": "sent the message {message}",
    "SentIf": "has the message {message} wait for the promise {condition}",
    "Resolved": "resolved the promise {condition}",
    "Comment": "says {text}",
}
NAME = re.compile(r"e\d+(?:\.[mposj]\d+)?")


def titled(event, vat):
    """What an event is, in few words."""
    of = {"birth": "birth of", "ask": "question to", "arrive": "arrival at", "forward": "going on from", "learn": "learning of"}
    return f"{of.get(event.kind, 'turn of')} {vat}"


def text_of(session, name):
    """The lines of the script or of the program that an event brought; none for other events."""
    for each in session.answered:
        if name in session.authored and each.reply[:1] and each.reply[0].startswith(f"ok {name} "):
            return list(each.command.script) if each.command.word == "vat" else each.command.text.split("\n")
    return []


def ended(session, event):
    """How a turn ended, as a sentence."""
    kind, _, rest = session.said().get(event.name, "").partition(" ")
    return [ENDS[kind].format(rest)] if event.kind == "turn" and kind in ENDS else []


def in_words(session, event, vat):
    """An event as sentences."""
    names = [*event.arguments, "", ""]
    told = [EVENTS[event.kind].format(names[0], event.name, vat, names[1]), *ended(session, event)]
    if event.message:
        told.insert(1, f"{maker_of(event.message)} made that message.")
    if not event.is_live:
        told.append("It is undone: the world is as if it had never been.")
    return told


def names_told(session):
    """What vats are called, by their births, and the variables of their top nouns, by their slots."""
    world = session.world()
    variables = {slot: f"{slot} ({noun} in {vat})" for slot, (noun, vat) in world.variables.items()}
    return {event: vat for vat, event in world.vats.items()} | variables


def answer_in_words(session, word, reply):
    """The answer to `why` or `event` in words; nothing for other replies."""
    if word == "why":
        return why_in(reply).sentences(names_told(session))
    if word != "event":
        return []
    names = names_told(session)
    return [cell.sentence(names) for cell in cells_in(reply)]


def event_told(session, event, vat):
    """All that is known of an event of the journal."""
    reply, _ = answer_to(session, f"event {event.name}")
    names = names_told(session)
    cells = [(cell.is_written, cell.in_words(names), str(cell), cell.writer) for cell in cells_in(reply)] if reply else []
    return {
        "name": event.name, "kind": event.kind, "vat": vat, "live": event.is_live, "position": event.position,
        "title": titled(event, vat), "line": event.line, "words": in_words(session, event, vat), "causes": event.causes,
        "text": text_of(session, event.name), "message": message_told(session, event.message) if event.message else None,
        "cells": cells, "log": log_told(session, event, vat) if event.kind == "turn" and event.is_live else [],
        "notes": [] if reply else [NO_SUCH_COMMAND.format("event")],
    }


def log_told(session, event, vat):
    """What the log of its vat says of a turn, in words."""
    for records in turns_in(session.ask(f"log {vat}")):
        if records[0].get("message") == event.message:
            return [LOGGED[kind_of(each)].format(**each) for each in records]
    return []


def message_told(session, name):
    """What is known of a message."""
    place, where = session.world().messages.get(name, ("", ""))
    maker = maker_of(name)
    reply, refusal = answer_to(session, f"message {name}")
    is_authored = name.endswith(".m0") and maker in session.authored
    words = [f"{maker} made it.", PLACES[place].format(where) if place else "It is not in the world now."]
    return {
        "name": name, "title": f"message {name}", "words": words, "text": text_of(session, maker) if is_authored else [],
        "lines": list(reply) if reply and not refusal else [],
        "notes": [] if reply or is_authored else [NO_SUCH_COMMAND.format("message")],
    }


def said_of(session, name):
    """The lines of `show` that name something, with the vat of each."""
    found, vat = [], None
    for line in session.ask("show"):
        if heading := VAT.fullmatch(line):
            vat = heading[1]
        elif MESSAGE.fullmatch(line) or BOARD.fullmatch(line):
            vat = None
        if name in NAME.findall(line):
            found.append((vat, line.strip()))
    return found


def thing_told(session, name):
    """What is known of an object, a promise or a variable."""
    kinds = {"o": "object", "p": "promise", "s": "variable", "j": "ejector"}
    kind, told = kinds[name.partition(".")[2][0]], said_of(session, name)
    reply, refusal = answer_to(session, f"object {name}") if kind == "object" else ((), None)
    published = session.world().promises.get(name)
    words = [f"{maker_of(name)} made it."]
    if kind == "promise":
        words.append(f"It was published as {published}." if published else "Nothing was published for it.")
    return {
        "name": name, "title": f"{kind} {name}", "words": words, "text": [],
        "lines": list(reply) if reply and not refusal else [], "shown": told,
        "notes": [NO_SUCH_COMMAND.format("object")] if reply is None else [],
    }
