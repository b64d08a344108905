"""The world, the journal and the log as texts."""
import json

from cells import listed
from contents import OPEN, At, Done, Flying, Resolver
from values import EjectorName, ObjectName, PromiseName, SlotName, shown

FENCED = (PromiseName, ObjectName, EjectorName)


def show(book):
    world, names = book.world, book.vats()
    for number, name in names.items():
        yield f"vat {name} e{number}"
        yield from vat_lines(world, number)
    for message, content in listed(world, "message"):
        yield message_line(names, message, content)
    for promise, published in listed(world, "board"):
        yield f"board {promise} = {shown(published.value)}"


def message_line(names, message, content):
    """Where a message is, among vats by number."""
    match content.place:
        case Flying(vat):
            return f"msg {message} flying {names[vat]}"
        case At(vat):
            return f"msg {message} at {names[vat]}"
        case Done(event):
            return f"msg {message} done e{event}"


def object_text(content):
    return f"resolver {content.promise}" if isinstance(content, Resolver) else content.node.pattern or "_"


def vat_lines(world, number):
    for name, meaning in listed(world, "top", number):
        yield f" noun {name} = " + (f"slot {meaning}" if isinstance(meaning, SlotName) else shown(meaning))
    for slot, value in listed(world, "slot", number):
        yield f" slot {slot} = {shown(value)}"
    for made, content in listed(world, "object", number):
        yield f" object {made} {object_text(content)}"
    for promise, known in listed(world, "view", number):
        yield f" view {promise} open" if known is OPEN else f" view {promise} = {shown(known)}"
    fences = {cell[2]: fence for cell, fence in world.items() if cell[:2] == ("fence", number)}
    for reference in sorted(fences, key=lambda it: (FENCED.index(type(it)), it.event, it.index)):
        yield f" fence {reference}: {' '.join(map(str, sorted(fences[reference])))}"


def list_journal(journal):
    if journal.settled:
        yield f"base {journal.settled}"
    for position, entry in enumerate(journal.entries[journal.settled:], journal.settled + 1):
        yield line_of(journal, position, entry)


def line_of(journal, position, entry):
    mark = "live" if entry.is_live else "undone"
    causes = "".join(f" e{it.event}" for it in journal.among(entry.causes))
    return f"{position} e{entry.event} {mark} {entry.told} causes{causes}"


def log_of(book, loop):
    """The records of the live turns of the vat of this name that are not settled. Turns are numbered in the journal's present
    order, those that are settled as well. There are none where there is no such vat."""
    numbers = {name: number for number, name in book.vats().items()}
    settled = {it.event for it in book.journal.entries[:book.journal.settled]}
    turns = [it for it in book.journal.entries if it.is_live and it.vat is not None and it.vat == numbers.get(loop)]
    records = [record_of(loop, turn, number, note)
               for turn, entry in enumerate(turns, 1) if entry.event not in settled for number, note in enumerate(entry.notes)]
    return json.dumps(records, ensure_ascii=False, separators=(",", ":"))


def record_of(loop, turn, number, note):
    """A record with its keys in the order of bytes."""
    kinds = [f"org.ref_send.log.{kind}" for kind in (note["kind"], "Event")]
    anchor = {"number": number, "turn": {"loop": loop, "number": turn}}
    told = {key: note[key] for key in ("condition", "message", "text") if key in note}
    return {"anchor": anchor, "class": kinds, **told}
