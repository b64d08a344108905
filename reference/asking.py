"""What an author asks of a journal and a world: why an event came of another, which cells an event touched, what a message
delivers, what is in an object."""
from cells import listed
from contents import Asked, Opening, Resolver, Sent, Waiting
from reading import Refusal
from showing import FENCED, message_line, object_text, line_of
from spelling import block, bound, method, program
from values import SlotName, shown

KINDS = {"name": "vat", "top": "noun", "slot": "slot", "object": "object", "view": "view", "fence": "fence", "message": "msg",
         "board": "board"}


def order_of(cell):
    """Cells go by kind, then by name; references promises first, then objects, then ejectors."""
    name = cell[-1]
    own = name.encode() if isinstance(name, str) else (FENCED.index(type(name)) if type(name) in FENCED else 0, name.event, name.index)
    return [*KINDS].index(cell[0]), own


def cell_text(cell):
    kind, *vat, name = cell
    return " ".join([KINDS[kind], *(f"e{it}" for it in vat if kind in ("top", "view", "fence")), str(name)])


def touched_by(entry):
    return sorted(entry.touched, key=order_of)


def writer_of(journal, entry, cell):
    """The last of an entry's causes that wrote a cell: what became of it since does not matter."""
    return next((it for it in reversed(journal.among(entry.causes)) if cell in it.written), None)


def open_entries(journal, events):
    """The entries of these events, none of which is settled."""
    found = []
    for event in events:
        entries = journal.among({event})
        if not entries:
            raise Refusal(f"B12 NoEvent e{event}")
        found += entries
    journal.expect_open(it for it in found if it in journal.entries[:journal.settled])
    return found


def event(journal, name):
    entry, = open_entries(journal, [name])
    yield line_of(journal, journal.entries.index(entry) + 1, entry)
    for cell in touched_by(entry):
        writer = writer_of(journal, entry, cell)
        yield f" {'wrote' if cell in entry.written else 'read'} {cell_text(cell)} {f'e{writer.event}' if writer else '-'}"


def step_text(first, second, cell):
    return f" e{first.event} e{second.event} {cell_text(cell)}"


def why(journal, name, other):
    found = open_entries(journal, [name, other])
    first, last = sorted(found, key=journal.entries.index)
    chain = first is not last and nearest_chain(journal, first, last)
    head = f"why e{name} e{other}"
    if chain:
        yield f"{head} {len(chain) - 1}"
        yield from (step_text(one, two, first_link(journal, one, two)) for one, two in zip(chain, chain[1:]))
        return
    crossed = [it for it in touched_by(last) if it in first.touched and (it in first.written or it in last.written)]
    if first is last or not crossed:
        yield f"{head} none"
    else:
        yield f"{head} crossed"
        yield step_text(first, last, crossed[0])


def writers(journal, entry):
    """The writers of the cells that an entry touched."""
    return [it for it in (writer_of(journal, entry, cell) for cell in entry.touched) if it]


def first_link(journal, first, second):
    return next(it for it in touched_by(second) if writer_of(journal, second, it) is first)


def nearest_chain(journal, first, last):
    """A shortest chain of writers from one entry to a later one; of several that whose last entry but one stands last in the
    journal, then the one before it, and so on. How far an entry is, is known before that of what came of it."""
    place = journal.entries.index
    far = {first.event: 0}
    for entry in journal.entries[place(first) + 1:place(last) + 1]:
        near = [far[it.event] for it in writers(journal, entry) if it.event in far]
        if near:
            far[entry.event] = min(near) + 1
    if last.event not in far:
        return []
    chain = [last]
    while chain[0] is not first:
        before = [it for it in writers(journal, chain[0]) if far.get(it.event) == far[chain[0].event] - 1]
        chain.insert(0, max(before, key=place))
    return chain


def captured_lines(captured):
    for name, meaning in captured:
        yield f" {name} = " + (f"slot {meaning}" if isinstance(meaning, SlotName) else shown(meaning))


def message(book, name):
    content = book.world.get(("message", name))
    if content is None:
        raise Refusal(f"B3 NoMessage {name}")
    yield message_line(book.vats(), name, content)
    yield "".join([" after", *(f" {it}" for it in sorted(content.after))])
    yield from delivered(content.content)


def delivered(content):
    match content:
        case Opening(items):
            yield f" opening {program(items)}".rstrip(" ")
        case Asked(items):
            yield f" asked {program(items)}".rstrip(" ")
        case Sent(target, verb, arguments):
            yield f" sent {shown(target)} <- {verb}({', '.join(map(shown, arguments))})"
        case Waiting(value, node, captured):
            handler = "" if node.handler is None else f" catch {bound(node.pattern)} {block(node.handler)}"
            yield f" when {shown(value)} -> {block(node.block)}{handler}"
            yield from captured_lines(captured)


def object(book, event, index):
    """Commands name an object without its vat, which is the one that made it."""
    for number, vat in book.vats().items():
        for made, content in listed(book.world, "object", number):
            if (made.event, made.index) == (event, index):
                yield f"object {made} {object_text(content)}"
                yield f" at {vat}"
                if not isinstance(content, Resolver):
                    yield from captured_lines(content.captured)
                    yield from (f" {method(it)}" for it in content.node.methods)
                return
    raise Refusal(f"B23 NoObject e{event}.o{index}")
