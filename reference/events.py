"""The six kinds of event: when each is possible, which cells it touches, and what it writes. Each is a function on the cells
that it finds, and refuses where it is not possible; refusals are tried in the order of the text."""
from dataclasses import dataclass, replace

from cells import Home
from checking import check
from contents import OPEN, Asked, At, Done, Flying, Message, Opening, Published, Sent, Vat, Waiting
from deliveries import run
from ordering import EMPTY, enter, receive
from reading import Refusal
from references import bring, end_of
from values import MessageName, PromiseName, Reference

MOST_STEPS = 1_000_000


@dataclass(frozen=True)
class Walk:
    """Where a message's target leads by the board: the end, the fences that were published with it, and the names in the
    fences of the references on the way, the end among them."""
    end: object
    fences: dict
    awaited: frozenset


def walk_from(cells, target):
    """The walk of a message, None in a ring. The Board of each promise on the way is touched, also the absent one at which
    it ends.

    The board alone is followed, so no View is touched. Awaited is the fence that was published with each reference on the
    way, the one at the end among them. The fences of
    references inside of a list at which the walk ends are not awaited, and the target's own fence is not looked up: the
    message has it in what it comes after.
    """
    end, fences, awaited, walked = target, {}, EMPTY, []
    while isinstance(end, PromiseName):
        if end in walked:
            return None
        walked.append(end)
        published = cells.read(("board", end))
        if published is None:
            break
        end, fences = published.value, published.fences
        if isinstance(end, Reference):
            awaited |= fences.get(end, EMPTY)
    return Walk(end, fences, awaited)


def found_vat(cells, name):
    vat = cells.read(("name", name))
    if vat is None:
        raise Refusal(f"B1 NoVat {name}")
    return vat


def found_message(cells, name, *places):
    """The message of this name, where it is in one of these places."""
    message = cells.read(("message", name))
    if message is None:
        raise Refusal(f"B3 NoMessage {name}")
    if not isinstance(message.place, places):
        raise Refusal("B4 NotThere")
    return message


def opening_result(vat):
    return PromiseName(vat, 0, vat)


def birth(cells, event, name, earlier, items):
    """The name must be free; the Name of each earlier vat is touched. Of the vat itself nothing is written but its name
    and its opening message. Its program is checked last."""
    if cells.read(("name", name)) is not None:
        raise Refusal(f"B2 NameTaken {name}")
    numbers = [found_vat(cells, it).number for it in earlier]
    cells.write(("name", name), Vat(event, check(items, own=earlier)))
    content = Opening(items, tuple((it, opening_result(number)) for it, number in zip(earlier, numbers)))
    return queue(cells, event, content, event, EMPTY)


def ask(cells, event, name, items):
    """What is asked comes after the opening message of the vat."""
    vat = found_vat(cells, name)
    check(items, around=vat.top_names)
    return queue(cells, event, Asked(items), vat.number, frozenset({MessageName(vat.number, 0)}))


def queue(cells, event, content, vat, after):
    name = MessageName(event, 0)
    cells.write(("message", name), Message(content, PromiseName(event, 0, vat), after, At(vat)))
    return name


def arrive(cells, name):
    message = found_message(cells, name, Flying)
    cells.write(("message", name), replace(message, place=At(message.place.vat)))


def forward(cells, name):
    """A sent message whose walk ends at an object or an ejector of another vat, or at an open promise whose home is another.
    What is data or broken at the end is delivered where the message is. It keeps its name and what it comes after."""
    message = found_message(cells, name, At)
    if not isinstance(message.content, Sent):
        raise Refusal("B5 NotReady")
    walk = walk_from(cells, message.content.target)
    if walk is None or not isinstance(walk.end, Reference) or walk.end.vat == message.place.vat:
        raise Refusal("B5 NotReady")
    cells.write(("message", name), replace(message, place=Flying(walk.end.vat)))


def learn(cells, vat, promise):
    """A promise that is open in the view, and on the board. A vat may learn of its own promises too: those whose turn was
    abandoned, and those that came into the vat after they were published.

    It is entered in the view, with the fourth rule; the promises in the value come in; then the fences that were published
    with it come in, by the third rule. So where the value has the promise itself in it, that comes in as what it now
    settles to. The event has the vat's number: its Name is not touched, so a birth is no cause of it.
    """
    home = Home(cells, vat)
    if home.read("view", promise) is not OPEN:
        raise Refusal("B7 NothingToLearn")
    published = cells.read(("board", promise))
    if published is None:
        raise Refusal("B7 NothingToLearn")
    enter(home, promise, published.value)
    bring(home, published.value)
    receive(home, published.value, published.fences)


def ready(cells, name):
    """The message, and its walk if it is one that was sent, where it may be delivered.

    Touched are the Board of the walk, or the Views of a when's value, and the message of each name that is awaited. Messages
    of the author and whens have no walk; a when comes after nothing, not even its vat's opening. Where a walk ends,
    or that it does not, is asked before what is awaited on the way.
    """
    message = found_message(cells, name, At)
    vat, walk, awaited = message.place.vat, None, message.after
    match message.content:
        case Sent(target=target):
            walk = walk_from(cells, target)
            if walk is None or isinstance(walk.end, PromiseName):
                raise Refusal("B5 NotReady")
            if isinstance(walk.end, Reference) and walk.end.vat != vat:
                raise Refusal("B5 NotReady")
            awaited = awaited | walk.awaited
        case Waiting(value=value):
            if isinstance(end_of(Home(cells, vat), value), PromiseName):
                raise Refusal("B5 NotReady")
    for first in early(cells, awaited):
        raise Refusal(f"B6 Before {first}")
    return message, walk


def early(cells, awaited):
    """The awaited messages that are not done, in order of name."""
    found = [(it, cells.read(("message", it))) for it in sorted(awaited)]
    return [it for it, message in found if message is None or not isinstance(message.place, Done)]


def turn(cells, event, name, budget):
    """The outcome of a turn, with its vat. Written are the message, those that were sent, and what was published; the vat's
    own cells were written by the turn, unless it was abandoned. No Name is touched."""
    if not 1 <= budget <= MOST_STEPS:
        raise Refusal("B19 BadBudget")
    message, walk = ready(cells, name)
    vat = message.place.vat
    outcome = run(cells, vat, message, walk, event, budget)
    cells.write(("message", name), replace(message, place=Done(event)))
    for sent, content in outcome.messages.items():
        cells.write(("message", sent), content)
    for promise, published in outcome.published.items():
        cells.write(("board", promise), published)
    return vat, outcome
