"""A turn: one message delivered to its vat, from what it brings in to what it publishes."""
from dataclasses import dataclass

from cells import Home
from contents import Asked, Opening, Published, Sent, Waiting
from evaluation import Scope, Turn
from ordering import receive
from references import bring, end_of, settled
from values import Broken, Thrown
from working import Abandoned


@dataclass(frozen=True)
class Outcome:
    """How the turn ended, with what it told; the messages that it sent, what it published, and its records for the log."""
    kind: str
    told: object
    messages: dict
    published: dict
    notes: list


def delivered(turn, content, walk):
    """The value of a delivery. The items of the program, of a when's block and of a delivered method stand at the first
    level; the delivery itself costs no step."""
    match content:
        case Opening(items, earlier):
            # Each earlier vat's noun stands for the promise of that vat's opening, which comes in. No Name is touched.
            scope = Scope(is_script=True)
            for name, promise in earlier:
                bring(turn.home, promise)
                turn.bind(scope, name, promise)
            return turn.items(scope, items, 1)
        case Asked(items):
            return turn.items(Scope(), items, 1)
        case Waiting(value, node, captured):
            end = end_of(turn.home, value)
            if not isinstance(end, Broken):
                return turn.block(None, node.block, 1, captured)
            if node.handler is None:
                raise Thrown(end.problem)
            return turn.block(None, node.handler, 1, [*captured, (node.pattern, end.problem)])
        case Sent(_, verb, arguments, fences):
            # The arguments come in, then a list at which the walk ends, with the fences that were published with it. A
            # list that is the target itself, without a walk, comes in again with no fences: the Views of its references'
            # walks are touched. All come in before the verb is looked up, also where the end is broken, is data, or has no
            # such verb. An object at which the walk ends does not come in: its published fence was awaited, and is not
            # added to the vat's.
            come_in(turn.home, arguments, fences)
            if isinstance(walk.end, tuple):
                come_in(turn.home, walk.end, walk.fences)
            return turn.call(walk.end, verb, arguments, 1)


def come_in(home, value, fences):
    """The promises in a value come in, then the fences of its references, each for what the reference settles to here."""
    bring(home, value)
    receive(home, value, fences)


def run(cells, vat, message, walk, event, budget):
    """The outcome of a message's turn. What the turn touches and writes of its vat is kept by the cells.

    A turn that ends with a problem keeps what it wrote, sent and published until then, and publishes its result as broken.
    Of an abandoned turn nothing is kept but what it touched: its result is not entered in the view, and its View is not
    touched.
    """
    turn = Turn(Home(cells, vat), event, budget)
    try:
        try:
            kind, told = "value", settled(turn.home, delivered(turn, message.content, walk))
        except Thrown as problem:
            kind, told = "problem", str(problem)
        turn.end_with(message.result, kind, told)
        return Outcome(kind, told, turn.messages, turn.published, turn.notes)
    except Abandoned as abandoned:
        cells.written.clear()
        reason = str(abandoned)
        notes = [{"kind": "Comment", "text": reason}, {"kind": "Resolved", "condition": str(message.result)}]
        return Outcome("abandoned", reason, {}, {message.result: Published(Broken(reason), {})}, notes)
