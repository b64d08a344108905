"""What a vat knows of promises: its view, the end of a value in it, and settled forms."""
from contents import OPEN
from values import MOST_LISTS, MOST_WEIGHT, Broken, PromiseName, Reference, Thrown, own_weight, promises_in

ABSENT = object()


def end_of(home, value):
    """Where a value leads in the vat's view: while it is a promise that the vat knows resolved, to that resolution.

    It touches the View of each promise on the way, each once, in order: also that of the open promise at which it ends. In a
    ring each promise of the ring is touched, there is no end, and the value counts as the unresolved promise that it is: so
    a ring gives the value that it began with.
    """
    walked, at = [], value
    while isinstance(at, PromiseName):
        if at in walked:
            return value
        walked.append(at)
        known = home.read("view", at, OPEN)
        if known is OPEN:
            return at
        at = known
    return at


def settled(home, value):
    """The end of a value, and in a list that of each item, at every depth, from the left.

    One running weight is kept over the items in the order of the text, a list's own 1 before its items. It stops at the
    first part that passes a limit, so the Views behind that part are not touched; those on the way to it are.
    """
    total = 0

    def settle(part, lists_around):
        nonlocal total
        end = end_of(home, part)
        is_list = isinstance(end, tuple)
        total += own_weight(end)
        if total > MOST_WEIGHT or is_list and lists_around == MOST_LISTS:
            raise Thrown("value too large")
        return tuple(settle(item, lists_around + 1) for item in end) if is_list else end

    return settle(value, 0)


def state_of(home, value):
    """What `Ref.state` tells of a value."""
    match end_of(home, value):
        case Broken():
            return "broken"
        case PromiseName():
            return "promise"
        case Reference(vat=vat) if vat != home.vat:
            return "far"
    return "near"


def has_come(home, promise):
    """Whether a promise has come into the vat. It touches its View."""
    return home.read("view", promise, ABSENT) is not ABSENT


def bring(home, value):
    """The promises in a value come into the vat: the View of each is touched, and written open where it is absent."""
    for promise in promises_in(value):
        if not has_come(home, promise):
            home.write("view", promise, OPEN)
