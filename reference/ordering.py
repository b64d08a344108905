"""The order in which messages are delivered. A vat keeps a fence for each reference: the names of the messages that
whatever is sent on the reference comes after. Four rules say what happens to fences; a fence that is empty is no cell."""
from references import end_of
from values import Reference, references_in

EMPTY = frozenset()


def fence_of(home, reference):
    return home.read("fence", reference, EMPTY)


def add_to_fence(home, reference, names):
    """Adds names to the fence of what a reference settles to; the end alone says whether that is a reference.

    The Views of the walk are touched whether there are names or not; the Fence is touched, and written, only where there
    are.
    """
    end = end_of(home, reference)
    if names and isinstance(end, Reference):
        home.write("fence", end, fence_of(home, end) | names)


def send_on(home, target, message):
    """First rule: what the message comes after is the fence of its settled target, which then is the message alone. This
    holds for each reference, also for an object or an ejector of the vat itself; its Object is not touched. A target that
    is no reference has no fence."""
    if not isinstance(target, Reference):
        return EMPTY
    after = fence_of(home, target)
    home.write("fence", target, frozenset({message}))
    return after


def fences_with(home, values):
    """Second rule: each reference in settled values travels with the fence that it has at this moment. The Fence of each is
    touched, an absent one too."""
    found = {reference: fence_of(home, reference) for value in values for reference in references_in(value)}
    return {reference: fence for reference, fence in found.items() if fence}


def receive(home, value, fences):
    """Third rule: the fence that a reference in a value comes in with is added to that of what it settles to here."""
    for reference in references_in(value):
        add_to_fence(home, reference, fences.get(reference, EMPTY))


def enter(home, promise, value):
    """A promise is entered in the view as this value. Fourth rule: its fence is added to that of what the value then settles
    to.

    Touched are the promise's View, its Fence (absent or not), and the Views of the value's walk, whether the fence is empty
    or not; the Fence of what the value settles to only where names are added. The promise keeps its own fence.
    """
    home.write("view", promise, value)
    add_to_fence(home, value, fence_of(home, promise))
