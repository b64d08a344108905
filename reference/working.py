"""A vat as a turn works on it: what the turn makes, sends and publishes."""
import itertools

from contents import OPEN, At, Flying, Message, Published, Resolver, Sent, Waiting
from ordering import EMPTY, enter, fences_with, send_on
from references import bring, end_of, has_come, settled
from values import Broken, EjectorName, MessageName, ObjectName, PromiseName, Reference, SlotName, Thrown

MOST_MADE = 4_096


class Abandoned(Exception):
    """Why nothing of the turn remains."""


class Working:
    """The cells of the vat, the steps that are left, and what is kept back until the turn ends: messages, what was
    published, and the records for the log. Slots, objects and messages are counted each by itself (resolvers are objects,
    whens are messages); promises and ejectors are not limited."""

    def __init__(self, home, event, steps):
        self.home, self.event, self.steps = home, event, steps
        self.made = {kind: itertools.count() for kind in (SlotName, ObjectName, EjectorName, PromiseName, MessageName)}
        self.messages, self.published, self.notes = {}, {}, []

    def new_index(self, kind):
        """The index of what is made; where there are too many of its kind the turn is abandoned."""
        index = next(self.made[kind])
        if kind in (SlotName, ObjectName, MessageName) and index >= MOST_MADE:
            raise Abandoned("turn too large")
        return index

    def new_slot(self, value):
        slot = SlotName(self.event, self.new_index(SlotName))
        self.home.write("slot", slot, value)
        return slot

    def new_object(self, content):
        made = ObjectName(self.event, self.new_index(ObjectName), self.home.vat)
        self.home.write("object", made, content)
        return made

    def new_ejector(self):
        return EjectorName(self.event, self.new_index(EjectorName), self.home.vat)

    def new_promise(self, home):
        """A promise that the vat makes comes into it."""
        promise = PromiseName(self.event, self.new_index(PromiseName), home)
        bring(self.home, promise)
        return promise

    def promise_and_resolver(self):
        """The resolver counts as an object, and is counted before the promise is made."""
        index = self.new_index(ObjectName)
        promise = self.new_promise(self.home.vat)
        resolver = ObjectName(self.event, index, self.home.vat)
        self.home.write("object", resolver, Resolver(promise))
        return promise, resolver

    def send(self, receiver, verb, arguments):
        """A promise for the result. In this order: the receiver is settled; the arguments, from the left; the message is
        counted; it gets the fence of the target (first rule); then the arguments' references travel with their fences
        (second rule: an argument that is the target itself travels with this message); the promise is made.

        References in a list that is the target do not travel, so their Fences are not touched. The home of the promise is
        the vat to which the message goes first: that of the target object, ejector or promise. The message is there at once
        where that is this vat, and where the target is data or broken.
        """
        target = settled(self.home, receiver)
        arguments = tuple(settled(self.home, argument) for argument in arguments)
        name = MessageName(self.event, self.new_index(MessageName))
        to = target.vat if isinstance(target, Reference) else self.home.vat
        after = send_on(self.home, target, name)
        content = Sent(target, verb, arguments, fences_with(self.home, arguments))
        result = self.new_promise(to)
        self.messages[name] = Message(content, result, after, At(to) if to == self.home.vat else Flying(to))
        self.notes.append({"kind": "Sent", "message": str(name)})
        return result

    def wait(self, value, node, captured):
        """The promise for the outcome of a `when`. The value's end is taken as the `when` is made, for the log; then the
        message is counted. It comes after nothing, and keeps the value as it was."""
        end = end_of(self.home, value)
        name = MessageName(self.event, self.new_index(MessageName))
        result = self.new_promise(self.home.vat)
        self.messages[name] = Message(Waiting(value, node, captured), result, EMPTY, At(self.home.vat))
        condition = end if isinstance(end, PromiseName) else result
        self.notes.append({"kind": "SentIf", "condition": str(condition), "message": str(name)})
        return result

    def resolve(self, promise, value):
        """A resolver's use: its promise is published as this settled or broken value.

        A promise is resolved by its resolver alone, which belongs to the promise's home, and what is published is entered in
        the view at once. So the View tells whether the resolver was used, and a second use touches the View and neither the
        Board nor a Fence.
        """
        if self.home.read("view", promise) is not OPEN:
            raise Thrown("already resolved")
        self.publish(promise, value)
        self.notes.append({"kind": "Resolved", "condition": str(promise)})

    def publish(self, promise, value):
        """The fences that travel with the value are those of this moment, not of the turn's end, and from before the promise
        is entered. It is entered in the vat's own view only where it has come into the vat; its View is touched, absent or
        not."""
        self.published[promise] = Published(value, fences_with(self.home, [value]))
        if has_come(self.home, promise):
            enter(self.home, promise, value)

    def end_with(self, promise, kind, told):
        """The turn ends with a value, which is settled already, or with a problem, which is entered in the view likewise. A
        turn whose value is broken, by no throw, has no comment."""
        if kind == "problem":
            self.notes.append({"kind": "Comment", "text": told})
        self.publish(promise, told if kind == "value" else Broken(told))
        self.notes.append({"kind": "Resolved", "condition": str(promise)})
