"""What the page may ask of a session: its picture, and what is told of what is chosen there. Nothing of it changes anything."""
from conversation.completion import completions
from conversation.journal import undone_cone, with_causes
from conversation.questions import answer_to, way_by_causes, why_in
from conversation.refusals import in_words
from conversation.replies import refusal_in
from conversation.session import UnknownLabel
from conversation.telling import event_told, message_told, names_told, thing_told
from picture.layout import layout, scene_of
from picture.looks import LOOKS
from picture.svg import picture

from .desk import Refused
from .drawing import drawn

# How many ways are told in which a word may go on.
MOST_WORDS = 400
BY_CAUSES = "This program does not know the command `why`: the steps are causes of the journal, without cells."


class View:
    """The view of a desk. The scene and what was drawn of it are kept as long as nothing happens."""

    def __init__(self, desk):
        self.desk, self.session = desk, desk.session
        self.version, self.scene, self.drawings = None, None, {}

    def asking(self):
        """Sees that the program can be asked something."""
        if self.desk.ended is not None:
            raise Refused("The program has ended.")
        if self.desk.is_at_work:
            raise Refused("The program is at work.")

    def seen(self):
        """The scene as it is now; while the program is at work, or has ended, as it was before."""
        if self.version != self.desk.version and self.desk.ended is None and not self.desk.is_at_work:
            self.scene, self.drawings, self.version = scene_of(self.session), {}, self.desk.version
        if self.scene is None:
            raise Refused("There is no picture yet.")
        return self.scene

    def picture(self, is_folded=True, has_causes=False):
        """The picture for the page."""
        scene, options = self.seen(), (is_folded, has_causes)
        if options not in self.drawings:
            self.drawings[options] = {"version": self.version, **drawn(layout(scene, *options))}
        return self.drawings[options]

    def svg(self, look="light", cone_of=None, is_folded=True, has_causes=False):
        scene = self.seen()
        is_there = any(event.name == cone_of and event.is_live for event in scene.events)
        return picture(scene, cone_of if is_there else None, is_folded, has_causes, LOOKS.get(look, LOOKS["light"]))

    def cone(self, name):
        """The events of a cone, or why there is none."""
        self.asking()
        try:
            reply = self.session.ask(f"cone {self.session.resolved(name)}")
        except UnknownLabel as fault:
            raise Refused(str(fault)) from fault
        refusal = refusal_in(reply)
        return {"events": [] if refusal else reply[0].split()[1:], "told": in_words(refusal) if refusal else None}

    def redo(self, name):
        """What a redo of an event has to redo with it, and what it may: what came of it."""
        scene = self.seen()
        alone = with_causes(scene.events, [name])
        return {"alone": alone, "whole": with_causes(scene.events, undone_cone(scene.events, name) | set(alone))}

    def why(self, first, second):
        """How one event came of another."""
        self.asking()
        reply, refusal = answer_to(self.session, f"why {first} {second}")
        if refusal:
            return {"kind": "refused", "steps": [], "told": in_words(refusal)}
        told = None if reply else BY_CAUSES
        found = why_in(reply) if reply else way_by_causes(self.seen().events, first, second)
        names = names_told(self.session)
        steps = [(each.source, each.target, str(each.cell or ""), each.cell.in_words(names) if each.cell else "")
                 for each in found.steps]
        return {"kind": found.kind, "steps": steps, "told": told}

    def told_of(self, name):
        """All that is known of what has this name."""
        self.asking()
        scene = self.seen()
        if "." in name:
            letter = name.partition(".")[2][0]
            return message_told(self.session, name) if letter == "m" else thing_told(self.session, name)
        found = [event for event in scene.events if event.name == name]
        if not found:
            raise Refused(f"The journal has no event {name} that is not settled.")
        return event_told(self.session, found[0], scene.homes[name])

    def words_for(self, before, text):
        """How a word may go on."""
        if self.desk.ended is not None or self.desk.is_at_work:
            return []
        return completions(self.session, self.desk.usages, before, text)[:MOST_WORDS]
