"""The commands that do again what a session did, of what workers did each by itself, in the order of the journal."""
import re
from dataclasses import dataclass, replace

from .commands import Command
from .journal import NAMING_A_VAT
from .replies import events_in, refusal_in

NAMED = re.compile(r"e0*([0-9]+)((?:\.[mpo][0-9]+)?)")
# Words of commands that name vats, or are a program.
WITHOUT_EVENTS = {"vat", "ask", "log"}


@dataclass(frozen=True)
class Step:
    """A command, and the events that it made."""

    command: Command
    events: tuple


@dataclass(frozen=True)
class Answered:
    """A command that was given, and the lines of its reply; of `work` also what the workers did, where that is known."""

    command: Command
    reply: tuple
    worked: tuple | None = None

    @property
    def refusal(self):
        return refusal_in(self.reply)

    @property
    def steps(self):
        """What does it again."""
        return self.worked if self.worked is not None else (Step(self.command, tuple(events_in(self.reply))),)

    @property
    def accepted(self):
        """The same without what was refused; of a run that was refused in its midst the steps before that."""
        if not self.refusal:
            return self.steps
        made = tuple(events_in(self.reply))
        return (Step(Command(f"run {len(made)}"), made),) if made else ()


def step_of(event):
    """The command that does an event of the journal which a worker did."""
    return Step(Command(" ".join((event.kind, *event.arguments))), (event.name,))


def renamed(command, names):
    """A command with the names that events have now."""
    if command.word in WITHOUT_EVENTS:
        return command
    kept = 2 if command.word in NAMING_A_VAT else 1
    words = command.line.split()
    others = [each if (name := new_name(each, names)) is None else name for each in words[kept:]]
    return command if others == words[kept:] else replace(command, line=" ".join([*words[:kept], *others]))


def new_name(word, names):
    """The name that something has now, if its event has another name than before."""
    found = NAMED.fullmatch(word)
    event = f"e{found[1]}" if found else None
    return names[event] + found[2] if names.get(event, event) != event else None


def commands_again(answered):
    """The commands that do a session again. There events have names one after another, but with workers a name may be left
    out, or be drawn before one whose event comes first."""
    names, commands = {}, []
    for step in (step for each in answered for step in each.accepted):
        commands.append(renamed(step.command, names))
        for event in step.events:
            names[event] = f"e{len(names) + 1}"
    return commands
