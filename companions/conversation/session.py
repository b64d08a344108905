"""A session with the program: the commands so far with their replies, and what the program says that there is now."""
import contextlib
import functools
import re
from dataclasses import replace

from .again import Answered, commands_again, renamed, step_of
from .commands import words_of
from .journal import read_journal
from .places import MOST_LOOKED_AT, Places
from .program import Program, Stopped, TooMuch, help_of
from .replies import ends_in, events_in
from .usages import usages_in
from .world import read_world

# Commands behind which the journal no longer tells which events the workers made before.
HIDING_WORK = {"work", "exchange", "settle"}
LABEL = re.compile(r"\$([A-Za-z_][A-Za-z_0-9]*)")
# How long a question may take that nobody typed.
SECONDS = 60


class UnknownLabel(Exception):
    """A label that no event has."""


class Session:
    """What was said to a program and by it. Questions that change nothing are asked beside it and not noted."""

    def __init__(self, words, is_watched=False):
        self.program_words, self.program = list(words), Program(words)
        self.labels = {}
        self.forget()
        # Where events happen; it is looked for only in a session of which a picture is wanted.
        self.is_watched = is_watched
        # A file that ends each wait once it can be read, if there is one.
        self.stopper = None
        # The first words of commands that whoever asks answers by itself.
        self.own_words = ()

    def __enter__(self):
        return self

    def __exit__(self, *_):
        self.program.stop()

    def forget(self):
        """Forgets all that was said."""
        self.answered, self.under_way, self.told = [], None, {}
        # The question that is being asked; how many entries the journal has, if that is known; and which command workers did of
        # whose entries nothing is known yet, with how many there were before.
        self.question, self.entries, self.unseen = None, 0, None
        self.texts, self.authored, self.places = {}, {}, Places()
        # The journal as it was asked for last, and its events.
        self.journal = None, []

    @functools.cached_property
    def usages(self):
        """The commands that the program's help tells, by their first words."""
        return usages_in(help_of(self.program_words[0]))

    @property
    def words(self):
        """The first words of all commands that may be typed."""
        return [*self.usages, *self.own_words]

    @property
    def refusals(self):
        """How many commands were refused."""
        return sum(each.refusal is not None for each in self.answered)

    def give(self, command, seconds=None):
        """Gives a command, and notes it with its reply."""
        self.catch_up(seconds)
        if command.word in HIDING_WORK:
            self.note_work()
        if self.is_watched:
            self.places.look_before(self, command)
        self.under_way, self.told = command, {}
        self.program.give(command.lines)
        return self.catch_up(seconds)

    def catch_up(self, seconds=None):
        """Hears the reply that is still to come, if there is one, and notes it with its command, and gives both; or with its
        question."""
        if not self.program.is_busy:
            return None
        reply = self.program.hear(self.stopper, seconds)
        command, question = self.under_way, self.question
        self.under_way = self.question = None
        if question:
            self.told[question] = None if self.program.left_out else reply
        if command is None:
            return None
        self.note(Answered(command, reply))
        # Where that takes long it waits until it is wanted.
        if command.word == "work" and (self.entries or 0) <= MOST_LOOKED_AT:
            with contextlib.suppress(Stopped):
                self.note_work()
        return self.answered[-1]

    def note(self, answered):
        """Notes a command with its reply: what a birth or an ask says, and what turns end with."""
        self.answered.append(answered)
        command, made = answered.command, events_in(answered.reply)
        if command.word in ("vat", "ask") and made:
            self.texts[made[0]] = command.text
            self.authored[made[0]] = words_of(command.line)[1]
        self.texts.update(ends_in(answered.reply))
        self.count(made, command.word == "work" and answered.refusal is None)

    def count(self, made, is_work):
        """Counts the entries of the journal, as long as they are told."""
        if self.entries is None or self.program.left_out or is_work and self.unseen:
            self.entries = self.unseen = None
            return
        self.entries += len(made)
        if is_work:
            self.unseen = len(self.answered) - 1, self.entries

    def note_work(self):
        """Notes what workers did by the last `work`, as the journal tells it: the reply does not."""
        if self.unseen is None or self.entries is None or self.program.is_busy:
            return
        place, before = self.unseen
        with contextlib.suppress(TooMuch):
            events = self.events()
            end = events[-1].position - (self.entries - before) if events else before
            done = [step_of(event) for event in events if before < event.position <= end]
            self.answered[place] = replace(self.answered[place], worked=tuple(done))
            self.entries += len(done)
            self.unseen = None

    def ask(self, line, seconds=SECONDS):
        """The reply to a question, which is kept until the next command. Nothing is asked while the program is at work."""
        if line not in self.told:
            if self.program.is_busy:
                raise Stopped("the program is at work")
            self.question = line
            self.program.give([line])
            self.catch_up(seconds)
        if self.told[line] is None:
            raise TooMuch(f"the reply to `{line}` is too long to be looked at")
        return self.told[line]

    def events(self, seconds=SECONDS):
        """The events of the journal that are not settled, in its order."""
        lines = self.ask("journal", seconds)
        if self.journal[0] is not lines:
            self.journal = lines, read_journal(lines)
        return self.journal[1]

    def world(self):
        """What `show` says."""
        return read_world(self.ask("show"))

    def enabled(self):
        """The commands that may be done now, but those that make vats or ask."""
        return self.ask("enabled")[1:]

    def label(self, name, answered):
        """Gives an event a label, if the reply made just one, and tells whether it did."""
        made = events_in(answered.reply)
        if len(made) == 1:
            self.labels[name] = made[0]
        return len(made) == 1

    def resolved(self, line):
        """A line with the events that its labels stand for."""
        unknown = [name for name in LABEL.findall(line) if name not in self.labels]
        if unknown:
            raise UnknownLabel(f"no event has the label ${unknown[0]}")
        return LABEL.sub(lambda found: self.labels[found[1]], line)

    def said(self):
        """What each event has to say: a birth or an ask its text, a turn its end."""
        return {**self.places.ends, **self.texts}

    def look(self):
        """The events of the journal with the vat of each."""
        self.places.look(self)
        events = self.events()
        return events, self.places.homes(events)

    def accepted(self):
        """The commands that do again what was done so far, without those that were refused."""
        self.note_work()
        return commands_again(self.answered)

    def begin_anew(self):
        """Ends the program and starts it again with the commands so far. Gives the first one that is answered otherwise than
        before, or nothing."""
        self.program.stop()
        before, names, others = self.answered, {}, []
        self.program = Program(self.program_words)
        self.forget()
        for each in before:
            for step in each.steps:
                again = self.give(renamed(step.command, names))
                names.update(zip(step.events, events_in(again.reply)))
                is_same = len(events_in(again.reply)) == 1 if each.worked is not None else again.reply == each.reply
                others += [] if is_same else [step.command]
        self.labels.update((label, names.get(event, event)) for label, event in self.labels.items())
        return others[0] if others else None
