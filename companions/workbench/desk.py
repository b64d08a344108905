"""A session as the page has it: what was typed waits in a row, and replies are told with what helps."""
import contextlib
import functools
import time
from collections import deque
from dataclasses import replace

from building.place import RUN
from conversation.advice import advice, pointed
from conversation.commands import is_command, words_of
from conversation.files import ANYWHERE, FileFault, write
from conversation.helping import help_on, row
from conversation.places import MOST_LOOKED_AT
from conversation.program import Ended, Stopped, TooMuch
from conversation.refusals import in_words
from conversation.replies import events_in, refusal_in
from conversation.session import UnknownLabel
from conversation.typed import NotTyped, Typed, typed, written
from conversation.usages import usages_in
from conversation.world import read_world

OWN = f"""\
Commands, one a line:
  help [COMMAND]            all commands; or one, or a refusal by its code, as `help B15`
  save FILE                 writes the commands so far that were not refused, as `{RUN} FILE` takes them; for `work` its turns
  load FILE                 does the commands of a file, which may name files of its own folder alone
  labels                    lists the labels of events
  stop                      ends a command that is still at work, as if it had not been given
"""
# How long a request may last, before the page hears that the program is still at work.
SLICE = 0.5
# How much of a reply is shown.
MOST_LINES, LONGEST_LINE = 400, 100_000
# The commands of the workbench that name a file.
NAMING_A_FILE = {"save", "load"}
TAKING_BACK, DOING = {"undo", "undo-cone"}, {"step", "run"}


class Refused(Exception):
    """Why a request has no answer, in words."""


class Desk:
    """A session, the commands that wait, and the rows of the transcript."""

    def __init__(self, session, about):
        self.session, self.about = session, about
        self.waiting, self.asked, self.rows, self.version, self.label = deque(), 0, [], 0, None
        # How the program ended, if it did; what it said last of what may be done; what the command in hand takes back.
        self.ended, self.now, self.undone = None, {"enabled": [], "vats": []}, []
        # The version of which it was told that it is too much to be shown.
        self.unshown = None
        self.own = {each.__name__: each for each in (self.help, self.save, self.load, self.labels, self.stop)}
        session.own_words = tuple(self.own)

    def type(self, text, is_whole=True, files=ANYWHERE):
        """Takes what was typed: one command or several, each with its lines; `files` are those that they may name. Where it may
        be cut off and the last command wants more lines, nothing is taken, and what they are is told."""
        lines, taken, wanted = deque(line.removesuffix("\r") for line in text.split("\n")), [], []

        def more(what):
            if not lines:
                wanted.append(what)
            return lines.popleft() if lines else None

        while lines:
            line = lines.popleft()
            if is_command(line):
                taken.append(self.read(line, more, files))
        if wanted and not is_whole:
            return wanted[0]
        self.waiting.extend(taken)
        self.asked += len(taken)
        return None

    @property
    def usages(self):
        """The commands of the workbench and of its program, by their first words."""
        return {**usages_in(OWN), **self.session.usages}

    def read(self, line, more, files):
        """What a line begins: a command of the program, one of the workbench, or a fault."""
        words = words_of(line) or [""]
        if words[0] in self.own and words[0] not in self.session.usages:
            named = [files] if words[0] in NAMING_A_FILE else []
            return functools.partial(self.own[words[0]], " ".join(words[1:]), *named)
        try:
            return typed(line, more, files)
        except (NotTyped, FileFault) as fault:
            return functools.partial(self.tell, [line], [str(fault)], is_fault=True)

    def advance(self, seconds=SLICE):
        """Goes on with what waits, for a while."""
        limit = time.monotonic() + seconds
        try:
            while (left := limit - time.monotonic()) > 0 and self.ended is None and self.advance_once(left):
                pass
        except Stopped:
            pass
        except Ended as ended:
            self.end(ended)
        if not (self.waiting or self.session.program.is_busy):
            self.asked = 0

    def advance_once(self, seconds):
        """Hears what is still to come, or gives the next command; tells whether there was one."""
        if self.session.program.is_busy:
            late = self.session.catch_up(seconds)
        elif self.waiting:
            given = self.waiting.popleft()
            late = self.give(given, seconds) if isinstance(given, Typed) else given()
        else:
            return False
        if late:
            self.answer(late)
        return True

    def give(self, given, seconds):
        command = given.command
        try:
            if command.word not in ("ask", "vat"):
                command = replace(command, line=self.session.resolved(command.line))
        except UnknownLabel as fault:
            self.tell(command.lines, [str(fault)], is_fault=True)
            return None
        self.label, self.undone = given.label, []
        if command.word in TAKING_BACK and not self.waiting:
            self.undone = self.taken_back(command)
        return self.session.give(command, seconds)

    def taken_back(self, command):
        """The events that a command takes back, if it is not refused."""
        if command.word == "undo":
            return words_of(command.line)[1:]
        reply = self.session.ask(f"cone{command.line.removeprefix('undo-cone')}")
        return [] if refusal_in(reply) else reply[0].split()[1:]

    def answer(self, answered):
        """Adds a reply to the transcript, with what helps behind a refusal."""
        self.version += 1
        told, refusal, label = [], answered.refusal, self.label
        if label and not self.session.label(label, answered):
            told.append(f"${label} stands for nothing: the reply names no event, or several")
        if refusal:
            told += [in_words(refusal) or "A refusal.", *pointed(answered.command, refusal)]
            told += self.advice(answered.command, refusal)
        reply = [line if len(line) <= LONGEST_LINE else f"{line[:LONGEST_LINE]} .." for line in answered.reply[:MOST_LINES]]
        if len(answered.reply) > MOST_LINES:
            told.append(f"{len(answered.reply) - MOST_LINES:,} more lines were replied; they are not shown here")
        marks = [word for word in refusal.arguments if word[:1] == "e" and word[1:].isdigit()] if refusal else []
        undone = [] if refusal else self.undone
        self.rows.append({"lines": answered.command.lines, "reply": reply, "told": told, "code": refusal and refusal.code,
                          "marks": marks, "undone": undone, "did": self.done_by(answered)})
        self.label, self.undone = None, []

    def advice(self, command, refusal):
        """What helps behind a refusal; nothing amid other commands, or where that takes too much."""
        with contextlib.suppress(TooMuch):
            return [] if self.waiting else advice(self.session, command, refusal)
        return []

    def done_by(self, answered):
        """What the events of a reply were that its command does not name; nothing in a long session, or amid other commands."""
        made = events_in(answered.reply)[:MOST_LINES]
        if answered.command.word not in DOING or not made or self.waiting or self.session.places.count > MOST_LOOKED_AT:
            return {}
        with contextlib.suppress(TooMuch):
            return {event.name: " ".join((event.kind, *event.arguments)) for event in self.session.events() if event.name in made}
        return {}

    def tell(self, lines, told, is_fault=False):
        """Adds what the workbench itself says."""
        code = "fault" if is_fault else None
        self.rows.append({"lines": lines, "reply": [], "told": told, "code": code, "marks": [], "undone": [], "did": {}})

    def end(self, ended):
        """The program has ended: nothing is asked of it until it is begun again."""
        self.ended, self.asked = str(ended), 0
        self.waiting.clear()
        self.version += 1

    @property
    def is_at_work(self):
        return bool(self.waiting) or self.session.program.is_busy

    def look_whether_it_runs(self):
        """Notes that the program ended of which nothing is being heard."""
        if self.ended is None and self.session.program.process.poll() is not None:
            self.end(Ended(self.session.program.end()))

    def begin_again(self):
        """Starts the program again with the commands so far."""
        other = self.session.begin_anew()
        self.ended, self.version = None, self.version + 1
        self.waiting.clear()
        told = ["The program was started again with the commands before."]
        self.tell([], told + ([f"`{other.line}` was answered otherwise than before."] if other else []))

    def clear(self):
        """Begins an empty session."""
        self.session.answered = []
        self.session.labels.clear()
        self.waiting.clear()
        self.session.begin_anew()
        self.ended, self.version, self.asked, self.rows = None, self.version + 1, 0, []

    def help(self, word):
        lines = help_on(word.split(" ")[0], self.usages) if word else [row(each) for each in self.usages.values()]
        self.tell([f"help {word}".strip()], lines)

    def labels(self, _):
        self.tell(["labels"], [f"${name} {event}" for name, event in self.session.labels.items()] or ["there is no label"])

    def save(self, rest, files=ANYWHERE):
        try:
            write(files.to_write(rest)[0], rest, self.saved())
            self.tell([f"save {rest}"], [f"the commands are in {rest}: `{RUN} {rest}` does them again"])
        except FileFault as fault:
            self.tell([f"save {rest}"], [str(fault)], is_fault=True)

    def load(self, rest, files=ANYWHERE):
        """Does the commands of a file before those that wait."""
        try:
            data, of_file = files.load(rest)
        except FileFault as fault:
            self.tell([f"load {rest}"], [str(fault)], is_fault=True)
            return
        waiting, self.waiting = self.waiting, deque()
        self.type(data.decode(errors="surrogateescape"), files=of_file)
        self.waiting.extend(waiting)

    def stop(self, _):
        """Ends the command that is at work, and forgets those that wait."""
        self.waiting.clear()
        if not self.session.program.is_busy:
            self.tell(["stop"], ["The program is at no command."])
            return
        command = self.session.under_way
        other = self.session.begin_anew()
        self.version += 1
        told = [f"`{command.line}` was ended: all is as before it." if command else "The program was started again."]
        self.tell(["stop"], told + ([f"`{other.line}` was answered otherwise than before."] if other else []))

    def saved(self):
        """The commands so far that were not refused, as the program takes them."""
        return "".join(map(written, self.session.accepted())).encode(errors="surrogateescape")

    def look(self):
        """Sees what may be done now; what takes its time is heard later, and what is too much is told."""
        try:
            world = read_world(self.session.ask("show", SLICE))
            enabled = [(line, world.messages.get(line.split()[1], ("", ""))[1]) for line in self.session.enabled()]
            self.now = {"enabled": enabled, "vats": list(world.vats)}
        except TooMuch as fault:
            if self.unshown != self.version:
                self.unshown = self.version
                self.tell([], [f"What there is now cannot be shown: {fault}."], is_fault=True)
        except Stopped:
            pass

    def at_hand(self):
        """The command or the question that the program is at."""
        under_way = self.session.under_way
        return under_way.line if under_way else self.session.question

    def state(self, since=0):
        """What the page has to know now, with the rows of the transcript behind so many."""
        if self.ended is None and not self.is_at_work:
            self.look()
        return {
            **self.now, "version": self.version, "rows": self.rows[since:], "count": len(self.rows), "ended": self.ended,
            "busy": self.at_hand(), "asked": self.asked, "waiting": len(self.waiting),
            "commands": len(self.session.answered) - self.session.refusals, "about": self.about,
        }
