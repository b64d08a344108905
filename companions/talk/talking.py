"""The talk: what is typed goes to the program, and what helps is told behind its replies."""
import contextlib
from dataclasses import replace

from building.place import RUN
from conversation.advice import advice, behind_an_undo, pointed
from conversation.commands import is_command, words_of
from conversation.files import ANYWHERE, FileFault, write
from conversation.journal import JournalFault
from conversation.program import Ended, Stopped, TooMuch
from conversation.refusals import in_words
from conversation.replies import events_in, refusal_in
from conversation.session import UnknownLabel
from conversation.telling import answer_in_words
from conversation.typed import NotTyped, Typed, typed, written

from .consoles import File
from .helping import help_on, usages_of

DOING, UNDOING = {"step", "run", "turn", "work"}, {"undo", "undo-cone"}
MOST_TOLD, LONGEST_TOLD = 40, 110
# Behind so many events the journal takes too long to be asked for after each command.
MOST_SEEN = 2_000


class Quit(Exception):
    """The talk is to end."""


def shortened(line):
    return line if len(line) <= LONGEST_TOLD else line[: LONGEST_TOLD - 3] + " .."


class Talk:
    """A session with a console. What is told besides the replies is told at a terminal alone."""

    def __init__(self, session, console):
        self.session, self.console = session, console
        # Which files the commands may name that are being done.
        self.files = ANYWHERE
        self.seen, self.faults = set(), 0
        # The label for the event of the command in hand, and what that takes back.
        self.label, self.undone = None, []
        ours = (self.help, self.save, self.load, self.labels, self.stop, self.quit)
        self.own = {**{each.__name__: each for each in ours}, "exit": self.quit}
        session.own_words = tuple(self.own)

    @property
    def is_loading(self):
        return bool(self.files.loading)

    def begin(self, file=None):
        """Does the commands of a file, if one is named, and then those of the console."""
        with contextlib.suppress(Quit):
            if file:
                self.attempt(lambda: self.load(file))
            self.converse(self.console)

    def converse(self, source):
        """Does what a source has, until it ends."""
        while self.attempt(lambda: self.do_next(source)):
            pass

    def do_next(self, source):
        """Does the next command; tells whether there was one."""
        line = source.first()
        if line is not None:
            self.do(line, source.more)
        return line is not None

    def attempt(self, act):
        """Does something, and gives what it gives; tells what is wrong with it. Control-C drops it, or the whole file that is
        being loaded."""
        try:
            return act()
        except KeyboardInterrupt:
            if not self.console.is_terminal or self.is_loading:
                raise
            self.console.drop()
        except Stopped:
            if self.is_loading:
                raise
            self.tell_stopped()
        except Ended as ended:
            if self.is_loading or not self.console.is_terminal:
                raise
            self.begin_again(ended)
        except (NotTyped, FileFault, UnknownLabel, JournalFault, TooMuch) as fault:
            self.fault(str(fault))
        except MemoryError:
            self.fault("there was not memory enough for that; `stop` starts the program again")
        return True

    def fault(self, text):
        self.faults += 1
        self.console.fault(text)

    def do(self, line, more):
        """Does a line that was typed, with those that belong to it."""
        if not is_command(line):
            return
        words = words_of(line) or [""]
        with self.console.waiting():
            self.catch_up(words[0])
        if words[0] in self.own and words[0] not in self.session.usages:
            return self.own[words[0]](line.strip()[len(words[0]):].strip())
        given = typed(line, more, self.files)
        if given.command.word not in ("ask", "vat"):
            given = Typed(replace(given.command, line=self.session.resolved(given.command.line)), given.label)
        self.give(given)

    def catch_up(self, word):
        """Shows the reply that was still to come."""
        if word != "stop" and (late := self.session.catch_up()):
            self.console.tell([f"the reply to `{shortened(late.command.line)}`:"])
            self.answer(late)

    def give(self, given):
        self.label = given.label
        with self.console.waiting():
            self.undone = self.cone_of(given.command)
            self.answer(self.session.give(given.command))

    def cone_of(self, command):
        """The events that an `undo-cone` will take back, where that is told; nothing where it is refused."""
        if command.word != "undo-cone" or not self.console.is_terminal:
            return []
        reply = self.session.ask(f"cone{command.line.removeprefix('undo-cone')}")
        return [] if refusal_in(reply) else reply[0].split()[1:]

    def name_event(self, answered):
        """Gives the event of a reply the label that was typed behind its command, if one was."""
        label, self.label = self.label, None
        if label and not self.session.label(label, answered):
            self.console.tell([f"${label} stands for nothing: the reply names no event, or several"])

    def answer(self, answered):
        """Shows a reply, and tells what was done, or what a refusal means and what helps next."""
        left_out = self.session.program.left_out
        self.console.say(answered.reply)
        if left_out:
            self.fault(f"the reply was too long: {left_out:,} bytes in its midst were left out")
        self.name_event(answered)
        self.seen.update(made := events_in(answered.reply))
        if not self.console.is_terminal:
            return
        with contextlib.suppress(Stopped, TooMuch):
            self.tell_about(answered, made)

    def tell_about(self, answered, made):
        """Tells what a refusal means and what helps next, or what a reply says in words."""
        refusal, word = answered.refusal, answered.command.word
        if refusal:
            self.console.tell([in_words(refusal) or "A refusal.", *pointed(answered.command, refusal)])
            self.console.tell(advice(self.session, answered.command, refusal))
        elif word in DOING:
            self.tell_done(made, word)
        elif word in UNDOING:
            self.console.tell([f"`redo {' '.join(self.undone)}` would bring it back."] if self.undone else [])
            self.console.tell(behind_an_undo(self.session) if len(self.seen) <= MOST_SEEN else [])
        else:
            told = answer_in_words(self.session, word, answered.reply)
            self.console.tell(map(shortened, told[:MOST_TOLD]))
            self.console.tell([f"{len(told) - MOST_TOLD} more stand above"] if len(told) > MOST_TOLD else [])

    def tell_done(self, made, word):
        """Tells the lines of the journal for the events that a command made."""
        new = self.lines_for(made[:MOST_TOLD], word)
        more = max(len(made), len(new)) - min(len(new), MOST_TOLD)
        self.console.tell(map(shortened, new[:MOST_TOLD]))
        self.console.tell([f"`journal` lists {more} more"] if more else [])

    def lines_for(self, made, word):
        """The journal's lines for these events; of what workers did, which they do not name, for all that were not seen."""
        if "event" in self.session.usages and word != "work":
            return [self.session.ask(f"event {name}")[0] for name in made]
        if len(self.seen) > MOST_SEEN or not made and word != "work":
            return []
        names = {line.split(" ", 2)[1]: line for line in self.session.ask("journal") if not line.startswith("base ")}
        wanted = [name for name in names if name not in self.seen] if word == "work" else made
        self.seen.update(names)
        return [names[name] for name in wanted if name in names]

    def tell_stopped(self):
        """Tells what the program is still at. What was pasted behind it would wait for that too, and is not done."""
        self.console.tell([self.at_work()])
        if count := self.console.forget():
            self.console.tell([f"what was pasted behind it is dropped: {count} {'line' if count == 1 else 'lines'}"])

    def at_work(self):
        under_way = self.session.under_way
        line = f"`{shortened(under_way.line)}`" if under_way else "a question"
        return f"the program is still at {line}; its reply comes before that of the next command, and `stop` ends it"

    def begin_again(self, ended):
        """Starts the program again that has ended."""
        other = self.session.begin_anew()
        told = f"The program has ended: {ended}.\nIt was started again, with the commands before this one.".split("\n")
        self.console.tell([*told, *self.otherwise(other)])

    def otherwise(self, command):
        return [f"`{shortened(command.line)}` was answered otherwise than before."] if command else []

    def help(self, rest):
        self.console.tell(help_on(rest.split(" ")[0], usages_of(self.session)))

    def save(self, rest):
        if not rest:
            return self.fault("`save` wants the name of a file")
        path, is_there = self.files.to_write(rest)
        # Where a loaded file names it, nobody has seen the folder.
        name = path if self.is_loading else rest
        if is_there and not self.console.agrees(f"{name} is there: write over it?"):
            return self.fault(f"{name} is there, and stays as it is")
        commands = self.session.accepted()
        write(path, name, "".join(map(written, commands)).encode(errors="surrogateescape"), is_there)
        return self.console.tell([f"{len(commands)} commands are in {name}: `{RUN} {name}` does them again"])

    def load(self, rest):
        if not rest:
            return self.fault("`load` wants the name of a file")
        before = self.files
        data, self.files = self.files.load(rest)
        try:
            self.converse(File(data, self.console.show))
        finally:
            self.files = before
        return None

    def labels(self, _):
        self.console.tell([f"${label} {event}" for label, event in self.session.labels.items()] or ["there is no label"])

    def stop(self, _):
        if not self.session.program.is_busy:
            return self.console.tell(["The program is at no command."])
        command = self.session.under_way
        other = self.session.begin_anew()
        told = f"`{shortened(command.line)}` was ended: all is as before it." if command else "It was started again."
        return self.console.tell([told, *self.otherwise(other)])

    def quit(self, _):
        raise Quit
