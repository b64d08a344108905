"""Sessions that a built program is given command by command, and that the interpreter follows: also what workers did, in whatever
order that was."""
import itertools
import re

from reading import Refusal
from running import brief
from sessions import Session
from showing import list_journal

# No session comes to this event, and none asks for it. Its refusal tells that the reply before it is whole.
MARK, MARKED = "cone e4040404040\n", "no B12 NoEvent e4040404040\n"
WORK = re.compile("work ([1-9]|[1-5][0-9]|6[0-4]) ([0-9]{1,6})")
# An entry of a worker: its name, and the command that does the same.
ENTRY = re.compile(r"[0-9]+ e([0-9]+) live ((?:arrive|forward|learn|turn) .+) causes((?: e[0-9]+)*)")


class Differs(Exception):
    """What the program has otherwise."""


def must(holds, what):
    if not holds:
        raise Differs(what)


def must_be(got, wanted, what):
    for one, other in itertools.zip_longest(got, wanted):
        must(one == other, f"{what}\nwanted: {other}\ngot:    {one}")


class Followed(Session):
    """A session that is given to the program first, whose replies the interpreter must give too. Of workers the interpreter does
    what the program's journal tells. Counted are the works, their turns, those that were entered behind one that began later,
    and those that were dropped."""
    program, most_workers = None, 8
    works = turns = crossed = dropped = 0
    # How many names may have been drawn by turns that were dropped, behind the last event that is known.
    unseen = 0

    def give(self, text):
        self.commands.append(text)
        self.replies += self.work(text) if WORK.fullmatch(text) else self.alike(text)

    def told(self, text):
        """The lines of the program's reply."""
        self.program.give(f"{text}\n{MARK}")
        found = self.program.hear(lambda said: said.endswith(MARKED.encode()))
        must(found.endswith(MARKED), f"the reply to {text} is not whole: {brief(found)}")
        return found.removesuffix(MARKED).split("\n")[:-1]

    def alike(self, text):
        """The reply, of both."""
        got = self.told(text)
        self.leave_names_out(got)
        must_be(got, [*self.engine.answers(f"{text}\n".encode())], f"the reply to {text}")
        return got

    def leave_names_out(self, reply):
        """The name of the next event tells how many were drawn for turns that were dropped."""
        named = next(filter(None, (re.match("ok e([0-9]+)", line) for line in reply)), None)
        if named:
            gap = int(named[1]) - self.book.next
            if 0 < gap <= self.unseen:
                self.book.next += gap
                self.dropped += gap
            self.unseen = 0

    def work(self, text):
        workers, turns = map(int, text.split()[1:])
        reply = self.told(text)
        journal, old, first = self.told("journal"), [*list_journal(self.book.journal)], self.book.next
        must_be(journal[:len(old)], old, f"an entry from before {text}")
        new = [self.enter(line, min(workers, self.most_workers) == 1) for line in journal[len(old):]]
        self.book.next = max([first, *(event + 1 for event, _ in new)])
        taken = [event for event, told in new if told.startswith("turn")]
        self.expect_reply(text, reply, new, taken)
        must_be(journal, list_journal(self.book.journal), f"the journal behind {text}")
        self.count(taken)
        for question in ("show", "enabled"):
            self.alike(question)
        self.end_of_work(new, taken, turns, self.book.next - first - len(new))
        return reply

    def expect_reply(self, text, reply, _, taken):
        must_be(reply, [f"ok work {len(taken)}"], f"the reply to {text}, beside the new turns in its journal")

    def enter(self, line, is_alone):
        """Does on the interpreter what an entry of a worker tells. Answers its event, and the command."""
        found = ENTRY.fullmatch(line)
        must(found, f"no worker does this: {line}")
        event, told, names = int(found[1]), found[2], {it.event for it in self.book.journal.entries}
        must(event not in names, f"its name is there already: {line}")
        must({int(cause[1:]) for cause in found[3].split()} <= names, f"a cause of it is no earlier entry: {line}")
        if is_alone:
            first = f"e{self.book.next} {' '.join(map(str, next(self.book.enabled(), ['nothing'])))}"
            must(f"e{event} {told}" == first, f"one worker does what is enabled first, {first}: {line}")
        self.book.next = event
        try:
            self.engine.command(told)
        except Refusal as refusal:
            raise Differs(f"the interpreter answers no {refusal}: {line}") from None
        return event, told

    def count(self, taken):
        self.works += 1
        self.turns += len(taken)
        self.crossed += sum(event < max(taken[:place]) for place, event in enumerate(taken) if place)

    def end_of_work(self, new, taken, turns, dropped):
        """No more turns are begun than are allowed, and nothing behind the last of them. Where fewer were begun, nothing is
        enabled. A turn that was dropped was begun too; its name is left out. Behind the last entry only the name of the next
        event tells that."""
        unseen = turns - len(taken) - dropped
        must(unseen >= 0, f"{len(taken)} turns and {dropped} that were dropped are more than {turns}")
        if new and not unseen:
            must(max(new)[0] in taken, f"behind {turns} turns this was begun: e{max(new)[0]} {max(new)[1]}")
        self.dropped += dropped
        self.unseen += unseen
        found = " ".join(map(str, next(self.book.enabled(), [])))
        if unseen and found:
            last = self.book.next
            self.alike(f"ask {next(iter(self.book.vats().values()))} null")
            must(self.book.next - 1 - last >= unseen, f"{len(taken)} turns are less than {turns}, and this is enabled: {found}")
