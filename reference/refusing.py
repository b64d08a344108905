"""Requests for memory that the built program is refused one by one, and what it may do then."""
import argparse
import random
import re
import time
from collections import Counter
from dataclasses import dataclass, field
from functools import cache, lru_cache

from following import MARK, MARKED, WORK, Differs, Followed, must
from refused import Refuser, Waiting
from running import Conversation, brief, bytes_of
from texts import Broken, commands_of

# What is asked behind a command: all that it may have changed.
QUESTIONS = "show\njournal\n"
OUT_OF_MEMORY = "evats: out of memory\n"
WANT, WANT_OF_READING, NO_WORKER = "no B20 Memory\n", "no L7 Memory\n", "no S7 NoWorker\n"
# How a command ends for which memory was refused: it is answered as ever; the reply says want of memory; or the run ends, since
# there was no room for a line of the input.
USUAL, TOLD, AT_LINE = "answered as ever", "answered by want of memory", "ended at a line"
# Of `work`: workers did something or nothing, and what they did is possible.
FOLLOWED = "workers were followed"
FAILED, LEFT_OUT = "failed", "left out"
KINDS = (LEFT_OUT, USUAL, TOLD, FOLLOWED, AT_LINE, FAILED)
NOT_BEHIND = "the run ended, and not just what stands before was answered"
GOES_ON = "room for a line was refused, and the run did not end for want of memory"
AT_NO_LINE = "the run ended though no room for a line was refused"


def shifted(text, least, by):
    """A text in which each event from one on has a later name."""
    return text if not by else re.sub(r"\be([0-9]+)\b", lambda it: f"e{int(it[1]) + by * (int(it[1]) >= least)}", text)


@lru_cache(64)
def next_event(state):
    """An event that is none of those in a text, and all later ones."""
    return 1 + max(map(int, re.findall(r"\be([0-9]+)\b", state)), default=0)


class Trial:
    """A command before which a program waits, and for which memory is refused. Then it is asked what there is, the command is
    given again, and the same is asked."""

    def __init__(self, waiting, command):
        self.waiting, self.command = waiting, command
        self.word = next(iter(command.split()), "")
        self.plain = cache(self.plain)

    def run(self, first, refused=0, is_on=False):
        """How a run ends in which this stands in the place of the command."""
        given = MARK.join([first, QUESTIONS, self.command, QUESTIONS, ""])
        return self.waiting.run(given, len(bytes_of(first)), refused, is_on)

    def told(self):
        return self.waiting.refuser.told()

    def plain(self, first):
        """What is replied where no memory is refused: to this, to the questions, to the command, and to the questions."""
        ended = self.run(first)
        *parts, rest = ended.out.split(MARKED)
        must(ended.status == 1 and not ended.err and len(parts) == 4 and not rest,
             f"without a refusal {ended.ending}, and said {brief(ended.out)}{brief(ended.err)}")
        return parts

    def asked(self):
        """How many requests for memory the command makes; asked before all else."""
        self.plain(self.command)
        asked, *_ = self.told()
        self.plain("")
        return asked

    def done(self, reply):
        """How a command ended that gave this reply; what it did, as if that had been given in its place; what it said beside."""
        usual, *_ = self.plain(self.command)
        *steps, last = reply.splitlines(keepends=True) or [""]
        if reply == usual:
            return USUAL, self.command, ""
        is_want = last == WANT and self.word != "exchange" or last == WANT_OF_READING and self.word in ("ask", "vat")
        must(is_want, f"the reply is neither the usual one nor want of memory\nwanted: {brief(usual)}got:    {brief(reply)}")
        return TOLD, f"run {len(steps)}\n" if self.word == "run" else "", last

    def judged(self, ended):
        """How the command ended for which memory was refused; differs where that may not be."""
        _, _, refused_in_line = self.told()
        if (ended.status, ended.err) == (2, OUT_OF_MEMORY):
            must(refused_in_line, AT_NO_LINE)
            must(not ended.out, f"{NOT_BEHIND}: {brief(ended.out)}")
            return AT_LINE
        must(not refused_in_line, GOES_ON)
        must(ended.status == 1 and not ended.err, f"{ended.ending}, and said {brief(ended.out)}{brief(ended.err)}")
        kind, first, said = self.done(ended.out.partition(MARKED)[0])
        before, *behind = self.plain(first)
        least = next_event(behind[0])
        # A turn that is refused may have drawn its name.
        for lost in (0, 1) if said and self.word in ("turn", "step", "run") else (0,):
            wanted = MARKED.join([before + said, *(shifted(it, least, lost) for it in behind), ""])
            if ended.out == wanted:
                return kind
        wanted = MARKED.join([before + said, *behind, ""]).splitlines()
        raise Differs(f"{kind}, and then otherwise:\n{ended.otherwise(wanted, 1)}")

    def refuse(self, number, is_on):
        """How the command ends where this request is refused; nothing where it did not come to it."""
        ended = self.run(self.command, number, is_on)
        if not self.told()[1]:
            return None
        return self.judged(ended)


class Given(Conversation):
    """A conversation that counts the bytes that were given."""
    given = 0

    def give(self, command):
        self.given += len(bytes_of(command))
        super().give(command)


class Worked(Followed):
    """A session of which a `work` is refused memory. Workers may have done something or nothing; the interpreter does the
    same, and goes on with the program."""
    is_refused, lost = False, 0

    def expect_reply(self, text, reply, new, taken):
        if not (self.is_refused and not new and reply in ([WANT.strip()], [NO_WORKER.strip()])):
            super().expect_reply(text, reply, new, taken)

    def end_of_work(self, new, taken, turns, dropped):
        """Where memory was refused, workers may end before all is done, and any turn may be lost with its name."""
        if self.is_refused:
            self.lost = turns
            self.unseen += turns
        else:
            super().end_of_work(new, taken, turns, max(0, dropped - self.lost))


class WorkTrial:
    """The same of `work`, which comes to another world each time, and so behind all that stands before it."""

    def __init__(self, words, refuser, before, command):
        self.words, self.refuser, self.before, self.command = words, refuser, before, command
        parser = argparse.ArgumentParser()
        parser.add_argument("--budget", type=int, default=10_000)
        parser.add_argument("--workers", type=int, default=8)
        self.options = parser.parse_args(words[1:])

    def followed(self, number, is_on):
        """What differs in the run in which a request is refused, whether the last reply was whole, how the run ended, and
        what was told of requests."""
        session, found = Worked(self.options.budget), None
        session.most_workers = self.options.workers
        self.refuser.watch(0, 0)
        with Given(self.words, environment=self.refuser.environment) as session.program:
            try:
                for command in commands_of(bytes_of(self.before)):
                    session.give(command.removesuffix("\n"))
                start = session.program.given
                self.refuser.watch(start, start + len(bytes_of(self.command)), number, is_on)
                session.is_refused = number > 0
                session.give(self.command.removesuffix("\n"))
                session.is_refused = False
                session.give(self.command.removesuffix("\n"))
            except Differs as differs:
                found = str(differs)
            is_whole = not session.program.said or session.program.said.endswith(MARKED)
            return found, is_whole, session.program.end(), self.refuser.told()

    def asked(self):
        found, _, ended, told = self.followed(0, False)
        must(not found and ended.status == 1, f"without a refusal {ended.ending}, and {found}")
        return told[0]

    def refuse(self, number, is_on):
        found, is_whole, ended, (_, refused, refused_in_line) = self.followed(number, is_on)
        if not refused:
            return None
        if found and (ended.status, ended.err) == (2, OUT_OF_MEMORY):
            must(refused_in_line, AT_NO_LINE)
            must(is_whole, f"{NOT_BEHIND}: {found}")
            return AT_LINE
        must(not refused_in_line, GOES_ON)
        must(not found and ended.status == 1 and not ended.err, f"{found or ''}\n{ended.ending}; {brief(ended.err)}")
        return FOLLOWED


@dataclass(frozen=True)
class Limits:
    """How much is tried with a program: how many requests of a command at most, chosen by chance, and until when."""
    program: str
    seed: int
    most: float
    end: float


@dataclass
class Found:
    """How often memory was refused, by how the commands ended, and what may not be."""
    counts: Counter = field(default_factory=Counter)
    faults: list = field(default_factory=list)

    def add(self, other):
        self.counts.update(other.counts)
        self.faults += other.faults

    def refusals(self):
        return self.counts.total() - self.counts[LEFT_OUT]


def chosen(asked, most, seed):
    """The requests that are refused of so many: all, or so many of them by chance."""
    if asked <= most:
        return range(1, asked + 1)
    return sorted(random.Random(seed).sample(range(1, asked + 1), most))


def is_work(command):
    return bool(WORK.fullmatch(command.removesuffix("\n")))


def trial_of(waiting, earlier, command):
    """The trial of a command behind others; none where it has another world to begin with each time."""
    before = "".join(earlier)
    if is_work(command):
        return WorkTrial(waiting.words, waiting.refuser, before, command)
    if any(map(is_work, earlier)):
        return None
    waiting.go_to(len(bytes_of(before)))
    return Trial(waiting, command)


def kind_of(trial, number, is_on):
    """How a command ends for which memory is refused, and what may not be, if there is something."""
    try:
        return trial.refuse(number, is_on), ""
    except Differs as differs:
        return FAILED, f"request {number} {'and all behind it' if is_on else 'alone'} refused for {brief(trial.command)}{differs}"


def try_command(trial, name, limits, found):
    """Refuses memory for a command, one request alone and then with all behind it, as long as there is time."""
    try:
        asked = trial.asked()
    except Differs as differs:
        found.faults.append(f"{name}: {brief(trial.command)}{differs}")
        return
    requests = chosen(asked, limits.most, f"{limits.seed} {name}")
    found.counts[LEFT_OUT] += 2 * (asked - len(requests))
    for is_on in (False, True):
        for number in requests:
            is_late = time.monotonic() > limits.end
            kind, fault = (LEFT_OUT, "") if is_late else kind_of(trial, number, is_on)
            found.counts[kind] += kind is not None
            found.faults += [f"{name}: {fault}"] if fault else []


# That of this process.
refuser = None


def begin(library):
    """Begins a process that refuses memory by the library."""
    global refuser
    refuser = Refuser(library)


def try_session(limits, case):
    """What was found in a session."""
    found, earlier = Found(), []
    if isinstance(case, Broken):
        found.faults.append(f"{case.name}: {case.why}")
        return found
    commands = commands_of(case.commands)
    with Waiting([limits.program, *case.arguments], refuser, commands) as waiting:
        for place, command in enumerate(commands, 1):
            trial = time.monotonic() < limits.end and trial_of(waiting, earlier, command)
            earlier.append(command)
            if trial:
                try_command(trial, f"{case.name}, command {place}", limits, found)
    return found
