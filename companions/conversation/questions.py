"""What the replies to `why`, `event`, `message` and `object` say; not every program answers these."""
import re
from collections import deque
from dataclasses import dataclass

from .replies import refusal_in

CELL = re.compile(r" (read|wrote) (\S+) (.*) (e\d+|-)")
STEP = re.compile(r" (e\d+) (e\d+) (\S.*)")
UNKNOWN_COMMAND = "S1"


@dataclass(frozen=True)
class Cell:
    """A cell as the program writes it, in words, what an event did to it, and the event that had written it last."""

    kind: str
    names: tuple
    is_written: bool = False
    writer: str | None = None

    def in_words(self, names):
        """The cell in words; `names` are what vats and variables are called."""
        sentence = SENTENCES.get(self.kind)
        if sentence is None or len(self.names) < sentence.count("{"):
            return " ".join((self.kind, *self.names))
        first, *rest = self.names
        return sentence.format(names.get(first, first), *rest)

    def sentence(self, names):
        """What an event did to the cell, and which one had written it before."""
        before = f"which {self.writer} had written" if self.writer else "which nothing had written before"
        return f"it {'wrote' if self.is_written else 'read'} {self.in_words(names)}, {before}"

    def __str__(self):
        return " ".join((self.kind, *self.names))


SENTENCES = {
    "vat": "the name {0} of a vat",
    "noun": "the name {1} in {0}",
    "slot": "the variable {0}",
    "object": "the object {0}",
    "view": "what {0} knows of {1}",
    "fence": "what comes before the next message on {1} from {0}",
    "msg": "the message {0}",
    "board": "what {0} was published as",
}


@dataclass(frozen=True)
class Step:
    """One event came of another by a cell; by which one is not always told."""

    source: str
    target: str
    cell: Cell | None = None

    def sentence(self, names):
        """The step in words, where its cell is told."""
        return f"{self.target} touched {self.cell.in_words(names)}, which {self.source} wrote"


@dataclass(frozen=True)
class Why:
    """How one event came of another: a chain of steps, a cell at which both meet, or nothing."""

    kind: str
    steps: tuple

    def sentences(self, names):
        """The program's answer in words; `names` are what vats and variables are called."""
        if self.kind == "chain":
            return [step.sentence(names) for step in self.steps]
        met = [f"both {step.source} and {step.target} touched {step.cell.in_words(names)}, and one of them wrote it"
               for step in self.steps]
        return ["neither came of the other", *met]


def cell_of(words):
    kind, *names = words.split(" ")
    return Cell(kind, tuple(names))


def answer_to(session, line):
    """The reply to a question, or nothing where the program does not know the command; and the refusal, if it is one."""
    reply = session.ask(line)
    refusal = refusal_in(reply)
    return (None, None) if refusal and refusal.code == UNKNOWN_COMMAND else (reply, refusal)


def cells_in(reply):
    """The cells of which the reply to `event` tells."""
    found = [CELL.fullmatch(line) for line in reply[1:]]
    return [Cell(each[2], tuple(each[3].split(" ")), each[1] == "wrote", None if each[4] == "-" else each[4])
            for each in found if each]


def why_in(reply):
    """What the reply to `why` says."""
    last = reply[0].split()[-1]
    found = [STEP.fullmatch(line) for line in reply[1:]]
    steps = tuple(Step(each[1], each[2], cell_of(each[3])) for each in found if each)
    return Why(last if last in ("crossed", "none") else "chain", steps)


def way_by_causes(events, first, last):
    """A shortest chain from the earlier of two events to the later one along the causes of journal lines, which tell no cells
    but the message that the one made and the other one took."""
    by_name = {event.name: event for event in events}
    order = {event.name: place for place, event in enumerate(events)}
    first, last = sorted((first, last), key=order.__getitem__)
    after, waiting = {last: None}, deque([last])
    while waiting and first not in after:
        event = waiting.popleft()
        for cause in reversed(by_name[event].causes):
            if cause in by_name and cause not in after:
                after[cause] = event
                waiting.append(cause)
    if first == last or first not in after:
        return Why("none", ())
    steps, event = [], first
    while after[event]:
        steps.append(Step(event, after[event], message_between(event, by_name[after[event]])))
        event = after[event]
    return Why("chain", tuple(steps))


def message_between(source, target):
    """The cell of a message that the one event made and the other one took."""
    is_taken = target.message and target.message.partition(".")[0] == source
    return Cell("msg", (target.message,)) if is_taken else None
