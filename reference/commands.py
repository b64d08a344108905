"""Commands: how the bytes of an input are cut into lines and words, which command a line spells, and what it is answered."""
import re
from itertools import islice

import asking
from reading import RESERVED, Refusal, read
from showing import list_journal, log_of, show
from values import MessageName, PromiseName, quoted, shown

MOST_BYTES, MOST_NAME, MOST_LINES, MOST_NUMBER, MOST_RUNS = 65_536, 64, 4_096, 4_294_967_295, 1_000_000
NAME = re.compile("[A-Za-z_][A-Za-z0-9_]*")


class BadWord(Refusal):
    def __init__(self):
        super().__init__("S2 BadWord")


def lines_of(data):
    """Each line as it stands before its line feed, and without one carriage return there. What stands behind the last line
    feed is a line if it is not empty, and keeps a carriage return."""
    *whole, last = data.split(b"\n")
    return [(it, it.removesuffix(b"\r")) for it in whole] + ([(last, last)] if last else [])


def text_of(line):
    """The text of a line; its length is tested first, with the carriage return before the line feed."""
    with_return, without = line
    if len(with_return) > MOST_BYTES:
        raise Refusal("S3 LineTooLong")
    try:
        return without.decode()
    except UnicodeDecodeError:
        raise BadWord from None


def words_of(text):
    return re.findall("[^ \t]+", text)


def number(word, most=MOST_NUMBER, least=0):
    digits = word.lstrip("0") or "0"
    if not re.fullmatch("[0-9]+", word) or len(digits) > len(str(most)) or not least <= int(digits) <= most:
        raise BadWord
    return int(digits)


def event(word):
    if not word.startswith("e"):
        raise BadWord
    return number(word[1:])


def made(word, letter):
    """The event and the index in a name as `e7.m0`."""
    found = re.fullmatch(rf"e([0-9]+)\.{letter}([0-9]+)", word)
    if not found:
        raise BadWord
    return number(found[1]), number(found[2])


def message(word):
    return MessageName(*made(word, "m"))


def promise(word):
    return PromiseName(*made(word, "p"), vat=None)


def object_made(word):
    """The event and the index of an object; its vat is not named."""
    return made(word, "o")


def vat_name(word):
    if not NAME.fullmatch(word) or word == "_" or word in RESERVED or len(word) > MOST_NAME:
        raise BadWord
    return word


def earlier_vats(words):
    """The names between brackets, which stand against the first and the last of them, or alone as `()`."""
    if words == ["()"]:
        return ()
    joined = " ".join(words)
    if not (joined.startswith("(") and joined.endswith(")")):
        raise BadWord
    names = tuple(map(vat_name, joined[1:-1].split(" ")))
    if len(set(names)) < len(names):
        raise BadWord
    return names


def arguments(words, *kinds):
    """The arguments behind the first word, each by its kind; there must be just as many."""
    if len(words) != len(kinds) + 1:
        raise BadWord
    return [kind(word) for kind, word in zip(kinds, words[1:])]


def script_lines(line):
    """How many lines a line takes as its script."""
    try:
        words = words_of(text_of((line, line.removesuffix(b"\r"))).lstrip(" \t"))
        if words[:1] != ["vat"] or len(words) < 4:
            return 0
        vat_name(words[1]), earlier_vats(words[2:-1])
        return number(words[-1], MOST_LINES)
    except Refusal:
        return 0


class Engine:
    """Answers the lines of an input."""

    def __init__(self, book):
        self.book, self.is_refused, self.waiting = book, False, iter(())

    def answers(self, data):
        """The lines that are answered to an input that is there whole."""
        return self.answer_lines(lines_of(data))

    def answer_lines(self, lines):
        """The lines that are answered. A line of the input is taken where all before it is answered."""
        self.waiting = iter(lines)
        for line in self.waiting:
            yield from self.answer(line)

    def answer(self, line):
        try:
            text = text_of(line).lstrip(" \t")
            if not text or text.startswith("#"):
                return []
            return self.command(text)
        except Refusal as refusal:
            self.is_refused = True
            return [f"no {refusal}"]

    def command(self, text):
        words, book = words_of(text), self.book
        match words[0]:
            case "vat":
                return [self.birth(words)]
            case "ask":
                return [self.ask(text)]
            case "arrive" | "forward" | "turn" as word:
                return [self.act(word, *arguments(words, message))]
            case "learn":
                return [self.act("learn", *arguments(words, vat_name, promise))]
            case "step":
                arguments(words)
                return [self.step() or "idle"]
            case "run":
                return self.steps(*arguments(words, lambda it: number(it, MOST_RUNS)))
            case "work":
                return [self.work(*arguments(words, lambda it: number(it, 64, 1), lambda it: number(it, MOST_RUNS)))]
            case "enabled":
                arguments(words)
                found = [" ".join(map(str, action)) for action in book.enabled()]
                return [f"enabled {len(found)}", *found]
            case "show":
                arguments(words)
                return [*show(book)]
            case "journal":
                arguments(words)
                return [*list_journal(book.journal)]
            case "log":
                return [log_of(book, *arguments(words, vat_name))]
            case "cone":
                return [" ".join(["cone", *(f"e{it.event}" for it in book.journal.cone(*arguments(words, event)))])]
            case "undo":
                return [f"ok undone {book.journal.undo(self.events(words))}"]
            case "undo-cone":
                cone = {it.event for it in book.journal.cone(*arguments(words, event))}
                return [f"ok undone {book.journal.undo(cone)}"]
            case "redo":
                return [f"ok redone {book.journal.redo(self.events(words))}"]
            case "exchange":
                first, second = book.journal.exchange(*arguments(words, number))
                return [f"ok exchanged e{first} e{second}"]
            case "settle":
                position, = arguments(words, number)
                book.journal.settle(position)
                return [f"ok settled {position}"]
        return [*self.asked(words)]

    def asked(self, words):
        """What a question is answered."""
        match words[0]:
            case "why":
                return asking.why(self.book.journal, *arguments(words, event, event))
            case "event":
                return asking.event(self.book.journal, *arguments(words, event))
            case "message":
                return asking.message(self.book, *arguments(words, message))
            case "object":
                made_by, = arguments(words, object_made)
                return asking.object(self.book, *made_by)
        raise Refusal("S1 UnknownCommand")

    def events(self, words):
        """The set of events that are named, one word or more."""
        if len(words) < 2:
            raise BadWord
        return {event(word) for word in words[1:]}

    def birth(self, words):
        """A good line takes its script lines, whatever is refused after; a bad one takes none."""
        if len(words) < 4:
            raise BadWord
        name, earlier = vat_name(words[1]), earlier_vats(words[2:-1])
        count = number(words[-1], MOST_LINES)
        lines = [*islice(self.waiting, count)]
        if len(lines) < count:
            raise Refusal("S4 Truncated")
        script = "\n".join([text_of(line) for line in lines])
        entry, opening = self.book.birth(name, earlier, self.read(script))
        return f"ok e{entry.event} {opening}"

    def ask(self, text):
        """The program is the rest of the line behind the blanks after the name, and may be empty."""
        found = re.fullmatch("ask[ \t]+([^ \t]+)[ \t]*(.*)", text, re.S)
        if not found:
            raise BadWord
        name, program = vat_name(found[1]), self.read(found[2])
        entry, queued = self.book.ask(name, program)
        return f"ok e{entry.event} {queued}"

    def read(self, text):
        return read(text.encode())

    def act(self, word, *names):
        """Does what is enabled, or what a command names."""
        entry, outcome = getattr(self.book, word)(*names)
        if word != "turn":
            return f"ok e{entry.event}"
        told = shown(outcome.told) if outcome.kind == "value" else quoted(outcome.told)
        return f"ok e{entry.event} {outcome.kind} {told}"

    def step(self):
        action = next(self.book.enabled(), None)
        return action and self.act(*action)

    def steps(self, most):
        """Ends with `idle` only where a step found nothing."""
        for _ in range(most):
            reply = self.step()
            yield reply or "idle"
            if not reply:
                return

    def work(self, _, turns):
        """One worker stands for all of them, and takes what is enabled first: one of the orders that are allowed. The count
        of turns is tested before each action."""
        done = 0
        while done < turns and (action := next(self.book.enabled(), None)):
            self.act(*action)
            done += action[0] == "turn"
        return f"ok work {done}"
