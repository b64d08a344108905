"""Commands as people type them: texts on several lines or from a file, scripts that are not counted, labels of events."""
import re
from dataclasses import dataclass

from .commands import MOST_LINE, NAME, Command, is_readable, lines_of, script_length
from .files import ANYWHERE
from .texts import Openness, on_one_line, without_label

# What the next lines are, as it is told to who types them.
SCRIPT = "the script: an empty line outside of brackets ends it"
COUNTED = "the lines of the script, as many as were said"
ASKED = "the program goes on until its brackets are closed; an empty line gives it as it is"
# The same where the text is longer than the program reads one.
TOO_LONG = f"it has more than {MOST_LINE:,} bytes, and is left out up to its end"

VAT = re.compile(r"(vat[ \t]+\S+[ \t]+\([^()]*\))(?:[ \t]+(.*))?", re.DOTALL)
ASK = re.compile(rf"(ask[ \t]+{NAME})[ \t]+(.*)", re.DOTALL)


class NotTyped(Exception):
    """A command that was not typed to its end, or that is too long."""


@dataclass(frozen=True)
class Typed:
    """A command for the program, with the label that its event is to have, if it is to have one."""

    command: Command
    label: str | None = None


class Growing:
    """The lines of a text, as far as a text may be long; of one that is longer nothing is kept."""

    def __init__(self, *lines):
        # No line feed stands before the first line.
        self.lines, self.bytes, self.openness = [], -1, Openness()
        for line in lines:
            self.take(line)

    @property
    def is_too_long(self):
        return self.bytes > MOST_LINE

    def take(self, line):
        self.bytes += 1 + len(line.encode(errors="surrogatepass"))
        self.openness.take(line)
        self.lines.append(line)
        if self.is_too_long:
            self.lines.clear()

    def wants(self, what):
        """What the next line is, as it is told to who types it."""
        return TOO_LONG if self.is_too_long else what

    def whole(self):
        """The lines, if they are not too long."""
        if self.is_too_long:
            raise NotTyped(f"the text has {self.bytes:,} bytes, and may have {MOST_LINE:,}")
        return tuple(self.lines)


def script_of(more):
    """The lines of a script up to an empty one outside of all brackets, or to the end of the input."""
    text = Growing()
    while (line := more(text.wants(SCRIPT))) is not None and (line.strip() or text.openness.is_open):
        text.take(line)
    return text.whole()


def script_in(file, files):
    """The lines of a script that stands in a file."""
    return Growing(*lines_of(files.text_of(file))).whole()


def counted(head, script):
    """A vat with the number of its lines; the program takes no script where it refuses that line."""
    line = f"{head} {len(script)}"
    return Command(line, script, len(script)) if script_length(line) else Command(line)


def with_its_lines(line, more):
    """A vat whose lines were counted by its author."""
    wanted, script = script_length(line), []
    while len(script) < wanted:
        if (further := more(COUNTED)) is None:
            raise NotTyped(f"the input ended behind {len(script)} of the {wanted} lines of the script")
        script.append(further)
    return Command(line, tuple(script), wanted)


def typed_vat(head, rest, more, files):
    text, label = without_label(rest)
    if text.startswith("@"):
        return Typed(counted(head, script_in(text[1:], files)), label)
    if not text:
        return Typed(counted(head, script_of(more)), label)
    return Typed(with_its_lines(f"{head} {text}", more), label)


def typed_ask(head, text, more, files):
    if text.startswith("@"):
        file, label = without_label(text)
        return Typed(Command(f"{head} {on_one_line(chr(10).join(script_in(file[1:], files)))}"), label)
    asked = Growing(text)
    while asked.openness.brackets and (line := more(asked.wants(ASKED))) is not None and line.strip():
        asked.take(line)
    text, label = without_label("\n".join(asked.whole()))
    return Typed(Command(f"{head} {on_one_line(text) if chr(10) in text else text}"), label)


def typed(line, more, files=ANYWHERE):
    """The command that a line begins; `more` is told what the next line is, and gives it, or nothing at the input's end. `files`
    are those that the command may name."""
    if not is_readable(line):
        return Typed(Command(line))
    line = line.lstrip(" \t")
    if found := VAT.fullmatch(line):
        return typed_vat(found[1], found[2] or "", more, files)
    if found := ASK.fullmatch(line):
        return typed_ask(found[1], found[2], more, files)
    text, label = without_label(line)
    return Typed(with_its_lines(text, more), label)


def written(command):
    """The lines of a command as the program takes them."""
    return "".join(f"{line}\n" for line in command.lines)
