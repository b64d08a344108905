"""The lines of an input as commands: where a script ends, and what a command says."""
import re
from dataclasses import dataclass

from .texts import on_one_line

NAME = r"[A-Za-z_][A-Za-z_0-9]*"
ASK = re.compile(rf"ask[ \t]+{NAME}(?:[ \t]+(.*))?", re.DOTALL)
RESERVED = set(
    "_ def var method to return if else while for in escape try catch when true false null throw Ref".split()
)
MOST_NAME, MOST_LINE, MOST_SCRIPT = 64, 65_536, 4_096


@dataclass(frozen=True)
class Command:
    """A command's line and, of a vat, its script, with how many lines it is to have."""

    line: str
    script: tuple = ()
    wanted: int = 0
    start: int = 0

    @property
    def is_complete(self):
        return len(self.script) == self.wanted

    @property
    def lines(self):
        return (self.line, *self.script)

    @property
    def word(self):
        return re.split(r"[ \t]", self.line, maxsplit=1)[0]

    @property
    def text(self):
        """What is to be evaluated, on one line."""
        asked = ASK.fullmatch(self.line)
        return asked[1] or "" if asked else on_one_line("\n".join(self.script))


def lines_of(text):
    """The lines of an input or of replies. Only a line feed ends one."""
    lines = [line.removesuffix("\r") for line in text.split("\n")]
    return lines[:-1] if lines[-1] == "" else lines


def words_of(line):
    return [word for word in re.split(r"[ \t]+", line) if word]


def is_readable(line):
    """Whether the program reads a line, which is a text and not too long."""
    try:
        return len(line.encode()) <= MOST_LINE
    except UnicodeEncodeError:
        return False


def is_command(line):
    """Whether the program answers a line: one that it reads and that is blank or a comment has no answer."""
    rest = line.lstrip(" \t")
    return not is_readable(line) or bool(rest) and not rest.startswith("#")


def is_vat_name(word):
    return re.fullmatch(NAME, word) is not None and word not in RESERVED and len(word) <= MOST_NAME


def are_earlier(words):
    """Whether words are the earlier vats of a vat, in brackets."""
    joined = " ".join(words)
    if joined == "()":
        return True
    names = joined[1:-1].split(" ")
    is_bracketed = joined.startswith("(") and joined.endswith(")")
    return is_bracketed and all(map(is_vat_name, names)) and len(set(names)) == len(names)


def script_length(line):
    """How many lines behind this one are the script of a vat."""
    words = words_of(line)
    if words[:1] != ["vat"] or len(words) < 4 or not is_readable(line):
        return 0
    digits = words[-1].lstrip("0") or "0"
    if not re.fullmatch("[0-9]+", words[-1]) or len(digits) > len(str(MOST_SCRIPT)) or int(digits) > MOST_SCRIPT:
        return 0
    return int(digits) if is_vat_name(words[1]) and are_earlier(words[2:-1]) else 0


def command_at(lines, place):
    """The command that begins at a place, with as much of its script as is there."""
    wanted = script_length(lines[place])
    return Command(lines[place].lstrip(" \t"), tuple(lines[place + 1 : place + 1 + wanted]), wanted, place)


def commands_of(lines):
    """The commands that these lines are, one after another."""
    commands, place = [], 0
    while place < len(lines):
        if is_command(lines[place]):
            commands.append(command_at(lines, place))
            place += commands[-1].wanted
        place += 1
    return commands
