"""The commands that the program's own help tells, each with the words that it takes."""
import re
from dataclasses import dataclass

LINE = re.compile(r"  (\S+(?: \S+)*)  +(\S.*)")
HEAD = "Commands, one a line:"


@dataclass(frozen=True)
class Usage:
    """A command as the help writes it: its first word, what stands for its other words, and what it does."""

    words: str
    does: str

    @property
    def word(self):
        return self.words.split()[0]

    @property
    def arguments(self):
        """What stands for the words behind the first, each of which may end with `..`."""
        return tuple(re.findall(r"\w+(?: ?\.\.)?", self.words[len(self.word) :]))

    def argument(self, place):
        """What stands for the word at this place behind the first, or nothing where there is none."""
        if place < len(self.arguments):
            return self.arguments[place]
        return self.arguments[-1] if self.arguments and self.arguments[-1].endswith("..") else ""


def usages_in(text):
    """The commands of a help, by their first words."""
    lines = iter(text.split("\n"))
    found = {}
    for line in lines:
        if line.strip() == HEAD:
            for line in lines:
                usage = LINE.fullmatch(line)
                if not usage:
                    return found
                found[usage[1].split()[0]] = Usage(usage[1], usage[2])
    return found
