"""The words of the command line: what a run is to do, or what is told in its place."""
import os
import re
from dataclasses import dataclass, replace
from pathlib import Path
from unicodedata import combining

SOURCE = Path(__file__).resolve().parents[1] / "crates" / "evats" / "src" / "options.rt"
MOST_STEPS, MOST_WORKERS, MOST_READ = 1_000_000, 64, 2 ** 63 - 1
# The options with a number, and the greatest that each may have.
NUMBERED = {"--budget": MOST_STEPS, "--workers": MOST_WORKERS}
HELP, VERSION = ("--help", "-h"), ("--version", "-V")
USAGE, MORE = "evats [OPTIONS] [FILE]", "\n\nFor more information, try '--help'.\n"
# How a character is written in a quoted text, and a byte in a word that is no text, where that is not as it is.
ESCAPED = {"\0": r"\0", "\t": r"\t", "\r": r"\r", "\n": r"\n", '"': r'\"', "\\": r"\\"}
ESCAPED_BYTES = {**{ord(it): told for it, told in ESCAPED.items() if it != "\0"}, ord("'"): r"\'"}


@dataclass(frozen=True)
class Options:
    """The limits of a run, and the file that has its commands; without one that is standard input. A `work` of the plain
    interpreter needs no more than one worker."""
    budget: int = 10_000
    workers: int = 8
    file: str | None = None


class Shown(Exception):
    """A text that was asked for in place of a run."""


class WrongWords(Exception):
    """Why the words mean no run."""

    @property
    def told(self):
        return f"error: {self}{MORE}"


class Unexpected(WrongWords):
    """A word that cannot stand where it does."""

    @property
    def told(self):
        return f"error: {self}\n\nUsage: {USAGE}{MORE}"


class NoText(Exception):
    """A word is not UTF-8."""

    def __init__(self, word):
        super().__init__(word)
        self.word = word


def quoted(text):
    """A text in quotation marks; what cannot be seen is told by its number."""
    shown = (ESCAPED.get(it) or (it if it.isprintable() and not combining(it) else f"\\u{{{ord(it):x}}}") for it in text)
    return f'"{"".join(shown)}"'


def quoted_bytes(data):
    """Bytes as they may be said where they are no text."""
    return "".join(ESCAPED_BYTES.get(it) or (chr(it) if 32 <= it < 127 else f"\\x{it:02x}") for it in data)


def constant(name, source):
    """A text that the program's source has under a name."""
    return re.search(rf'const {name}: &str =\s*"(?:\\\n)?(.*?)";', source, re.DOTALL)[1].replace('\\"', '"')


def source_text():
    return SOURCE.read_text(encoding="utf-8")


def version():
    return f"evats {constant('VERSION', source_text())}\n"


def help_text():
    """What the program's help says."""
    source = source_text()
    about = re.search(r'\.about\("(.*?)"\)', source)[1]
    file = re.search(r'value_name\("FILE"\)\.help\(\s*"(.*?)"', source)[1]
    budget, workers = re.findall(r'"(The most [^"]*)"', source)
    options = [("    --budget <N>", budget), ("    --workers <N>", workers), ("-h, --help", "Print help"),
               ("-V, --version", "Print version")]
    lines = [about, "", f"Usage: {USAGE}", "", "Arguments:", f"  [FILE]  {file}", "", "Options:",
             *(f"  {option:<17}  {told}" for option, told in options), "", constant("COMMANDS", source)]
    return "".join(f"{line}\n" for line in lines)


def digits(word):
    """The number that a word spells, if it is none too large to be read."""
    spelled = word.removeprefix("+")
    if not word:
        raise WrongWords("cannot parse integer from empty string")
    if not re.fullmatch("[0-9]+", spelled):
        raise WrongWords("invalid digit found in string")
    shortest = spelled.lstrip("0") or "0"
    if len(shortest) > len(str(MOST_READ)) or int(shortest) > MOST_READ:
        raise WrongWords("number too large to fit in target type")
    return int(shortest)


def unknown(option):
    """What is told of an option that there is not."""
    return Unexpected(f"unexpected argument '{option}' found\n\n  tip: to pass '{option}' as a value, use '-- {option}'")


def number(option, word):
    """The number of an option."""
    most = NUMBERED[option]
    try:
        found = digits(word)
        if not 1 <= found <= most:
            raise WrongWords(f"{found} is not in 1..={most}")
    except WrongWords as why:
        raise WrongWords(f"invalid value '{word}' for '{option} <N>': {why}") from None
    return found


def decoded(words):
    """The words as texts. The first one that is not UTF-8 is told."""
    found = []
    for word in map(os.fsencode, words):
        try:
            found.append(word.decode())
        except UnicodeDecodeError:
            raise NoText(word) from None
    return found


def is_value(word):
    """Whether a word is no option, and not what ends these."""
    return word == "-" or not word.startswith("-")


class Words:
    """Reads words from the left, and stops at the first one that asks for no run, or is wrong."""

    def __init__(self, words):
        self.left, self.options, self.numbered, self.has_file = [*words], Options(), set(), False

    def read(self):
        is_behind = False
        while self.left:
            word = self.left.pop(0)
            if is_behind or is_value(word):
                self.file(word)
            elif word == "--":
                is_behind = True
            elif word.startswith("--"):
                self.option(*word.partition("="))
            else:
                self.letter(word)
        return self.options

    def file(self, word):
        if self.has_file:
            raise Unexpected(f"unexpected argument '{word}' found")
        self.has_file = True
        self.options = replace(self.options, file=None if word == "-" else word)

    def option(self, name, sign, value):
        if name in NUMBERED:
            self.number(name, sign, value)
        elif name not in ("--help", "--version"):
            raise unknown(name)
        elif sign:
            raise Unexpected(f"unexpected value '{value}' for '{name}' found; no more were expected")
        else:
            raise Shown(help_text() if name == "--help" else version())

    def letter(self, word):
        """Options of one letter, of which the first tells what is asked for."""
        option = word[:2]
        if option not in (*HELP, *VERSION):
            raise unknown(option)
        raise Shown(help_text() if option in HELP else version())

    def number(self, name, sign, value):
        if not sign and not (self.left and is_value(self.left[0])):
            self.expect_option()
            raise WrongWords(f"a value is required for '{name} <N>' but none was supplied")
        if name in self.numbered:
            raise Unexpected(f"the argument '{name} <N>' cannot be used multiple times")
        self.numbered.add(name)
        found = number(name, value if sign else self.left.pop(0))
        self.options = replace(self.options, **{name.removeprefix("--"): found})

    def expect_option(self):
        """An unknown option is told before the value is missed for which it stands."""
        option = self.left[0].partition("=")[0] if self.left else "--"
        if option.startswith("--"):
            if option not in ("--", *NUMBERED, *HELP, *VERSION):
                raise unknown(option)
        elif option[:2] not in (*HELP, *VERSION):
            raise unknown(option[:2])


def options_of(words):
    """What the words ask for."""
    return Words(decoded(words)).read()
