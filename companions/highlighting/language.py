"""The words of the language and of the commands, as the program's own sources have them."""
import functools
import re

from building.crates import ROOT
from conversation.usages import usages_in

TABLE = ROOT / "crates" / "etoken" / "src" / "table.rt"
OPTIONS = ROOT / "crates" / "evats" / "src" / "options.rt"
PUNCTUATION = set("()[]{},;.")


def body(name):
    """The text of a function of the scanner's tables."""
    text = TABLE.read_text(encoding="utf-8")
    return re.search(rf"^pub\(crate\) fn {name}\(.*?^}}", text, re.MULTILINE | re.DOTALL)[0]


def character(spelled):
    return spelled.removeprefix("\\")


@functools.cache
def reserved_words():
    return set(re.findall(r'"(\w+)" => Some\(Reserved::', body("reserved")))


@functools.cache
def signs():
    """All signs of one or two characters."""
    short = re.findall(r"b'(.)' => Some", body("short_sign"))
    long, first = [], None
    for line in body("long_sign").split("\n"):
        characters = re.findall(r"b'(.)'", line)
        if line.rstrip().endswith("{") and characters:
            first = characters[0]
        elif len(characters) == 2:
            long.append("".join(characters))
        elif characters:
            long.append(first + characters[0])
    return {*short, *long}


@functools.cache
def operators():
    return signs() - PUNCTUATION


@functools.cache
def escapes():
    """The characters that may follow a backslash in a text."""
    return {character(each) for each in re.findall(r"b'(\\?.)'(?= =>| \|)", body("escape"))}


@functools.cache
def command_words():
    """The first words of the commands that the program's help tells."""
    help_of_commands = re.search(r'const COMMANDS: &str = "\\\n(.*?)";\n', OPTIONS.read_text(encoding="utf-8"), re.DOTALL)[1]
    return set(usages_in(help_of_commands))
