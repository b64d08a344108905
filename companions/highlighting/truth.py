"""What the characters of an input are, by the commands that it has and by the tokens of their texts."""
import re

from conversation.commands import ASK, commands_of, lines_of
from conversation.texts import tokens_of

from .language import command_words, operators, reserved_words

ARGUMENT = re.compile(r"(?P<event>\be[0-9]+(?:\.[mpo][0-9]+)?\b)|(?P<integer>[0-9]+)|[A-Za-z_]\w*")
ESCAPE = re.compile(r"\\.", re.DOTALL)


def paint(kinds, start, piece, kind):
    kinds[start : start + len(piece)] = [kind] * len(piece)


def paint_blank(kinds, start, piece):
    for found in re.finditer(r"#[^\n]*", piece):
        paint(kinds, start + found.start(), found[0], "comment")


def paint_text(kinds, start, text):
    """Paints a text of the language that stands from here on."""
    for token in tokens_of(text):
        if token.kind == "blank":
            paint_blank(kinds, start, token.spelling)
        elif token.kind == "name":
            paint(kinds, start, token.spelling, "word" if token.spelling in reserved_words() else "")
        elif token.kind == "sign":
            paint(kinds, start, token.spelling, "operator" if token.spelling in operators() else "")
        else:
            paint(kinds, start, token.spelling, "integer" if token.kind == "integer" else "text")
            for found in ESCAPE.finditer(token.spelling):
                paint(kinds, start + found.start(), found[0], "escape")
        start += len(token.spelling)


def paint_command(kinds, start, line):
    """Paints a line that is a command, from its first word on; editors take one whose first word is none for a line of a script."""
    word, asked = re.match(r"[^ \t]+", line)[0], ASK.fullmatch(line)
    if word not in command_words():
        paint_text(kinds, start, line)
        return
    paint(kinds, start, word, "command")
    if asked:
        paint_text(kinds, start + asked.start(1), asked[1] or "")
        return
    for found in ARGUMENT.finditer(line, len(word)):
        paint(kinds, start + found.start(), found[0], found.lastgroup or "")


def kinds_in(text):
    """The kind of each character of an input: of a command's first word, a comment, or a token; the empty one of all else."""
    kinds, lines = [""] * len(text), lines_of(text)
    places = [0]
    for line in lines:
        places.append(places[-1] + len(line) + 1)
    paint_blank(kinds, 0, "\n".join(line if line.lstrip(" \t").startswith("#") else " " * len(line) for line in lines))
    for command in commands_of(lines):
        paint_command(kinds, places[command.start] + lines[command.start].index(command.line), command.line)
        script = places[command.start + 1]
        kinds[script : script + len("\n".join(command.script))] = [""] * len("\n".join(command.script))
        paint_text(kinds, script, "\n".join(command.script))
    return kinds
