"""Texts of the language that stand on several lines: whether one goes on, and how it is written on one line."""
import re
from dataclasses import dataclass

TOKEN = re.compile(
    r"""
    (?P<blank>(?:[ \t\r\n]|\#[^\n]*)+)
  | (?P<text>"(?:[^"\\]|\\.)*")
  | (?P<open>".*)
  | (?P<integer>[0-9]+)
  | (?P<name>[A-Za-z_][A-Za-z_0-9]*)
  | (?P<sign><-|->|:=|==|!=|<=|>=|&&|\|\||//|.)
    """,
    re.VERBOSE | re.DOTALL,
)
# The end of a text between quotation marks; and what opens or closes something outside of one, but for what stands in a comment.
QUOTED = re.compile(r'(?:[^"\\]|\\.)*(?P<sign>")', re.DOTALL)
UNQUOTED = re.compile(r'#[^\n]*|(?P<sign>["()\[\]{}])')
# Names that are signs or words, behind which no item ends, and before which none begins.
ENDING_WORDS = {"true", "false", "null", "return"}
BEGINNING_WORDS = {"true", "false", "null", "Ref", "throw", "def", "var", "if", "while", "for", "escape", "try", "when", "return"}
OTHER_WORDS = {"_", "method", "to", "else", "in", "catch"}
OPENING, CLOSING = set("([{"), set(")]}")


@dataclass(frozen=True)
class Token:
    kind: str
    spelling: str

    def may_be(self, words, signs):
        """Whether this is an integer, a text, a name that is no reserved word, or one of these words and signs."""
        if self.kind == "name":
            is_reserved = self.spelling in ENDING_WORDS | BEGINNING_WORDS | OTHER_WORDS
            return self.spelling in words or not is_reserved
        return self.kind in ("integer", "text") or self.spelling in signs

    @property
    def ends_an_item(self):
        return self.may_be(ENDING_WORDS, CLOSING)

    @property
    def begins_an_item(self):
        return self.may_be(BEGINNING_WORDS, {"(", "[", "!", "-"})


def tokens_of(text):
    return [Token(found.lastgroup, found[0]) for found in TOKEN.finditer(text)]


class Openness:
    """What is open behind the lines of a text that were taken so far; each line costs by its own length."""

    def __init__(self):
        self.brackets, self.is_quoted = 0, False

    @property
    def is_open(self):
        """Whether brackets or a text between quotation marks are open."""
        return bool(self.brackets) or self.is_quoted

    def take(self, line):
        """Goes on with a line. A closing bracket closes the innermost, of whichever kind."""
        line, place = f"{line}\n", 0
        while found := self.next_sign(line, place):
            place, sign = found.end(), found["sign"]
            if sign == '"':
                self.is_quoted = not self.is_quoted
            elif sign:
                self.brackets = max(0, self.brackets + (1 if sign in OPENING else -1))

    def next_sign(self, line, place):
        """The next of what opens or closes something, or a comment; nothing where there is none in the line."""
        return QUOTED.match(line, place) if self.is_quoted else UNQUOTED.search(line, place)


def openness(text):
    """What is open where a text ends."""
    found = Openness()
    found.take(text)
    return found


def gap(before, token, after, brackets):
    """What stands on one line for blanks between two tokens: a line feed there may end an item."""
    if before is None or after is None:
        return ""
    is_between_items = "\n" in token.spelling and (not brackets or brackets[-1] == "{")
    return "; " if is_between_items and before.ends_an_item and after.begins_an_item else " "


def on_one_line(text):
    """The same program on one line."""
    tokens, brackets, parts = tokens_of(text), [], []
    for place, token in enumerate(tokens):
        if token.kind == "blank":
            before = tokens[place - 1] if place else None
            after = tokens[place + 1] if place + 1 < len(tokens) else None
            parts.append(gap(before, token, after, brackets))
            continue
        if token.kind == "sign" and token.spelling in OPENING:
            brackets.append(token.spelling)
        elif token.kind == "sign" and token.spelling in CLOSING and brackets:
            brackets.pop()
        parts.append(token.spelling.replace("\n", "\\n"))
    return "".join(parts)


def without_label(text):
    """A text without ` as LABEL` at its end, and that label; none where it does not end so."""
    found = [token for token in tokens_of(text)]
    if found and found[-1].kind == "blank" and "#" not in found[-1].spelling:
        found.pop()
    ends = [token.kind for token in found[-3:]] == ["name", "blank", "name"] and found[-3].spelling == "as"
    is_apart = len(found) == 3 or len(found) > 3 and found[-4].kind == "blank"
    if not ends or not is_apart:
        return text, None
    return "".join(token.spelling for token in found[:-3]).rstrip(" \t"), found[-1].spelling
