"""What editors show of texts: each mark and word is what the program takes it for, in examples, sessions and tables."""
import json
import re
import tempfile
import unittest
from pathlib import Path

from building.crates import ROOT
from conversation import commands, texts
from conversation.commands import is_readable
from conversation.language import cells
from sessions.tables import table_of

from .language import PUNCTUATION, command_words, escapes, operators, reserved_words, signs
from .textmate import Grammar
from .truth import kinds_in
from .vim import shown, vim

EDITORS = ROOT / "editors"
TEXTMATE, VIM = EDITORS / "textmate" / "evats.tmLanguage.json", EDITORS / "vim" / "syntax" / "evats.vim"
# The kinds that scopes and groups stand for; a name that is defined is of none.
SCOPES = {
    "keyword.other.command": "command", "comment.line.number-sign": "comment", "string.quoted.double": "text",
    "constant.character.escape": "escape", "invalid.illegal.escape": "escape", "constant.numeric.integer": "integer",
    "storage.type": "word", "keyword.control": "word", "constant.language": "word", "support.class": "word",
    "keyword.operator": "operator", "variable.other.event": "event", "entity.name.function": "", "entity.name.namespace.vat": "",
}
GROUPS = {
    "Command": "command", "Comment": "comment", "Text": "text", "Escape": "escape", "Error": "escape", "Integer": "integer",
    "Definition": "word", "Control": "word", "Constant": "word", "Reference": "word", "Operator": "operator", "Event": "event",
    "Function": "", "Line": "", "Ask": "",
}
LONGEST = 1_000


def sessions():
    """The sessions that were written by hand."""
    folders = [ROOT / "examples", *(each for each in sorted((ROOT / "tests").iterdir()) if each.is_dir() and each.name != "random")]
    for path in (path for folder in folders for path in sorted(folder.glob("*.evats"))):
        if all(map(is_readable, path.read_bytes().decode(errors="surrogateescape").split("\n"))):
            yield path, path.read_text(encoding="utf-8")


def tables():
    """The texts of the tables, as questions to a vat."""
    for path in sorted((ROOT / "tests").glob("*/*.table")):
        asked = [row.meant for row in table_of(path.name, path.read_text(encoding="utf-8")).rows]
        yield path, "".join(f"ask a {text}\n" for text in asked if len(text) < LONGEST and not re.search("[\r\n\0]", text))


def samples():
    found = [*sessions(), *tables()]
    return [str(path.relative_to(ROOT)) for path, _ in found], [text for _, text in found]


def kinds_of_scopes(text):
    return [SCOPES[scope.removesuffix(".evats")] if scope else "" for scope in Grammar(TEXTMATE).scopes(text)]


def kinds_of_groups(answer):
    """The kind of each byte of each line, of what vim answered."""
    return [[GROUPS[name.removeprefix("evats")] if name else "" for name in row] for row in answer["rows"]]


def by_bytes(text, kinds):
    """The kind of each byte of each line of a text, by those of its characters."""
    rows, at = [], 0
    for line in text.split("\n"):
        rows.append([kind for sign, kind in zip(line, kinds[at:]) for _ in sign.encode()])
        at += len(line) + 1
    return rows[:-1] if text.endswith("\n") else rows


def innermost(text, piece):
    """The scope that a grammar gives the first character of a piece of a text."""
    return Grammar(TEXTMATE).scopes(text)[text.index(piece)]


class TextMate(unittest.TestCase):
    def test_samples_are_shown_as_what_they_are(self):
        names, found = samples()
        self.assertGreater(len(found), 100)
        for name, text in zip(names, found):
            self.assertEqual(kinds_of_scopes(text), kinds_in(text), name)

    def test_scopes(self):
        script = '# c\ndef o {\n to m(x) { return "t\\n\\q" } }\n'
        text = f"vat a (b) 3\n{script}ask a if (true) {{ o <- m(12) }} else {{ Ref.promise() }} # d\nundo e7\n"
        wanted = {
            "vat": "keyword.other.command", "# c": "comment.line.number-sign", "def": "storage.type", "o {": "entity.name.function",
            "m(x)": "entity.name.function", "return": "keyword.control", '"t': "string.quoted.double",
            "\\n": "constant.character.escape", "\\q": "invalid.illegal.escape", "ask": "keyword.other.command",
            "a if": "entity.name.namespace.vat", "if (": "keyword.control", "true": "constant.language", "<-": "keyword.operator",
            "12": "constant.numeric.integer", "Ref": "support.class", "promise": "", "# d": "comment.line.number-sign",
            "undo": "keyword.other.command", "e7": "variable.other.event",
        }
        for piece, scope in wanted.items():
            self.assertEqual(innermost(text, piece), f"{scope}.evats" if scope else "", piece)

    def test_a_text_on_several_lines(self):
        text = 'vat a () 2\ndef t := "if # 1\nstep"; 2\nstep\n'
        self.assertEqual(innermost(text, "if"), "string.quoted.double.evats")
        self.assertEqual(innermost(text, 'step"'), "string.quoted.double.evats")
        self.assertEqual(innermost(text, "step\n"), "keyword.other.command.evats")

    def test_a_question_ends_with_its_line(self):
        text = 'ask a "not closed\nstep\n'
        self.assertEqual(innermost(text, "step"), "keyword.other.command.evats")

    def test_it_is_a_grammar_of_these_files(self):
        grammar = json.loads(TEXTMATE.read_text(encoding="utf-8"))
        self.assertEqual((grammar["scopeName"], grammar["fileTypes"]), ("source.evats", ["evats"]))
        for rule in Grammar(TEXTMATE).flat(grammar["repository"].values()):
            for part in ("match", "begin", "end"):
                re.compile(rule.get(part, ""))


@unittest.skipUnless(vim(), "there is no vim that shows colours")
class Vim(unittest.TestCase):
    def shown(self, texts):
        with tempfile.TemporaryDirectory() as folder:
            return shown(EDITORS, Path(folder), texts)

    def test_samples_are_shown_as_what_they_are(self):
        names, found = samples()
        for name, text, answer in zip(names, found, self.shown(found), strict=True):
            self.assertEqual(kinds_of_groups(answer), by_bytes(text, kinds_in(text)), name)

    def test_the_type_of_a_file_and_its_comments(self):
        (answer,) = self.shown(["step\n"])
        self.assertEqual((answer["type"], answer["comments"]), ("evats", "# %s"))

    def test_a_text_on_several_lines_and_a_question_that_ends_with_its_line(self):
        text = 'vat a () 2\ndef t := "if # 1\nstep"; 2\nstep\nask a "not closed\nstep\n'
        (answer,) = self.shown([text])
        self.assertEqual(kinds_of_groups(answer), by_bytes(text, kinds_in(text)))


class Words(unittest.TestCase):
    """The words that each of the two files has are those of the program, and so are those of the companions and the document."""

    def test_sources_are_read(self):
        self.assertTrue({"def", "Ref"} <= reserved_words() and {"<-", "//", "("} <= signs() and PUNCTUATION <= signs())
        self.assertTrue({"n", '"', "\\", "'"} <= escapes() and {"vat", "undo-cone"} <= command_words())

    def test_reserved_words(self):
        grammar = json.loads(TEXTMATE.read_text(encoding="utf-8"))
        patterns = [rule.get("match", "") for rule in grammar["repository"]["word"]["patterns"]]
        self.assertEqual({word for pattern in patterns for word in re.findall(r"[A-Za-z]{2,}", pattern)}, reserved_words())
        lines = re.findall(r"^syn keyword \w+ (.*)$", VIM.read_text(encoding="utf-8"), re.MULTILINE)
        self.assertEqual({word for line in lines for word in line.split()}, reserved_words())
        self.assertEqual(commands.RESERVED, reserved_words() | {"_"})
        self.assertEqual(texts.ENDING_WORDS | texts.BEGINNING_WORDS | texts.OTHER_WORDS, reserved_words() | {"_"})

    def test_the_document(self):
        document = (ROOT / "docs" / "LANGUAGE.md").read_text(encoding="utf-8")
        rows = {row[0]: row[1] for row in map(cells, re.findall(r"^\|.*\|$", document, re.MULTILINE)) if len(row) == 2}
        self.assertEqual(set(re.findall(r"`(\w+)`", rows["reserved word"])), reserved_words())
        self.assertEqual(set(rows["sign"].split("` and")[0].strip("`").split()), signs())

    def test_commands(self):
        of_vim = re.search(r"^syn match evatsLine (.*)$", VIM.read_text(encoding="utf-8"), re.MULTILINE)[1]
        for text in (Grammar(TEXTMATE).repository["line"]["match"], of_vim):
            listed = max(re.findall(r"[a-z-]+(?:\\?\|[a-z-]+)+", text), key=len)
            self.assertEqual(set(re.split(r"\\?\|", listed)), command_words())

    def test_signs(self):
        for sign in sorted(signs()):
            kinds = kinds_of_scopes(f"ask a b {sign} c\n")
            self.assertEqual(kinds[8 : 8 + len(sign)], ["operator" if sign in operators() else ""] * len(sign), sign)

    def test_escapes(self):
        for sign in map(chr, range(32, 127)):
            text = f'ask a "\\{sign}"'
            scope = "constant.character.escape.evats" if sign in escapes() else "invalid.illegal.escape.evats"
            self.assertEqual(Grammar(TEXTMATE).scopes(text)[7:9], [scope] * 2, text)


if __name__ == "__main__":
    unittest.main()
