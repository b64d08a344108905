"""Which files and names a document about the crates speaks of, and whether it quotes functions as they are.

A path without a crate is in the crate that was named last in the same item, and else in the crate whose README it is; a file
without a folder is in the folder that was named last.
"""
import re
from dataclasses import dataclass, replace
from pathlib import Path

FENCE = re.compile(r"^```.*?^```$", re.MULTILINE | re.DOTALL)
ITEM = re.compile(r"\n\s*\n|\n(?=\s*(?:[-*]|\d+\.) |\|)")
CODE = re.compile(r"`([^`]+)`")
OF_CRATE = re.compile(r"(?:src|specs|proofs|must-fail)/[\w/.]*|mutants\.edits")
OF_REPOSITORY = re.compile(r"\.?\w[\w.-]*/[\w./-]*")
FILE = re.compile(r"[\w-]+\.(?:rt|antt|py|js|css|md|table|edit)")
NAME = re.compile(r"[A-Za-z_]\w*(?:::[A-Za-z_]\w*)*")
SOURCE = re.compile(r"\]\(([^)\s]+\.rt)\)")
QUOTED = re.compile(r"^```rust\n(.*?)\n```$", re.MULTILINE | re.DOTALL)


@dataclass(frozen=True)
class Place:
    """Where a path is looked for: the repository, the crate that was named last, if one was, and the folder."""

    root: Path
    crate: Path = None
    folder: Path = None

    def named(self, words):
        """The path that some code names here; None where it names none."""
        if OF_REPOSITORY.fullmatch(words) and (self.root / words.partition("/")[0]).is_dir():
            return self.root / words
        if self.crate and OF_CRATE.fullmatch(words):
            return self.crate / words
        if self.folder and FILE.fullmatch(words):
            return self.folder / words
        return None

    def after(self, path):
        """Where the next path of the item is looked for."""
        top, *inside = path.relative_to(self.root).parts
        crate = self.root / top / inside[0] if top == "crates" and inside else None
        folder = path if path.is_dir() else path.parent
        return replace(self, crate=crate if crate and crate.is_dir() else self.crate, folder=folder)


def items_of(text):
    """The items of a list, rows of a table and paragraphs of a document, without what stands in fences."""
    return ITEM.split(FENCE.sub("", text))


def code_in(item):
    """What stands between the marks of code, with line breaks as blanks."""
    return [" ".join(words.split()) for words in CODE.findall(item)]


def paths_in(text, place):
    """The paths that a document names, item by item."""
    for item in items_of(text):
        here = place
        for words in code_in(item):
            path = here.named(words)
            if path:
                yield path
                here = here.after(path)


def names_in(text):
    """The names of definitions, functions and types that a document has in its code."""
    return {part for item in items_of(text) for words in code_in(item) if NAME.fullmatch(words) for part in words.split("::")}


def lost_quotes(file):
    """The sources, each linked last before some code, in which this does not stand so."""
    text = file.read_text(encoding="utf-8")
    for quoted in QUOTED.finditer(text):
        target = SOURCE.findall(text[: quoted.start()])[-1]
        source = (file.parent / target).read_text(encoding="utf-8")
        if quoted[1] not in source and indented(quoted[1]) not in source:
            yield target


def indented(text):
    """A text as it stands in a block."""
    return "\n".join(f"    {line}" if line else line for line in text.split("\n"))
