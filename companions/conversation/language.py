"""What docs/COMMANDS.md and docs/REFUSALS.md say of commands and refusals, in their tables."""
import contextlib
import re
from dataclasses import dataclass
from pathlib import Path

FOLDER = Path(__file__).resolve().parents[2] / "docs"
DOCUMENTS = [FOLDER / name for name in ("COMMANDS.md", "REFUSALS.md")]
CODE = re.compile(r"`no ([A-Z]\d+) (\w+)([^`]*)`")
WANTS, REPLY, REFUSED = ["Line", "Wants, else `S2`"], ["Command", "Reply"], ["Reply", "Of", "When"]
HEADS = (WANTS, REPLY, REFUSED, ["Reply", "When"])


@dataclass(frozen=True)
class Meaning:
    """A refusal as the list of all refusals has it: its code and name, what it names, of which commands it is, and when."""

    code: str
    name: str
    arguments: tuple
    of: str
    when: str


def cells(line):
    return [cell.strip().replace("\\|", "|") for cell in re.split(r"(?<!\\)\|", line)[1:-1]]


def rows(text):
    """The rows of the tables, each with the head of its table."""
    head, found = None, []
    for line in text.split("\n"):
        if not line.startswith("|"):
            head = None
        elif head is None:
            head = cells(line)
        elif head in HEADS and not set(line) <= set("|- "):
            found.append((head, cells(line)))
    return found


def read_documents():
    """The text of both documents; nothing of one that cannot be read."""
    found = []
    for path in DOCUMENTS:
        with contextlib.suppress(OSError):
            found.append(path.read_text(encoding="utf-8"))
    return "\n".join(found)


def meanings(text):
    """All refusals."""
    found = []
    for head, row in rows(text):
        told = CODE.fullmatch(row[0]) if head[-1] == "When" else None
        if told:
            found.append(Meaning(told[1], told[2], tuple(told[3].split()), row[1] if head == REFUSED else "", row[-1]))
    return found


def is_of(cell, word):
    """Whether a cell speaks of a command: names it, as a word by itself or with what it takes, or all but others."""
    is_named = any(spelled.split()[:1] == [word] for spelled in re.findall(r"`([^`]*)`", cell))
    return is_named != cell.startswith("all but ")


def alone(cell):
    """What a cell says without looking at the rows above it."""
    return "; ".join(part for part in cell.split("; ") if not part.endswith("as above"))


def told_of(text, word):
    """What the documents say of a command: which words it wants, what it replies, and with which codes it is refused."""
    wants = [alone(row[1]) for head, row in rows(text) if head == WANTS and is_of(row[0], word)]
    replies = [row[1] for head, row in rows(text) if head == REPLY and is_of(row[0], word)]
    refused = [meaning for meaning in meanings(text) if is_of(meaning.of, word)]
    return wants, replies, refused
