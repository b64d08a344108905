"""Tables of texts, each with the answer that is wanted of it.

A row is a text, ` => ` and its answer. Each row has a run of its own, in which the text and the answer stand in the table's
head in the place of `..`. A head is a session: each command after `> `, with its replies. A text that is refused ends it.
"""
import re
from dataclasses import dataclass
from pathlib import Path

from .cases import Broken, arguments_beside, case_of

ARROW = " => "
PLACE = ".."
NOTHING = "(nothing)"
REFUSED = "no "
HEAD = """\
> vat a () 0
ok e1 e1.m0
> turn e1.m0
ok e2 value null
> ask a ..
ok e3 e3.m0
> turn e3.m0
ok e4 ..
""".splitlines()

PICTURES = str.maketrans("␀␉␊␍", "\0\t\n\r")
REPEATED = re.compile(r"«(\d+)×([^»]*)»")
STEPS = re.compile(r"(\d+) steps: (.*)")
SPENT = 'abandoned "turn budget spent"'


@dataclass(frozen=True)
class Row:
    """A text and its answer, and the line where they stand."""

    line: int
    text: str
    answer: str

    @property
    def meant(self):
        """What the text stands for: `«N×TEXT»` for N times TEXT, and a picture for its control character."""
        if self.text == NOTHING:
            return ""
        return REPEATED.sub(lambda found: int(found[1]) * found[2], self.text).translate(PICTURES)


@dataclass(frozen=True)
class Table:
    """A head, and rows, or why a line is none."""

    head: tuple
    rows: tuple
    broken: tuple


def row_of(number, line):
    """The row that a line spells, or None."""
    text, _, answer = line.partition(ARROW)
    return Row(number, text, answer) if text and answer else None


def table_of(name, text):
    """The table that a text spells. Lines that begin with `#` are comments; a head ends with the first empty line."""
    lines = [(number, line) for number, line in enumerate(text.split("\n"), 1) if not line.startswith("#")]
    while lines and not lines[0][1]:
        del lines[0]
    head = HEAD
    if lines and lines[0][1].startswith("> "):
        end = next((place for place, (_, line) in enumerate(lines) if not line), len(lines))
        head, lines = [line for _, line in lines[:end]], lines[end:]
    read = [(number, line, row_of(number, line)) for number, line in lines if line]
    broken = [Broken(f"{name}:{number}", f"this is no row: {line}") for number, line, row in read if not row]
    return Table(tuple(head), tuple(row for _, _, row in read if row), tuple(broken))


def has_places(head):
    """Whether a command of a head has a place for the text, and a reply one for the answer."""
    return all(any(PLACE in line and line.startswith("> ") == is_command for line in head) for is_command in (True, False))


def session_in(head, text, answer):
    """The commands and the replies of a head in which a text and its answer stand."""
    commands, replies = [], []
    for line in head:
        if not line.startswith("> "):
            replies.append(line.replace(PLACE, answer))
        elif PLACE in line and answer.startswith(REFUSED):
            return [*commands, line[2:].replace(PLACE, text)], [*replies, answer]
        else:
            commands.append(line[2:].replace(PLACE, text))
    return commands, replies


def cases_of(name, row, head, arguments=()):
    """The cases of a row: one, or, where it says how many steps its turn takes, one with so many and one with one less."""
    counted = STEPS.fullmatch(row.answer)
    if not counted:
        return [case_of(name, *session_in(head, row.meant, row.answer), arguments)]
    steps = int(counted[1])
    return [
        case_of(f"{name} within {budget} steps", *session_in(head, row.meant, answer), ("--budget", str(budget)))
        for budget, answer in ((steps, counted[2]), (steps - 1, SPENT))
    ]


def cases_in(path, name):
    """The cases of a table in a file NAME.table."""
    table, arguments = table_of(name, path.read_text()), arguments_beside(path)
    cases = [case for row in table.rows for case in cases_of(f"{name}:{row.line}", row, table.head, arguments)]
    if not has_places(table.head):
        return [Broken(name, f"the head has no {PLACE} for the text, or none for the answer")]
    return [*cases, *table.broken] or [Broken(name, "the table has no row")]


def answer_in(head, replies):
    """The answer that replies give to the text in a head, or None where they are no replies to it."""
    lines = replies.decode(errors="replace").splitlines()
    refused, given = (session_in(head, "", answer)[1] for answer in (REFUSED, PLACE))
    asked = len(refused) - 1
    if lines[:asked] == refused[:asked] and "".join(lines[asked : asked + 1]).startswith(REFUSED):
        return lines[asked]
    place = next(place for place, line in enumerate(given) if PLACE in line)
    before = given[place].removesuffix(PLACE)
    told = "".join(lines[place : place + 1])
    fits = told.startswith(before) and lines == [*given[:place], told, *given[place + 1 :]]
    return told.removeprefix(before) if fits else None


def accept(path, run):
    """Writes into a table what the program answers to its texts, and gives the file if it was changed."""
    text = path.read_text()
    table, arguments, lines = table_of(path.name, text), arguments_beside(path), text.split("\n")
    for row in table.rows:
        commands = case_of("", session_in(table.head, row.meant, PLACE)[0], []).commands
        ran = run(arguments, commands)
        answer = answer_in(table.head, ran.replies) if ran.ended and not STEPS.fullmatch(row.answer) else None
        lines[row.line - 1] = f"{row.text}{ARROW}{answer or row.answer}"
    if lines == text.split("\n"):
        return []
    path.write_text("\n".join(lines))
    return [path]
