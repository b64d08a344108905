"""The sessions and the tables of examples that the documents show."""
import re

from .cases import Broken, case_of
from .tables import HEAD, Row, cases_of

BEGUN = re.compile(r"^\./run\b.*<<'END'$", re.MULTILINE)
SESSION = re.compile(r"```sh\n\./run\b([^\n]*) <<'END'\n(.*?)\nEND\n```\n\nIt prints:\n\n```\n(.*?)\n```", re.DOTALL)
SCRIPT = re.compile(r"vat whose script is `([^`]+)`")
ASKED = ["ask a ..", "Reply"]
COMMANDED = ["Line of commands", "Reply"]
NO_REPLY = "none"


def cell(text):
    """What a cell of a table says, without the marks of code."""
    text = text.strip().replace("\\|", "|")
    return text[1:-1] if len(text) > 1 and text[0] == text[-1] == "`" else text


def cells(line):
    return [cell(text) for text in re.split(r"(?<!\\)\|", line)[1:-1]]


def head_with(script):
    """The usual head of a table, with a script of one line whose turn gives a number."""
    value = script.rpartition(" ")[2]
    return ["> vat a () 1", f"> {script}", *HEAD[1:3], f"ok e2 value {value}", *HEAD[4:]]


def session_of(name, text, found):
    """The case of a session that was found in a document, with the words that `./run` hands on."""
    words, commands, replies = found.groups()
    line = text.count("\n", 0, found.start()) + 1
    return case_of(f"{name}:{line}", commands.split("\n"), replies.split("\n"), words.split())


def sessions_of(name, text):
    """The sessions that a document shows, each with the replies that follow `It prints:`."""
    cases = [session_of(name, text, found) for found in SESSION.finditer(text)]
    begun = len(BEGUN.findall(text))
    return cases if begun == len(cases) else [*cases, Broken(name, f"{begun} sessions, and {len(cases)} with replies")]


def rows_of(name, text):
    """The rows of the tables of a document that are headed `ask a ..` or `Line of commands`."""
    found, head, title = [], HEAD, None
    for number, line in enumerate(text.split("\n"), 1):
        script = SCRIPT.search(line)
        if line.startswith("#"):
            head = HEAD
        elif script:
            head = head_with(script[1])
        if not line.startswith("|"):
            title = None
        elif title is None:
            title = cells(line)
        elif title in (ASKED, COMMANDED) and not set(line) <= set("|- "):
            found += shown_row(f"{name}:{number}", Row(number, *cells(line)), head, title)
    return found


def shown_row(name, row, head, title):
    """The cases of a row of a document's table."""
    if title == ASKED:
        return cases_of(name, row, head)
    return [case_of(name, [row.text], [] if row.answer == NO_REPLY else [row.answer])]


def cases_in(path, name):
    """The cases that a document shows."""
    text = path.read_text()
    return [*sessions_of(name, text), *rows_of(name, text)]
