"""The manual page of the program, made of its own help."""
import re

from building.crates import PROGRAM

DESCRIPTION = """\
The program reads commands, one a line, and gives one reply for each: vats are made with scripts in a small language after E,
and asked; messages between them arrive and have their turns. What happened is kept in a journal with its causes. It can be
undone with all that came of it, redone, and exchanged with what it has nothing to do with.
"""
PROVED = """\
The functions of this program were checked against their contracts by the prover of Rattle before it was installed. What that
covers, and what it does not, is told by docs/PROMISES.md of the repository that it was made from.
"""
NOT_PROVED = """\
Nothing of this program is proved. It was installed by ./install --unproved, which leaves the proofs out.
"""
COMPANIONS = """\
{0}-talk is the program at a terminal, with line editing; {0}-workbench shows it in a browser; {0}-causes draws what happened.
Each tells its options with --help. Of these nothing is proved.
"""
# The documents that are installed, with what each tells.
DOCUMENTS = {
    "LANGUAGE.md": "the language",
    "COMMANDS.md": "all commands with their replies",
    "REFUSALS.md": "all refusals",
}
# A row of a list: what it is about, and what is told of it; a further line of that.
ROW, MORE = re.compile(r" {2,6}(\S+(?: \S+)*)(?: {2,}(\S.*))?"), re.compile(r" {7,}(\S.*)")
# Signs that a text shows otherwise, or not at all, as they are written.
SIGNS = {"\\": r"\e", "-": r"\-", "'": r"\(aq", "`": r"\(ga", "^": r"\(ha", "~": r"\(ti", '"': r"\(dq"}


def literal(text):
    """A text as it is, for the formatter."""
    shown = "".join(SIGNS.get(sign, sign) for sign in text)
    return rf"\&{shown}" if shown.startswith(".") else shown


def section(head, *lines):
    return [f".SH {literal(head.upper())}", *lines]


def paragraph(text):
    return [literal(line) for line in text.strip().split("\n")]


def rows_in(lines):
    """The rows that lines are, each with what is told of it; none where they are no list."""
    rows = []
    for line in lines:
        more, row = MORE.fullmatch(line), ROW.fullmatch(line)
        if more and rows:
            rows[-1][1].append(more[1])
        elif row:
            rows.append((row[1], [row[2]] if row[2] else []))
        else:
            return []
    return rows if all(told for _, told in rows) else []


def shown(lines):
    """The lines under a head: a list, or else a text as it stands."""
    rows = rows_in(lines)
    if rows:
        return [part for words, told in rows for part in (".TP", rf"\fB{literal(words)}\fR", literal(" ".join(told)))]
    return [".PP", ".nf", *(literal(line) for line in lines), ".fi"]


def files(folder):
    """The documents in a folder, as a list."""
    return [part for name, told in DOCUMENTS.items() for part in (".TP", rf"\fI{literal(f'{folder}/{name}')}\fR", told)]


def parts_of(told):
    """What a help has: what the program is, how it is used, and its other parts, each with a head."""
    about, usage, *parts = (part.split("\n") for part in told.strip().split("\n\n"))
    return " ".join(about), usage[0].partition(": ")[2], [(head.rstrip(":"), lines) for head, *lines in parts]


def manual(told, version, build, prefix):
    """The page of a program that tells this help and is to stand below this folder."""
    about, usage, parts = parts_of(told)
    standing = PROVED if build.is_proved else NOT_PROVED
    return "\n".join([
        f'.TH {PROGRAM.upper()} 1 "" "{literal(version)}"',
        *section("Name", literal(PROGRAM) + r" \- " + literal(about[:1].lower() + about[1:])),
        *section("Synopsis", rf"\fB{literal(usage)}\fR"),
        *section("Description", *paragraph(DESCRIPTION)),
        *(line for head, lines in parts for line in section(head, *shown(lines))),
        *section("What is proved", *paragraph(standing)),
        *section("Files", *files(f"{prefix}/lib/{PROGRAM}/docs")),
        *section("See also", *paragraph(COMPANIONS.format(PROGRAM))),
        "",
    ])
