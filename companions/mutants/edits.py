"""Wrong bodies: the file that tells the mutants of a crate, what each changes, and in which functions that stands."""
import re
from dataclasses import dataclass
from pathlib import Path

from .functions import functions_in, modules_of_types

FILE = "mutants.edits"
LINE = re.compile(r"(mutant|file|old|new):(?: (.*))?$")


class BadEdit(Exception):
    """An edit that cannot be read or applied, and why."""


@dataclass(frozen=True)
class Change:
    """A text of a file that gives way to another one."""

    file: str
    old: str
    new: str


@dataclass(frozen=True)
class Mutant:
    """A wrong body, as the file of its crate tells it."""

    name: str
    changes: tuple


@dataclass(frozen=True)
class Edit:
    """A mutant over the sources, with the functions that it changes, or none where it changes something besides."""

    mutant: Mutant
    functions: tuple

    @property
    def name(self):
        return self.mutant.name

    @property
    def paths(self):
        return {function.path for function in self.functions}


class Reader:
    """Reads the lines that tell mutants, each of which wants what stood before it."""

    def __init__(self):
        self.found, self.file, self.old = {}, None, None

    def mutant(self, name):
        if not name or name in self.found:
            raise BadEdit(f"there are two mutants `{name}`" if name else "a mutant wants a name")
        self.end()
        self.found[name], self.file = [], None

    def file_line(self, file):
        if not self.found or self.old is not None:
            raise BadEdit("`file:` stands behind `mutant:` or `new:`")
        self.file = file

    def old_line(self, text):
        if self.file is None or self.old is not None or not text:
            raise BadEdit("`old:` has a text, and stands behind `file:` or `new:`")
        self.old = text

    def new_line(self, text):
        if self.old is None:
            raise BadEdit("`new:` stands behind `old:`")
        list(self.found.values())[-1].append(Change(self.file, self.old, text))
        self.old = None

    def end(self):
        """Looks whether the last mutant is told to its end."""
        if self.found and (self.old is not None or not list(self.found.values())[-1]):
            raise BadEdit(f"the mutant `{list(self.found)[-1]}` does not end with `new:`")


def mutants_in(text):
    """The mutants that a text tells, in its order."""
    reader = Reader()
    take = {"mutant": reader.mutant, "file": reader.file_line, "old": reader.old_line, "new": reader.new_line}
    for number, line in enumerate(text.splitlines(), 1):
        told = LINE.match(line)
        try:
            if told:
                take[told[1]](told[2] or "")
            elif line:
                raise BadEdit("a line is `mutant: NAME`, `file: PATH`, `old: TEXT` or `new: TEXT`")
        except BadEdit as bad:
            raise BadEdit(f"line {number}: {bad}") from None
    reader.end()
    return [Mutant(name, tuple(changes)) for name, changes in reader.found.items()]


def mutants_of(root, crate):
    """The mutants of a crate."""
    file = Path(root, "crates", crate, FILE)
    try:
        return mutants_in(file.read_text(encoding="utf-8")) if file.is_file() else []
    except BadEdit as bad:
        raise BadEdit(f"crates/{crate}/{FILE}: {bad}") from None


def changed(sources, changes):
    """The sources after these changes, each at the one place where its text stands. A change may stand in what an earlier one made."""
    after = dict(sources)
    for change in changes:
        count = after.get(change.file, "").count(change.old)
        if count != 1:
            raise BadEdit(f"`{change.old.strip()[:60]}` stands {count} times in {change.file}")
        after[change.file] = after[change.file].replace(change.old, change.new)
    return after


def functions_of(sources):
    """The functions of a crate, by the files of its sources."""
    code = {file: text for file, text in sources.items() if file.startswith("src/")}
    types = modules_of_types(code)
    return {file: functions_in(file, text, types) for file, text in code.items()}


def stands_in(change, sources, functions):
    """The function in which the text of a change stands, if there is one."""
    source = sources[change.file]
    at = source.find(change.old)
    line = source.count("\n", 0, at) + 1
    return next((it for it in functions.get(change.file, ()) if at >= 0 and it.has(change.file, line)), None)


def edit_of(mutant, sources, functions):
    """A mutant over these sources of its crate, which have these functions."""
    if changed(sources, mutant.changes) == sources:
        raise BadEdit("it changes nothing")
    found = [stands_in(it, sources, functions) for it in mutant.changes]
    return Edit(mutant, tuple(found) if all(found) else ())


def changed_together(sources, edits):
    """The sources after edits of different functions, each of which stands there as it would alone: a text that one of them makes
    may be the one that another one looks for. No edit moves a line."""
    if not all(edit.functions for edit in edits):
        (edit,) = edits
        return changed(sources, edit.mutant.changes)
    after = {function.file: sources[function.file].split("\n") for edit in edits for function in edit.functions}
    for edit in edits:
        alone = changed(sources, edit.mutant.changes)
        for it in edit.functions:
            lines = slice(it.first - 1, it.last)
            after[it.file][lines] = alone[it.file].split("\n")[lines]
    return sources | {file: "\n".join(lines) for file, lines in after.items()}


def groups(edits):
    """Puts edits together that change different functions, as many as may be; one that changes something besides stays alone."""
    made = []
    for edit in edits:
        room = [it for it in made if edit.functions and it[0].functions and not any(edit.paths & other.paths for other in it)]
        if room:
            room[0].append(edit)
        else:
            made.append([edit])
    return made
