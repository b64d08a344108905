"""Tries the mutants of a crate in a room of its own: those of different functions in one check, of these functions alone."""
import contextlib
import os
import shutil
from dataclasses import dataclass
from pathlib import Path

from building.rooms import Room

from .edits import BadEdit, changed_together, edit_of, functions_of, groups
from .report import NOT_COMPILED, NOT_TRIED, Verdict, error_in, verdict_on

ONE_JOB = ("--jobs", "1")


def link_proof(source, target):
    """Copies what a check kept: a proof by a second name, since `rt` never writes into one, but makes it anew."""
    with contextlib.suppress(OSError):
        if source.endswith(".oantt"):
            return os.link(source, target)
    return shutil.copy2(source, target)


def furnished(root, folder, crates):
    """A room with these crates, lowest first, and what earlier checks of the last one kept in the repository."""
    room = Room(root, folder, tuple(crates))
    for crate in crates:
        room.bring(crate.name)
    kept = root / "crates" / room.name / "out" / "incremental"
    # What another check changes meanwhile is made anew.
    with contextlib.suppress(OSError, shutil.Error):
        if kept.is_dir():
            shutil.copytree(kept, room.crate_folder / "out" / "incremental", symlinks=True, copy_function=link_proof)
    (folder / "crates.txt").write_text("".join(f"{crate.line}\n" for crate in crates), encoding="utf-8")
    shutil.copy2(root / "HANDLES", folder)
    return room


def sources_of(folder):
    """The texts of a crate that an edit may change, by their paths in it."""
    files = sorted(it for part in ("src", "specs", "proofs") for it in (folder / part).rglob("*") if it.suffix in (".rt", ".antt"))
    return {str(it.relative_to(folder)): it.read_text(encoding="utf-8") for it in files}


@dataclass(frozen=True)
class Told:
    """The verdict on a mutant, and the processor seconds that it took."""

    mutant: object
    verdict: Verdict
    seconds: float = 0


class Trial:
    """The trial of some mutants of a crate that stands in a folder, with its sources as they are there."""

    def __init__(self, crate, folder, mutants):
        self.crate, self.folder, self.mutants = crate, folder, mutants
        self.sources = sources_of(folder)

    def steps(self):
        """Yields the words of each command of `rt` that is to be run in the crate's folder, for what it said, and what is told of
        each mutant, for nothing."""
        edits, functions = [], functions_of(self.sources)
        for mutant in self.mutants:
            try:
                edits.append(edit_of(mutant, self.sources, functions))
            except BadEdit as bad:
                yield Told(mutant, Verdict(NOT_COMPILED, str(bad)))
        if not edits:
            return
        ran = yield ("check" if "src/main.rt" in self.sources else "lib", *ONE_JOB)
        if ran.status:
            for edit in edits:
                yield Told(edit.mutant, Verdict(NOT_TRIED, f"the crate itself is not proved: {ran.last}"))
            return
        for group in groups(edits):
            yield from self.together(group)

    def together(self, edits):
        """Tries edits of different functions in one check. Where it does not tell of one for itself, that one is tried alone."""
        ran = yield from self.check(edits)
        broken = {edit.name: error_in(edit, ran.log) for edit in edits if error_in(edit, ran.log)}
        for edit in edits:
            if edit.name in broken:
                yield Told(edit.mutant, Verdict(NOT_COMPILED, broken[edit.name]), ran.seconds / len(edits))
        rest = [edit for edit in edits if edit.name not in broken]
        if broken and rest:
            yield from self.together(rest)
        elif not broken:
            yield from self.each(edits, ran)

    def each(self, edits, ran):
        """Tells what a check says of these edits, each of which was compiled; last of those that are tried alone."""
        share, is_alone = ran.seconds / len(edits), len(edits) == 1
        verdicts = [(edit, verdict_on(edit, self.crate, ran, is_alone)) for edit in edits]
        for edit, verdict in verdicts:
            if is_alone or not verdict.is_open:
                yield Told(edit.mutant, verdict, share)
        for edit, verdict in verdicts:
            if verdict.is_open and not is_alone:
                alone = yield from self.check([edit])
                yield Told(edit.mutant, verdict_on(edit, self.crate, alone, True), share + alone.seconds)

    def check(self, edits):
        """A check of these edits together: of their functions alone, or of all where one changes something besides."""
        self.write(changed_together(self.sources, edits))
        paths = sorted(set().union(*(edit.paths for edit in edits)))
        return (yield ("check", *ONE_JOB, *(word for path in paths for word in ("--only", path))))

    def write(self, sources):
        for file, text in sources.items():
            if text != (self.folder / file).read_text(encoding="utf-8"):
                (self.folder / file).write_text(text, encoding="utf-8")
