"""What came of mutants, kept as it comes, so that a run that was interrupted goes on."""
import contextlib
import hashlib
import json
import os
from dataclasses import dataclass
from pathlib import Path

from building.builds import text_of
from building.crates import folder_of, lowest_first
from building.sums import add_text, files_below, sum_of_crate, sum_of_kit

from .contracts import contract_text
from .report import NOT_TRIED, Verdict
from .trial import Told


def place_of_results():
    """Where results are kept, for all copies of the repository."""
    return Path(os.environ.get("XDG_CACHE_HOME") or Path.home() / ".cache") / "evats-mutants"


def seen_of(root, crate):
    """The sum of what other crates see of a crate: its definitions, and its items with their contracts."""
    total, folder = hashlib.sha256(crate.line.encode()), folder_of(root, crate.name)
    for path in (path for part in ("src", "specs") for path in files_below(folder / part)):
        text = Path(path).read_text(encoding="utf-8")
        add_text(total, os.path.relpath(path, folder).encode())
        add_text(total, (contract_text(text) if path.endswith(".rt") else text).encode())
    return total.hexdigest()


def sum_of(root, crates, name):
    """The sum of all that a verdict on a mutant of a crate stands on: the kit, the crate, and what it sees of those below it."""
    *below, own = lowest_first(crates, name)
    total = hashlib.sha256(sum_of_kit().encode())
    for text in (*(seen_of(root, crate) for crate in below), sum_of_crate(root, own, ("src", "specs", "proofs"))):
        add_text(total, text.encode())
    return total.hexdigest()


@dataclass
class Results:
    """What came of the mutants of a crate, in a file with a line for each."""

    file: Path
    sum: str

    def key(self, mutant):
        return hashlib.sha256(repr((self.sum, mutant.changes)).encode()).hexdigest()

    def kept(self):
        """What earlier runs told, by the keys of the mutants. A line that was cut off, as on a full disk, tells nothing."""
        found = {}
        for line in (text_of(self.file) or "").splitlines():
            with contextlib.suppress(ValueError, KeyError, TypeError):
                said = json.loads(line)
                found[said["key"]] = (Verdict(said["fault"], said["said"]), said["seconds"])
        return found

    def earlier(self, mutants):
        """What earlier runs told of these mutants."""
        kept = self.kept()
        return [Told(mutant, *kept[self.key(mutant)]) for mutant in mutants if self.key(mutant) in kept]

    def keep(self, told):
        """Keeps what came of a mutant that was tried."""
        if told.verdict.fault == NOT_TRIED:
            return
        self.file.parent.mkdir(mode=0o700, parents=True, exist_ok=True)
        said = {"key": self.key(told.mutant), "fault": told.verdict.fault, "said": told.verdict.said, "seconds": round(told.seconds, 1)}
        with open(self.file, "a", encoding="utf-8") as out:
            out.write(json.dumps(said) + "\n")
