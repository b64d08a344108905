"""What crates.txt says: the crates of the repository, and what each stands on."""
from dataclasses import dataclass
from pathlib import Path

ROOT = Path(__file__).resolve().parents[2]
PROGRAM = "evats"


class Fault(Exception):
    """Why there is no program to run."""


@dataclass(frozen=True)
class Crate:
    """A line of crates.txt: a crate, and the libraries that it names, of the repository and of the kit."""

    name: str
    uses: tuple
    line: str


def crate_of(line):
    """The crate of a line, or None where the line has none."""
    head, colon, uses = line.partition("#")[0].partition(":")
    if not head.strip():
        return None
    if not colon:
        raise Fault(f"crates.txt: a line is NAME: LIBRARY .., and not {line.strip()}")
    return Crate(head.split()[0], tuple(uses.split()), line.strip())


def crates_in(text):
    """The crates that a text as that of crates.txt names, by their names."""
    crates = [crate for crate in map(crate_of, text.splitlines()) if crate]
    return {crate.name: crate for crate in crates}


def read_crates(root):
    """The crates of a repository by their names."""
    try:
        text = (root / "crates.txt").read_text(encoding="utf-8")
    except OSError as fault:
        raise Fault(f"cannot read {root / 'crates.txt'}: {fault.strerror}") from fault
    return crates_in(text)


def lowest_first(crates, name):
    """The crates that this one stands on and itself, each behind those that it uses."""
    found, open_names = {}, set()

    def visit(name):
        if name in open_names:
            raise Fault(f"crates.txt: {name} stands on itself")
        if name in crates and name not in found:
            open_names.add(name)
            for use in crates[name].uses:
                visit(use)
            open_names.remove(name)
            found[name] = crates[name]

    if name not in crates:
        raise Fault(f"crates.txt has no line of {name}")
    visit(name)
    return list(found.values())


def kit_libraries(crates):
    """The libraries of the kit that these crates name; each crate stands on std."""
    own = {crate.name for crate in crates}
    named = ["std", *(use for crate in crates for use in crate.uses if use not in own)]
    return list(dict.fromkeys(named))


def folder_of(root, name):
    """Where a crate stands."""
    return root / "crates" / name
