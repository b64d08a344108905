"""Sums of sources: two builds whose sums are the same were made from the same text, with the same kit."""
import hashlib
import os

from .crates import Fault, folder_of
from .kit import KIT

CODE = ("src",)
CODE_AND_PROOFS = ("src", "specs", "proofs")


def files_below(folder):
    """The files of a folder and of those in it, in one order."""
    return sorted(os.path.join(at, name) for at, _, names in os.walk(folder) for name in names)


def add_text(total, text):
    """Adds a text to a sum, with its length, so that no two rows of texts give the same sum."""
    total.update(f"{len(text)} ".encode())
    total.update(text)


def sum_of_crate(root, crate, parts):
    """The sum of a crate's line and of its files in these parts."""
    total = hashlib.sha256(crate.line.encode())
    folder = folder_of(root, crate.name)
    for path in (path for part in parts for path in files_below(folder / part)):
        with open(path, "rb") as file:
            add_text(total, os.path.relpath(path, folder).encode(errors="surrogateescape"))
            add_text(total, file.read())
    return total.hexdigest()


def sum_of_kit():
    """The line that names the kit."""
    try:
        return (KIT / "KIT-ID").read_text(encoding="utf-8").strip()
    except OSError as fault:
        raise Fault(f"there is no kit of Rattle at {KIT}, which proves and compiles: {fault.strerror}") from fault


def sums_of(root, crates, parts):
    """The sum of each crate with all that it stands on; the crates come lowest first."""
    kit, sums = sum_of_kit(), {}
    for crate in crates:
        total = hashlib.sha256(kit.encode())
        add_text(total, sum_of_crate(root, crate, parts).encode())
        for use in crate.uses:
            add_text(total, sums.get(use, use).encode())
        sums[crate.name] = total.hexdigest()
    return sums


def sum_of_file(path):
    """The sum of a file, or None where there is none."""
    try:
        with open(path, "rb") as file:
            return hashlib.sha256(file.read()).hexdigest()
    except OSError:
        return None
