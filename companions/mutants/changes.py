"""Which crates have mutants to be tried since a revision: those that changed, and those above a changed contract."""
import re
import subprocess
from pathlib import Path

from building.crates import crates_in

from .contracts import contract_text
from .edits import FILE

OWN_FILE = re.compile(rf"crates/(\w+)/(?:(src|specs|proofs)/|{re.escape(FILE)}$)")


class NoSuchRevision(Exception):
    """The revision is none of this repository's."""


def stands_on(text):
    """The crates of a `crates.txt`, in its order, each with those of them that it stands on."""
    crates = crates_in(text)
    return {name: [use for use in crate.uses if use in crates] for name, crate in crates.items()}


def git(root, *words):
    return subprocess.run(["git", "-C", str(root), *words], capture_output=True, check=False)


def earlier(root, revision, path):
    """The text that a file had at a revision; nothing where it was not there."""
    shown = git(root, "show", f"{revision}:{path}")
    return shown.stdout.decode() if shown.returncode == 0 else ""


def changed_files(root, revision):
    """The files that are not as they were at a revision, those that git does not know among them."""
    told = git(root, "diff", "--name-only", "-z", "--no-renames", revision, "--")
    if told.returncode:
        raise NoSuchRevision(revision)
    new = git(root, "ls-files", "--others", "--exclude-standard", "-z")
    return sorted(set(filter(None, (told.stdout + new.stdout).decode().split("\0"))))


def now(root, path):
    file = Path(root, path)
    return file.read_text() if file.is_file() else ""


def turns_contract(root, revision, path):
    """A change of this file that crates above can see: of a definition, of an item, or of a contract."""
    part = OWN_FILE.match(path)[2]
    if part == "specs":
        return True
    return part == "src" and contract_text(now(root, path)) != contract_text(earlier(root, revision, path))


def to_be_tried(root, revision):
    """The crates whose own files changed since a revision, or a contract below them, in the order of `crates.txt`."""
    below, before = stands_on(now(root, "crates.txt")), stands_on(earlier(root, revision, "crates.txt"))
    own = {path: file[1] for path in changed_files(root, revision) if (file := OWN_FILE.match(path))}
    changed = set(own.values()) | {name for name in below if below[name] != before.get(name)}
    seen = {name for path, name in own.items() if turns_contract(root, revision, path)}

    def reaches_seen(name):
        return any(it in seen or reaches_seen(it) for it in below[name])

    return [name for name in below if name in changed or reaches_seen(name)]
