"""Which cases are meant: those of files, of folders, and of the documents."""
from pathlib import Path

from . import documents, tables
from .cases import Broken, Session

ROOT = Path(__file__).resolve().parents[2]
DOCUMENTS = ("README.md", "docs/LANGUAGE.md", "docs/COMMANDS.md")
USUAL = tuple(str(ROOT / name) for name in ("tests", "examples", *DOCUMENTS))
SESSION, TABLE, DOCUMENT = ".evats", ".table", ".md"
BESIDE = (".replies", ".args", ".status", ".errors")


def name_of(path):
    """A path as it is told: below the top of the repository, if it is there."""
    return str(path.relative_to(ROOT) if path.is_relative_to(ROOT) else path)


def lacking(path):
    """Why a file of a session or a table stands alone, if it does: what belongs to it is not there."""
    wanted = {SESSION: [".replies"], ".replies": [SESSION]}.get(path.suffix, [SESSION, TABLE])
    if any(path.with_suffix(ending).exists() for ending in wanted):
        return []
    names = " or ".join(path.with_suffix(ending).name for ending in wanted)
    return [Broken(name_of(path), f"there is no {names} beside it")]


def cases_at(path):
    """The cases of a file."""
    if path.suffix == DOCUMENT:
        return documents.cases_in(path, name_of(path))
    if path.suffix == TABLE:
        return tables.cases_in(path, name_of(path))
    if path.suffix == SESSION:
        return lacking(path) or [Session(path).case(name_of(path.with_suffix("")))]
    return lacking(path) if path.suffix in BESIDE else [Broken(name_of(path), "this is no file of a test")]


def files_below(path):
    """The files of a folder and of those in it, but for documents and programs; or the file itself."""
    if not path.is_dir():
        return [path]
    return [each for each in sorted(path.rglob("*")) if each.is_file() and each.suffix not in ("", DOCUMENT)]


def with_endings(path):
    """The session and the table of this name."""
    found = [path.with_name(path.name + ending) for ending in (SESSION, TABLE)]
    return [each for each in found if each.is_file()]


def files_named(name):
    """The files that a name means: a path from here or from the top, also without its ending, or a name below the usual folders."""
    for top in (Path.cwd(), ROOT):
        path = (top / name).resolve()
        found = files_below(path) if path.exists() else with_endings(path)
        if found:
            return found
    folders = [path.parent for usual in USUAL for path in files_below(Path(usual))]
    return [path for folder in dict.fromkeys(folders) for path in with_endings(folder / name)]


def cases_named(name):
    """The cases that a name means."""
    found = [case for path in files_named(name) for case in cases_at(path)]
    return found or [Broken(name, "there is no such test")]


def cases_of(names):
    """The cases that names mean; without names, all that there are."""
    return [case for name in names or USUAL for case in cases_named(name)]


def accept(names, run):
    """Writes what the program does into the sessions and tables that names mean, and gives the files that were changed."""
    paths = [path for name in names or USUAL for path in files_named(name)]
    ways = {SESSION: lambda path: Session(path).accept(run), TABLE: lambda path: tables.accept(path, run)}
    return [changed for path in paths if path.suffix in ways for changed in ways[path.suffix](path)]
