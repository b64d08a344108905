"""What is installed: which files, with what in them."""
import subprocess
from dataclasses import dataclass
from modulefinder import ModuleFinder
from pathlib import Path

from building.crates import PROGRAM, Fault
from building.programs import NOTHING_PROVED

from .manual import DOCUMENTS, manual

COMPANIONS = ("talk", "causes", "workbench")
# The folder that stands for the repository, where the companions look for what they read.
LIBRARY = f"lib/{PROGRAM}"
COMPLETION = "share/bash-completion/completions"
VIM = "share/vim/vimfiles"
TEXTMATE = f"share/{PROGRAM}/{PROGRAM}.tmLanguage.json"
MANUAL = f"share/man/man1/{PROGRAM}.1"
SECONDS = 10

COMPANION = """\
#!/usr/bin/env -S python3 -I -S
# {what}
import sys
from pathlib import Path

# All stays as it was installed, so that it can be taken away.
sys.dont_write_bytecode = True
sys.path.insert(0, str(Path(__file__).resolve().parents[1] / "{library}" / "companions"))

from {name}.__main__ import main

sys.exit(main())
"""
UNPROVED = """\
#!/bin/sh
# Runs {program} without its proofs. Where it is asked what it is, it says so.
for word in "$@"; do
  case $word in -h | --help | -V | --version) echo "{nothing}" >&2 && break ;; esac
done
exec "$(dirname "$(readlink -f "$0")")/../{library}/{program}" "$@"
"""


@dataclass(frozen=True)
class File:
    """What is in a file, and whether it can be run."""

    data: bytes
    can_run: bool = False


def said(program, option):
    """What the program says of itself."""
    try:
        ran = subprocess.run([program, option], capture_output=True, text=True, timeout=SECONDS, check=True)
    except (OSError, subprocess.SubprocessError) as fault:
        raise Fault(f"{program} {option} says nothing: {fault}") from fault
    return ran.stdout


def script(text, **words):
    return File(text.format(program=PROGRAM, library=LIBRARY, **words).encode(), can_run=True)


def program_files(build):
    """The program; one that is not proved is behind a script which says so."""
    program = File(build.program.read_bytes(), can_run=True)
    if build.is_proved:
        return {f"bin/{PROGRAM}": program}
    return {f"bin/{PROGRAM}": script(UNPROVED, nothing=NOTHING_PROVED), f"{LIBRARY}/{PROGRAM}": program}


def modules(folder):
    """The files of the modules that the companions start with, and of all that these import here."""
    finder = ModuleFinder([str(folder)])
    for name in COMPANIONS:
        finder.import_hook(f"{name}.__main__")
    return [Path(module.__file__) for module in finder.modules.values() if module.__file__]


def first_sentence(root, name):
    """What a companion is, in the words of its package."""
    return (root / "companions" / name / "__init__.py").read_text(encoding="utf-8").strip().strip('"').split(". ")[0]


def companion_files(root):
    """The commands of the companions, and what these read."""
    page = sorted((root / "companions" / "workbench" / "page").iterdir())
    read = [*modules(root / "companions"), *page, *(root / "docs" / name for name in DOCUMENTS)]
    found = {f"{LIBRARY}/{path.relative_to(root)}": File(path.read_bytes()) for path in read}
    for name in COMPANIONS:
        found[f"bin/{PROGRAM}-{name}"] = script(COMPANION, name=name, what=f"{first_sentence(root, name)}.")
    return found


def editor_files(root):
    """What bash completes, and what editors know of the language."""
    editors = root / "editors"
    bash = File((editors / "bash" / f"{PROGRAM}.bash").read_bytes())
    names = [PROGRAM, *(f"{PROGRAM}-{name}" for name in COMPANIONS)]
    vim = {f"{VIM}/{path.relative_to(editors / 'vim')}": path for path in sorted((editors / "vim").rglob("*.vim"))}
    return {
        **{f"{COMPLETION}/{name}": bash for name in names},
        **{place: File(path.read_bytes()) for place, path in vim.items()},
        TEXTMATE: File((editors / "textmate" / Path(TEXTMATE).name).read_bytes()),
    }


def contents(build, prefix):
    """All files that are to stand below a folder, by their paths there, and the version of the program."""
    version = said(build.program, "--version").strip()
    page = manual(said(build.program, "--help"), version, build, prefix)
    files = {**program_files(build), **companion_files(build.root), **editor_files(build.root), MANUAL: File(page.encode())}
    return files, version
