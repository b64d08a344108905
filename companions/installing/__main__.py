"""Installs the program below PREFIX, with its manual page, the companions, and what bash and editors know of the language.

  PREFIX/bin          evats; evats-talk, evats-causes and evats-workbench, which are ./talk, ./causes and ./workbench
  PREFIX/lib/evats    what these need, the documents of the language among it, and the list of all that was put
  PREFIX/share        the manual page, the completion for bash, the mode for vim, the TextMate grammar

The program is the one that ./prove proved and built of the sources as they are. Where there is none, nothing is installed.
With --unproved it is one of which nothing is proved; it is built first, where that was not done yet. The manual page says so then,
and `evats --version` and `evats --help` do on standard error.

Outside of PREFIX nothing is put. What was installed there before is replaced, and what else stands at these places is not. Where
DESTDIR is set, as by those who make packages, all goes below DESTDIR/PREFIX, to be moved to PREFIX later.
"""
import argparse
import os
import shlex
import sys

from building.builds import proved_build, unproved_build
from building.crates import PROGRAM, ROOT, Fault
from building.processes import Interrupted, interruptions
from building.programs import NOTHING_PROVED, say, unproved_program

from .contents import COMPLETION, VIM, contents
from .prefix import Prefix, put, take_away

NOT_BUILT = """\
there is no program that was proved of the sources as they are, so nothing was installed.
  ./prove                 proves and builds it, and says how long that takes
  ./install --unproved    installs one of which nothing is proved, which is built in some minutes"""


def words_of(words):
    parser = argparse.ArgumentParser(prog="./install", description=__doc__, formatter_class=argparse.RawDescriptionHelpFormatter)
    which = parser.add_mutually_exclusive_group()
    which.add_argument("--unproved", action="store_true", help="installs the program without its proofs")
    which.add_argument("--uninstall", action="store_true", help="takes away what was installed below PREFIX, and nothing else")
    parser.add_argument("prefix", metavar="PREFIX", nargs="?", default="~/.local", help="a folder; ~/.local if not given")
    return parser.parse_args(words)


def build_to_install(is_unproved, root=ROOT):
    """The build that is installed."""
    if is_unproved:
        unproved_program(root)
        return unproved_build(root)
    build = proved_build(root)
    if not build.is_current():
        raise Fault(NOT_BUILT)
    return build


def hints(prefix):
    """What a person may have to do besides, line by line; nothing where it is installed to be moved."""
    if prefix.written != prefix.path:
        return
    path = [os.path.abspath(each) for each in os.environ.get("PATH", "").split(os.pathsep)]
    if str(prefix.path / "bin") not in path:
        yield f"  {prefix.path / 'bin'} is not on the PATH yet"
    yield f"  bash: source {shlex.quote(str(prefix.path / COMPLETION / PROGRAM))}, where bash-completion does not find it"
    yield f"  vim: set runtimepath^={str(prefix.path / VIM).replace(' ', chr(92) + ' ')}"


def install(prefix, is_unproved):
    build = build_to_install(is_unproved)
    files, version = contents(build, prefix.path)
    put(prefix, files, {"program": version, "is_proved": build.is_proved, "sources": build.sources(), "prefix": str(prefix.path)})
    print(f"{version} is in {prefix.written}, with {len(files)} files", *hints(prefix), sep="\n")
    say(f"install: {NOTHING_PROVED}" if is_unproved else "install: the program is the one that was proved")


def uninstall(prefix):
    changed = take_away(prefix)
    for path in changed:
        say(f"install: {prefix.written / path} stays: it was changed since it was installed")
    print(f"{PROGRAM} is no longer in {prefix.written}")


def main(words=None):
    arguments = words_of(words)
    try:
        prefix = Prefix.of(arguments.prefix)
        with interruptions():
            uninstall(prefix) if arguments.uninstall else install(prefix, arguments.unproved)
    except (Fault, OSError) as fault:
        say(f"install: {fault}")
        return 2
    except Interrupted as interrupted:
        return interrupted.status
    return 0


if __name__ == "__main__":
    sys.exit(main())
