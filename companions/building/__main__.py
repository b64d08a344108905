"""Runs the program on the words given here.

usage: ./run [WORDS]             the program that ./prove proved of these sources; without one, it is built without the proofs, and
                                 where there is no kit of Rattle, the plain interpreter takes its place: it is told which
       ./run --proved [WORDS]    the proved program, or none

WORDS are those of the program, as [FILE]: its own --help tells them once it is built.
"""
import os
import signal
import sys

from . import kit
from .builds import proved_build
from .chosen import chosen_program
from .crates import PROGRAM, ROOT, Fault
from .processes import Interrupted, interruptions
from .programs import Choice, is_built, say

HELP = (["-h"], ["--help"])
PROVED = "--proved"
WITH_A_NUMBER = ("--budget", "--workers")
OPTIONS = (*WITH_A_NUMBER, "--help", "--version", "--")


def check_words(words):
    """Refuses an option that the program has not, and a file that cannot be read, before the program is built for them."""
    for before, word in zip(["", *words], words):
        if word.startswith("--") and word.partition("=")[0] not in OPTIONS:
            raise Fault(f"there is no option {word}; nothing was built")
        if not word.startswith("-") and before not in WITH_A_NUMBER and not os.access(word, os.R_OK):
            raise Fault(f"cannot read {word}; nothing was built")


def proved_choice(root):
    """The proved program, or none."""
    if not kit.is_there():
        raise Fault(f"there is no kit of Rattle at {kit.KIT}, so nothing is proved here")
    if not proved_build(root).is_current():
        raise Fault(f"{PROGRAM} is not proved here, or its sources have changed since: ./prove proves and builds it")
    return Choice(proved_build(root).program)


def become(program, words):
    """Runs the program in place of this process, with its input and output."""
    # Python ignores two signals, and the program inherits that: of a pipe that is closed it should not, of a file that may not
    # grow it should, since it cannot ignore that signal by itself, and says then that writing failed.
    signal.signal(signal.SIGPIPE, signal.SIG_DFL)
    signal.signal(signal.SIGXFSZ, signal.SIG_IGN)
    os.execv(program, [str(program), *words])


def main(words, root=ROOT):
    has_to_be_proved = words[:1] == [PROVED]
    words = words[has_to_be_proved:]
    try:
        if not has_to_be_proved and not is_built(root):
            if words in HELP:
                print(__doc__.rstrip())
                return 0
            check_words(words)
        with interruptions():
            chosen = proved_choice(root) if has_to_be_proved else chosen_program(root)
        if chosen.line:
            say(chosen.line)
        become(chosen.program, words)
    except (Fault, OSError) as fault:
        say(f"run: {fault}")
    except Interrupted as interrupted:
        return interrupted.status
    return 2


if __name__ == "__main__":
    sys.exit(main(sys.argv[1:]))
