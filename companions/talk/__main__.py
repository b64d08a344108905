"""The program at a terminal: a prompt at which lines are edited, completed by TAB, and kept for the next time.

Without a terminal, commands are read from standard input, and only the program's replies are written. `help` at the prompt
tells the commands, and what the talk adds to them.
"""
import argparse
import signal
import sys

from building import crates, place, programs
from conversation.program import Ended
from conversation.session import Session
from conversation.visible import forget_output, guard_errors

from .consoles import Pipe
from .talking import Talk

NAME = place.command("talk")


def words_of(words):
    parser = argparse.ArgumentParser(prog=NAME, description=__doc__, formatter_class=argparse.RawDescriptionHelpFormatter)
    parser.add_argument("--program", help=f"the program; without it {place.USUAL}")
    parser.add_argument("--budget", metavar="N", help="the most steps of a turn")
    parser.add_argument("--workers", metavar="N", help="the most workers that `work` starts")
    parser.add_argument("file", metavar="FILE", nargs="?", help="commands that are done first")
    return parser.parse_args(words)


def program_words(arguments):
    """The program with its options."""
    options = [(f"--{name}", getattr(arguments, name)) for name in ("budget", "workers")]
    return [str(arguments.program or programs.program_to_try()), *(word for pair in options if pair[1] for word in pair)]


def console_for(session):
    """The terminal, where there is one."""
    if not (sys.stdin.isatty() and sys.stdout.isatty()):
        return Pipe()
    # The import alone may write to standard output.
    from .terminal import Terminal

    return Terminal(session)


def talk(session, file):
    """The whole talk, and the status that it ends with."""
    talking = Talk(session, console_for(session))
    if talking.console.is_terminal:
        talking.console.tell(["`help` tells the commands, control-D ends the talk."])
    talking.begin(file)
    return 0 if talking.console.is_terminal else int(bool(session.refusals or talking.faults))


def end_by(number, _):
    """Ends the talk, and the program with it, where the terminal is closed or the talk is asked to end."""
    sys.exit(128 + number)


def complain(what):
    print(f"{NAME}: {what}", file=sys.stderr)


def main(words=None):
    guard_errors()
    arguments = words_of(words)
    for number in (signal.SIGHUP, signal.SIGTERM):
        signal.signal(number, end_by)
    try:
        with Session(program_words(arguments)) as session:
            return talk(session, arguments.file)
    except (Ended, crates.Fault) as fault:
        complain(fault)
    except BrokenPipeError:
        forget_output()
    except OSError as fault:
        forget_output()
        complain(f"reading or writing failed: {fault.strerror}")
    except MemoryError:
        complain("there was not memory enough")
    except KeyboardInterrupt:
        return 130
    return 2


if __name__ == "__main__":
    sys.exit(main())
