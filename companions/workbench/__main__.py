"""A session with the program as a page in the browser: a picture of what happened, what may be done next, and why.

The page is served on this machine alone, at an address with a token that nobody else knows: open it in a browser. Control-C ends
it, and the program with it.
"""
import argparse
import signal
import sys
from pathlib import Path

from building import crates, place, programs
from conversation.program import Ended
from conversation.session import Session
from conversation.visible import guard_errors

from .desk import Desk
from .server import Workbench

NAME = place.command("workbench")


def words_of(words):
    parser = argparse.ArgumentParser(prog=NAME, description=__doc__, formatter_class=argparse.RawDescriptionHelpFormatter)
    parser.add_argument("--program", help=f"the program; without it {place.USUAL}")
    parser.add_argument("--budget", metavar="N", help="the most steps of a turn")
    parser.add_argument("--workers", metavar="N", help="the most workers that `work` starts")
    parser.add_argument("--port", metavar="N", type=int, default=0, help="the port; without it one that is free")
    parser.add_argument("file", metavar="FILE", nargs="?", help="commands that are done first")
    return parser.parse_args(words)


def shown(program):
    """The path of a program, short where it stands in the repository."""
    path = Path(program)
    return str(path.relative_to(crates.ROOT) if path.is_relative_to(crates.ROOT) else path)


def program_words(arguments):
    """The program with its options, and what the page says of it."""
    program = arguments.program or programs.program_to_try()
    standing = "named" if arguments.program else "proved" if programs.is_proved(program) else "unproved"
    about = {"program": shown(program), "standing": standing}
    options = [(f"--{name}", getattr(arguments, name)) for name in ("budget", "workers")]
    return [str(program), *(word for pair in options if pair[1] for word in pair)], about


def end_by(number, _):
    """Ends the workbench, and the program with it."""
    sys.exit(0 if number == signal.SIGINT else 128 + number)


def serve(session, about, arguments):
    desk = Desk(session, about)
    with Workbench(desk, arguments.port) as server:
        if arguments.file:
            desk.load(arguments.file)
        print(f"The workbench is at {server.address}", "Open this in a browser; control-C ends it.", sep="\n", flush=True)
        server.serve_forever()


def main(words=None):
    guard_errors()
    arguments = words_of(words)
    for number in (signal.SIGHUP, signal.SIGTERM, signal.SIGINT):
        signal.signal(number, end_by)
    try:
        words, about = program_words(arguments)
        with Session(words, is_watched=True) as session:
            serve(session, about, arguments)
    except (Ended, crates.Fault) as fault:
        print(f"{NAME}: {fault}", file=sys.stderr)
    except OSError as fault:
        print(f"{NAME}: cannot serve the page: {fault.strerror}", file=sys.stderr)
    return 2


if __name__ == "__main__":
    sys.exit(main())
