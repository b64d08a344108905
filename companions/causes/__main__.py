"""Draws the events of a session with their causes and messages, as a picture in SVG.

Runs the commands of FILE (without FILE: standard input) on the built program, and asks it what happened. The picture has a lane
for each vat, and in it the events from left to right in the journal's order.
"""
import argparse
import contextlib
import pathlib
import re
import sys

from building import crates, place, programs
from conversation.commands import commands_of, lines_of
from conversation.files import FileFault, bytes_of
from conversation.journal import JournalFault
from conversation.program import Ended, TooMuch
from conversation.session import Session
from conversation.visible import forget_output, guard_errors
from picture.layout import scene_of
from picture.looks import LOOKS
from picture.svg import picture

NAME = place.command("causes")
LONGEST_TOLD = 60


class Fault(Exception):
    """Why there is no picture."""


def read_input(file):
    try:
        with open(file, "rb") if file else contextlib.nullcontext(sys.stdin.buffer) as stream:
            return bytes_of(stream, file or "standard input")
    except FileFault as fault:
        raise Fault(str(fault)) from fault
    except OSError as fault:
        raise Fault(f"cannot read {file or 'standard input'}: {fault.strerror}") from fault


def program_named(word):
    """The program that a word names; without one that which is built."""
    try:
        return word or programs.program_to_try()
    except crates.Fault as fault:
        raise Fault(str(fault)) from fault


def checked_cone(events, name):
    """The event as the journal spells its name, which must be live there."""
    if name is None:
        return None
    if not re.fullmatch(r"e[0-9]+", name):
        raise Fault(f"--cone wants the name of an event, as e3, and not {name}")
    name = f"e{int(name[1:])}"
    found = [event for event in events if event.name == name]
    if not found:
        raise Fault(f"there is no event {name}")
    if not found[0].is_live:
        raise Fault(f"{name} is undone, so nothing comes of it")
    return name


def refused(command, why):
    line = command.line if len(command.line) <= LONGEST_TOLD else command.line[: LONGEST_TOLD - 3] + " .."
    return f"`{line}`: {why}"


def session_of(program, commands):
    """What there is to be drawn of a session of these commands, and those that were refused, each with its reply."""
    try:
        with Session([program], is_watched=True) as session:
            for command in commands:
                session.give(command)
            return scene_of(session), [refused(each.command, each.reply[-1]) for each in session.answered if each.refusal]
    except (Ended, JournalFault, TooMuch) as fault:
        raise Fault(str(fault)) from fault


def drawn(program, text, cone_of=None, **options):
    """The picture of a session, and its commands that were refused, each with its reply.

    The program refuses a vat whose script the input's end cuts off.
    """
    commands = commands_of(lines_of(text.decode(errors="surrogateescape")))
    whole = [command for command in commands if command.is_complete]
    scene, answers = session_of(program, whole)
    svg = picture(scene, checked_cone(scene.events, cone_of), **options)
    return svg, answers + [refused(each, "the input ends inside its script") for each in commands if not each.is_complete]


def put(file, text):
    try:
        if file:
            pathlib.Path(file).write_text(text, encoding="utf-8")
        else:
            sys.stdout.buffer.write(text.encode())
            sys.stdout.buffer.flush()
    except OSError as fault:
        if not file:
            forget_output()
        raise Fault(f"cannot write {file or 'standard output'}: {fault.strerror}") from fault


def words_of(words):
    parser = argparse.ArgumentParser(prog=NAME, description=__doc__, formatter_class=argparse.RawDescriptionHelpFormatter)
    parser.add_argument("--program", help=f"the program; without it {place.USUAL}")
    parser.add_argument("--out", metavar="FILE.svg", help="where the picture goes; without it to standard output")
    parser.add_argument("--cone", metavar="E", help="an event, as e3, that is coloured with all that came of it")
    parser.add_argument("--all", action="store_true", help="draws arrivals and learning as events too, and not within others")
    parser.add_argument("--dark", action="store_true", help="draws on a dark ground")
    parser.add_argument("file", metavar="FILE", nargs="?", help="the commands; without it standard input is read")
    return parser.parse_args(words)


def draw(arguments):
    """Draws what the words ask for, and tells which commands were refused."""
    text = read_input(arguments.file)
    look = LOOKS["dark" if arguments.dark else "light"]
    svg, faults = drawn(program_named(arguments.program), text, arguments.cone, is_folded=not arguments.all, look=look)
    put(arguments.out, svg)
    if faults:
        count = "1 command was refused," if len(faults) == 1 else f"{len(faults)} commands were refused, the first is"
        complain(f"{count} {faults[0]}")


def complain(what):
    print(f"{NAME}: {what}", file=sys.stderr)


def main(words=None):
    guard_errors()
    arguments = words_of(words)
    try:
        draw(arguments)
        return 0
    except Fault as fault:
        complain(fault)
    except MemoryError:
        complain("there was not memory enough")
    except KeyboardInterrupt:
        return 130
    return 2


if __name__ == "__main__":
    sys.exit(main())
