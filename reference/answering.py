"""A run: commands are answered as the program answers them, and the run ends as one of the program does."""
import contextlib
import os
import traceback

from book import Book
from commands import Engine
from deepening import NoThread, deep
from streams import Cut, lines_in, pieces_of, write
from words import NoText, Shown, WrongWords, options_of, quoted, quoted_bytes

INPUT, OUTPUT, ERRORS = 0, 1, 2
ACCEPTED, REFUSED, FAILED = 0, 1, 2


def opened(file):
    """The file that has the commands."""
    if file is None:
        return INPUT
    try:
        return os.open(file.encode(), os.O_RDONLY | os.O_CLOEXEC)
    except OSError:
        raise Cut(f"cannot read {quoted(file)}") from None


def answer(options):
    """Answers all commands, each before more of them is read, and gives the exit status."""
    engine = Engine(Book(options.budget))
    try:
        for reply in engine.answer_lines(lines_in(pieces_of(opened(options.file)))):
            write(OUTPUT, f"{reply}\n".encode())
    except MemoryError:
        raise Cut("out of memory") from None
    return REFUSED if engine.is_refused else ACCEPTED


def obey(words):
    """Does what the words ask for, and gives the exit status."""
    try:
        return deep(lambda: answer(options_of(words)))
    except Shown as shown:
        write(OUTPUT, str(shown).encode())
        return ACCEPTED


def complain(text):
    """Says on standard error what is wrong. Where it cannot be said, the status alone tells it."""
    with contextlib.suppress(Cut):
        write(ERRORS, text.encode())
    return FAILED


def run(words):
    """Does what the words ask for, or says why not, and gives the exit status."""
    try:
        return obey(words)
    except NoText as fault:
        return complain(f'evats: this word is not UTF-8: "{quoted_bytes(fault.word)}"\n')
    except WrongWords as fault:
        return complain(fault.told)
    except NoThread:
        return complain("evats: no thread can be started\n")
    except Cut as fault:
        return complain(f"evats: {fault}\n")


def main(words):
    """Ends this process with the exit status of a run. Nothing waits to be written then, and nobody needs the memory back that
    the world has."""
    try:
        status = run(words)
    except Exception:
        # The interpreter itself is at fault. No command was refused for that.
        traceback.print_exc()
        status = FAILED
    os._exit(status)
