"""What is told where the program did something else than is wanted."""
import re
import signal

from conversation.commands import commands_of, lines_of

WIDTH = 160
RUN = re.compile(r"run[ \t]+(\d+)[ \t]*")
STEPPED = re.compile(r"ok e\d+")
LISTED = {
    "show": re.compile(r" |vat |msg |board "),
    "journal": re.compile(r"base \d|\d+ e\d"),
    "enabled": re.compile(r"(?:enabled|arrive|forward|turn|learn) "),
}


def lines_in(text):
    """The lines of a text, each with the line feed that ends it."""
    return re.findall(rb"[^\n]*\n|[^\n]+$", text)


def beginning(lines, pattern, most):
    """How many of the first lines begin as the pattern says."""
    return next((place for place, line in enumerate(lines[:most]) if not pattern.match(line)), min(most, len(lines)))


def length_of_reply(command, lines):
    """How many of the lines, which begin with its reply, are the reply to a command."""
    ran, word = RUN.fullmatch(command.line), command.word
    if lines and lines[0].startswith("no "):
        return 1
    if ran:
        done = beginning(lines, STEPPED, int(ran[1]))
        return done + (lines[done : done + 1] == ["idle"])
    return beginning(lines, LISTED[word], len(lines)) if word in LISTED else 1


def command_of(commands, replies, place):
    """The command that the reply line in this place belongs to, as far as the replies fit the commands."""
    lines, end = lines_of(replies.decode(errors="backslashreplace")), 0
    for command in commands_of(lines_of(commands.decode(errors="backslashreplace"))):
        end += length_of_reply(command, lines[end:])
        if place < end:
            return f"to `{command.line}`"
    return "after the last command"


def shown(line, at):
    """A line as it is told, cut where it is long to what stands around a place."""
    if line is None:
        return "nothing"
    start = max(0, at - WIDTH // 2) if len(line) > WIDTH else 0
    text = line[start : start + WIDTH].decode(errors="backslashreplace").replace("\r", "␍")
    end = "" if text.endswith("\n") or len(line) > start + WIDTH else " (and no line feed)"
    return f"{'.. ' if start else ''}{text.rstrip(chr(10))}{' ..' if len(line) > start + WIDTH else ''}{end}"


def first_difference(wanted, got):
    """The first place in which two lists of lines or bytes are not the same."""
    same = next((place for place, (one, other) in enumerate(zip(wanted, got)) if one != other), None)
    return min(len(wanted), len(got)) if same is None else same


def difference_of_texts(wanted, got, where):
    """The first line that is not as wanted, or nothing where all are; `where` tells more of the line's place."""
    if wanted == got:
        return []
    all_wanted, all_got = lines_in(wanted), lines_in(got)
    place = first_difference(all_wanted, all_got)
    pair = [(lines[place : place + 1] or [None])[0] for lines in (all_wanted, all_got)]
    at = first_difference(*(line or b"" for line in pair))
    return [f"line {place + 1} {where(place)}", f"  wanted: {shown(pair[0], at)}", f"  got:    {shown(pair[1], at)}"]


def difference_of_ends(wanted, status, seconds):
    """How the program ended, where that is not as wanted."""
    if status == wanted:
        return []
    if status is None:
        return [f"hangs: it had not ended after {seconds:g} seconds"]
    if status < 0:
        return [f"died by signal {-status}, {signal.strsignal(-status)}"]
    return [f"ended with status {status}, and wanted is {wanted}"]


def differences(case, ran, seconds):
    """What a run did otherwise than a case wants, line by line: nothing where it did just that."""

    def at_its_command(place):
        return f"of the replies, {command_of(case.commands, case.replies, place)}"

    return [
        *difference_of_ends(case.status, ran.status, seconds),
        *difference_of_texts(case.errors, ran.errors, lambda _: "of standard error"),
        *difference_of_texts(case.replies, ran.replies, at_its_command),
    ]
