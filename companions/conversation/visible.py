"""Texts as a terminal may be given them: what would move its cursor, colour it, talk to it or turn letters round is spelled."""
import contextlib
import io
import os
import re
import sys

# Controls but the tab, DEL, those of the upper half, marks that turn the direction of writing or end a line, and what stands for
# a byte that is no text.
CONTROL = re.compile("[\0-\x08\n-\x1f\x7f-\x9f\u061c\u200e\u200f\u2028-\u202e\u2066-\u2069\ufeff\ud800-\udfff]")


def spelled(found):
    """A control by its number; a byte that is no text by its value."""
    code = ord(found[0])
    return f"\\x{code - 0xDC00:02x}" if 0xDC80 <= code <= 0xDCFF else f"\\u{{{code:x}}}"


def visible(line):
    """A line in which each control is spelled."""
    return CONTROL.sub(spelled, line)


def for_stream(line, stream):
    """A line as it is written to a stream: to a terminal as it can be seen, and else as it is."""
    return visible(line) if stream.isatty() else line


def lines_for_stream(text, stream):
    """The lines of a text, each as it is written to a stream."""
    return "\n".join(for_stream(line, stream) for line in text.split("\n"))


class Seen(io.TextIOWrapper):
    """Standard error at a terminal, in whose lines each control can be seen, whoever writes them."""

    def write(self, text):
        super().write("\n".join(map(visible, text.split("\n"))))
        return len(text)


def guard_errors():
    """Has each control be seen in what is written to standard error, if that is a terminal."""
    if sys.stderr.isatty():
        sys.stderr = Seen(sys.stderr.buffer, encoding=sys.stderr.encoding, errors="backslashreplace", line_buffering=True)


def forget_output():
    """Forgets what is still to be written to standard output, which takes nothing more."""
    with contextlib.suppress(OSError, ValueError):
        os.dup2(os.open(os.devnull, os.O_WRONLY), sys.stdout.fileno())
