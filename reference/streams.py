"""Lines as they come from a file, and replies on their way to another one."""
import os

from commands import MOST_BYTES

PIECE = 1 << 16


class Cut(Exception):
    """Why a run was cut short."""


def pieces_of(file):
    """What a file gives, as it comes."""
    while True:
        try:
            piece = os.read(file, PIECE)
        except OSError:
            raise Cut("reading failed") from None
        if not piece:
            return
        yield piece


def lines_in(pieces):
    """The lines that pieces make up, each as soon as it is whole, as `lines_of` has them. Of a line that is too long just as
    much is kept as shows that."""
    held = bytearray()
    for piece in pieces:
        first, *others = piece.split(b"\n")
        held += first[:MOST_BYTES + 1 - len(held)]
        for other in others:
            line = bytes(held)
            yield line, line.removesuffix(b"\r")
            held = bytearray(other[:MOST_BYTES + 1])
    if held:
        yield bytes(held), bytes(held)


def write(file, data):
    """Writes bytes, all of them."""
    try:
        while data:
            data = data[os.write(file, data):]
    except OSError:
        raise Cut("writing failed") from None
