#!/usr/bin/env -S python3 -I -S
"""Becomes a program under limits of the system.

usage: limiting.py [NAME=NUMBER..] -- PROGRAM [WORD..]

NAME is a limit of the module `resource`, as AS, FSIZE, NPROC or STACK. With NPROC the program is nobody's, since the system
counts no threads of its administrator. With IGNORED=1 the signal at a file's size limit is ignored, and else it is not.
"""
import os
import resource
import signal
import sys

NOBODY = 65_534


def limit(name, number):
    """Sets a limit of this process."""
    if name == "NPROC" and os.getuid() == 0:
        os.setgroups([])
        os.setgid(NOBODY)
        os.setuid(NOBODY)
    kind = getattr(resource, f"RLIMIT_{name}")
    resource.setrlimit(kind, (number, number))


def main(words):
    place = words.index("--")
    limits = {name: int(number) for name, number in (word.split("=") for word in words[:place])}
    # Python ignores both, and the program would inherit that.
    signal.signal(signal.SIGPIPE, signal.SIG_DFL)
    signal.signal(signal.SIGXFSZ, signal.SIG_IGN if limits.pop("IGNORED", 0) else signal.SIG_DFL)
    for name, number in limits.items():
        limit(name, number)
    os.execv(words[place + 1], words[place + 1:])


if __name__ == "__main__":
    main(sys.argv[1:])
