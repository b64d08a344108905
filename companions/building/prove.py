"""Proves the program and all that it stands on, and builds it: ./run takes it from then on.

usage: ./prove

It takes some two hours of one core, proves crates side by side, tells how far it is, and goes on where it was interrupted. It ends
with 2 where a crate is refused. What was proved already is not proved again.
"""
import sys

from .builds import proved_build
from .crates import PROGRAM, ROOT, Fault
from .processes import Interrupted, interruptions
from .programs import say
from .proving import prove


def main(words, root=ROOT):
    if words:
        print(__doc__.strip())
        return 0 if words in (["-h"], ["--help"]) else 2
    build = proved_build(root)
    try:
        with interruptions():
            if not build.is_current():
                prove(build)
        say(f"{PROGRAM} is proved; ./run takes it")
    except (Fault, OSError) as fault:
        say(f"prove: {fault}")
        return 2
    except Interrupted as interrupted:
        return interrupted.status
    return 0


if __name__ == "__main__":
    sys.exit(main(sys.argv[1:]))
