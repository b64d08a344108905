"""Has `./run` take the program that the gate proved and built.

usage: companions/start.py building.gate        prints the sum of the sources
       companions/start.py building.gate SUM    notes that the program which stands was made from the sources of this sum, if they
                                                 are still the same
"""
import sys

from .builds import proved_build


def main(words):
    build = proved_build()
    sources = build.sources()
    if not words:
        print(sources)
    elif words == [sources] and build.program.exists():
        build.note(sources)


if __name__ == "__main__":
    main(sys.argv[1:])
