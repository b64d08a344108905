"""Starts a companion, or another module of this folder, by its name.

usage: python3 -I -S companions/start.py NAME [WORDS]

`python3 -m NAME` looks into the current folder first, which may be anybody's, and into what PYTHONPATH names. Started so, only this
folder and Python's own library are looked at.
"""
import runpy
import sys
from pathlib import Path


def main():
    sys.path.insert(0, str(Path(__file__).resolve().parent))
    del sys.argv[0]
    runpy.run_module(sys.argv[0], run_name="__main__", alter_sys=True)


if __name__ == "__main__":
    main()
