"""Tries `./workbench` on the built program: by its tests, in a browser too.

usage: tests/workbench [PROGRAM]     (without PROGRAM: the proved one, else one without proofs)
       tests/workbench --photos      writes the pictures of the page in docs, to be looked at

The last line is `N passed, M failed`; where the browser is missing, the tests say so, and those of the page count as failed.
"""
import os
import re
import subprocess
import sys
import tempfile
import threading
from pathlib import Path

from building.crates import ROOT
from building.programs import named_or_built
from conversation.session import Session

from . import browser
from .desk import Desk
from .server import Workbench
from .visitor import Visitor

TESTS = ["conversation.test_conversation", "causes.test_causes", "workbench.test_workbench", "workbench.test_page"]
# What is done behind the first session of the README, and photographed.
FIRST = re.compile(r"\./run <<'END'\n(.*?)\ncone e8\n", re.DOTALL)


def tried(program):
    """Whether the tests pass on a program."""
    ended = subprocess.run([sys.executable, "-I", ROOT / "companions" / "start.py", "unittest", "-q", *TESTS], check=False,
                           env={**os.environ, "EVATS_PROGRAM": program})
    return ended.returncode == 0 and not browser.why_not()


def photograph(program):
    """Takes the pictures of the page with the first session of the README: an event is chosen, and why it came of another."""
    commands = FIRST.search((ROOT / "README.md").read_text(encoding="utf-8"))[1]
    with tempfile.TemporaryDirectory() as folder, Session([program], is_watched=True) as session:
        desk = Desk(session, {"program": program, "standing": "unproved"})
        desk.type(commands)
        while desk.is_at_work:
            desk.advance()
        with Workbench(desk) as server:
            threading.Thread(target=server.serve_forever, daemon=True).start()
            driven = browser.start(folder, 1280, 940)
            try:
                take_both(Visitor(driven, server.address))
            finally:
                driven.quit()
                server.shutdown()


def take_both(visitor):
    visitor.waits()
    if visitor.run("return document.documentElement.dataset.theme") == "dark":
        visitor.element("#theme").click()
    visitor.clicks("e6")
    visitor.clicks_with_shift("e14")
    visitor.element("#picture .step")
    visitor.sees("the step", "return document.getAnimations().length", wanted=lambda count: count == 0)
    visitor.sees("the cone", "return document.querySelectorAll('#picture .event.cone').length")
    visitor.browser.save_screenshot(str(ROOT / "docs" / "workbench-light.png"))
    visitor.element("#theme").click()
    visitor.clicks("e8")
    visitor.sees("the cone", "return document.querySelectorAll('#picture .event.cone').length", wanted=lambda count: count == 2)
    visitor.browser.save_screenshot(str(ROOT / "docs" / "workbench-dark.png"))


def main(words):
    if words in (["-h"], ["--help"]):
        print(__doc__.strip())
        return 0
    program = str(Path(named_or_built(words[0] if words and words != ["--photos"] else None)).resolve())
    if words == ["--photos"]:
        photograph(program)
        return 0
    passed = tried(program)
    print("1 passed, 0 failed" if passed else "0 passed, 1 failed")
    return 0 if passed else 1


if __name__ == "__main__":
    sys.exit(main(sys.argv[1:]))
