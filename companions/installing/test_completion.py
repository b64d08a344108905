"""Has bash complete words, as it does where TAB is pressed, for the companions and for a script with the program's help."""
import subprocess
import sys
import tempfile
import unittest
from pathlib import Path

from building.crates import ROOT

from .test_installing import HELP

COMPLETION = ROOT / "editors" / "bash" / "evats.bash"
# What bash does with the function that `complete` names: it gives it the command, the word and the one before it.
ASKED = """\
source "$1"; shift
COMP_WORDS=("$@") COMP_CWORD=$(($# - 1)) COMPREPLY=()
how=$(complete -p "${COMP_WORDS[0]##*/}")
[[ $how =~ "-F "([a-z_]+) ]] && "${BASH_REMATCH[1]}" "$1" "${COMP_WORDS[COMP_CWORD]}" "${COMP_WORDS[COMP_CWORD - 1]}"
for word in "${COMPREPLY[@]}"; do echo "$word"; done
"""


class Completion(unittest.TestCase):
    def setUp(self):
        folder = tempfile.TemporaryDirectory()
        self.addCleanup(folder.cleanup)
        self.folder = Path(folder.name)
        for name in ("one.evats", "two words.evats", "other.txt"):
            (self.folder / name).write_text("")
        (self.folder / "old").mkdir()
        (self.folder / "bin").mkdir()
        self.command("evats", f"cat <<'END'\n{HELP}END\n")
        for name in ("talk", "causes"):
            self.command(f"evats-{name}", f"exec '{ROOT / name}' \"$@\"\n")

    def command(self, name, text):
        path = self.folder / "bin" / name
        path.write_text(f"#!/bin/sh\n{text}")
        path.chmod(0o755)

    def completed(self, *words):
        """What the last of these words may become."""
        path = f"{self.folder / 'bin'}:{Path(sys.executable).parent}:/usr/bin:/bin"
        ran = subprocess.run(
            ["bash", "-c", ASKED, "bash", str(COMPLETION), *words], cwd=self.folder, capture_output=True, text=True, check=True,
            env={"PATH": path, "HOME": str(self.folder)},
        )
        self.assertEqual(ran.stderr, "")
        return sorted(ran.stdout.splitlines())

    def test_options(self):
        self.assertEqual(self.completed("evats", "-"), ["--budget", "--help", "--version"])
        self.assertEqual(self.completed("evats", "--b"), ["--budget"])
        self.assertEqual(self.completed("evats-causes", "--"), ["--all", "--cone", "--dark", "--help", "--out", "--program"])
        self.assertEqual(self.completed("evats-talk", "--w"), ["--workers"])

    def test_files_of_commands_and_folders(self):
        self.assertEqual(self.completed("evats", ""), ["bin", "old", "one.evats", "two words.evats"])
        self.assertEqual(self.completed("evats-talk", "t"), ["two words.evats"])
        self.assertEqual(self.completed("evats", "--help", "on"), ["one.evats"])

    def test_what_an_option_takes(self):
        self.assertEqual(self.completed("evats", "--budget", ""), [])
        self.assertEqual(self.completed("evats-causes", "--cone", ""), [])
        self.assertEqual(self.completed("evats-causes", "--out", "o"), ["old", "one.evats", "other.txt"])
        self.assertEqual(self.completed("evats-talk", "--program", "ot"), ["other.txt"])
        self.assertEqual(self.completed("evats-causes", "--all", "o"), ["old", "one.evats"])

    def test_a_command_by_its_path(self):
        self.assertEqual(self.completed("bin/evats", "--v"), ["--version"])
        self.assertEqual(self.completed("~/bin/evats", "--v"), ["--version"])

    def test_a_command_without_a_help(self):
        self.command("evats", "exit 1\n")
        self.assertEqual(self.completed("evats", "-"), [])
        self.assertEqual(self.completed("evats", "on"), ["one.evats"])


if __name__ == "__main__":
    unittest.main()
