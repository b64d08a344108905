import os
import subprocess
import tempfile
import unittest
from pathlib import Path

ROOT = Path(__file__).resolve().parents[1]
# What a stranger's folder may have: modules of Python's library, and packages and modules of the repository.
MODULES = ("argparse", "json", "re", "os", "sys", "talk", "reading", "measuring", "building/__init__", "sessions/__init__")
MARK = "ran"
PLANTED = f"from pathlib import Path\nPath({{folder!r}}, {MARK!r}).touch()\nraise SystemExit('somebody else was started')\n"
# The gate itself, what installs a browser, and what takes no words but a command to run.
LEFT_OUT = {".ci/run", ".ci/tools", "reference/limiting.py"}
SECONDS = 60


def started_by_hand():
    """The scripts of the repository that start Python."""
    for folder in (ROOT, *(ROOT / name for name in (".ci", "bench", "docs", "reference", "tests"))):
        for path in sorted(folder.iterdir()):
            if path.is_file() and os.access(path, os.X_OK) and b"python3" in path.read_bytes():
                yield path


class InAStrangersFolder(unittest.TestCase):
    def setUp(self):
        place = tempfile.TemporaryDirectory()
        self.addCleanup(place.cleanup)
        self.folder = Path(place.name)
        for name in MODULES:
            path = self.folder / f"{name}.py"
            path.parent.mkdir(exist_ok=True)
            path.write_text(PLANTED.format(folder=str(self.folder)))

    def start(self, command):
        """Starts a command in the folder, where PYTHONPATH names it too; what it said on standard error."""
        variables = {**os.environ, "PYTHONPATH": str(self.folder), "HOME": str(self.folder)}
        ran = subprocess.run([*command, "--help"], cwd=self.folder, env=variables, stdin=subprocess.DEVNULL, capture_output=True,
                             text=True, timeout=SECONDS, check=False)
        return ran.stderr

    def test_the_scripts_are_found(self):
        names = {str(path.relative_to(ROOT)) for path in started_by_hand()}
        self.assertLessEqual({"run", "talk", "install", "causes", "workbench", "tests/run", ".ci/mutants", "bench/run",
                              "docs/believe", "reference/compare"}, names)

    def test_no_script_runs_what_is_planted(self):
        for path in started_by_hand():
            if str(path.relative_to(ROOT)) not in LEFT_OUT:
                with self.subTest(path=str(path.relative_to(ROOT))):
                    told = self.start([path])
                    self.assertFalse((self.folder / MARK).exists())
                    self.assertNotIn("Traceback", told)

    def test_a_link_to_a_script_starts_it_too(self):
        link = self.folder / "told"
        link.symlink_to(ROOT / "causes")
        self.assertEqual(self.start([link]), "")
        self.assertFalse((self.folder / MARK).exists())


if __name__ == "__main__":
    unittest.main()
