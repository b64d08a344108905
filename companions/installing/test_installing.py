"""Installs into folders of its own, and takes away again. The program is a script that stands for the built one."""
import contextlib
import functools
import io
import json
import os
import re
import resource
import shutil
import stat
import subprocess
import sys
import tempfile
import unittest
import urllib.request
from pathlib import Path
from unittest import mock

import conversation
from building.builds import Build
from building.crates import ROOT, Fault
from building.sums import sum_of_file

from . import __main__ as installing
from . import contents
from .contents import COMPANIONS, File, modules
from .manual import DOCUMENTS, manual, rows_in
from .prefix import Prefix, put, take_away

STAND_IN = Path(conversation.__file__).with_name("stand_in")
HELP = """\
Runs programs of vats: one reply for each command

Usage: evats [OPTIONS] [FILE]

Arguments:
  [FILE]  The commands; without FILE standard input is read

Options:
      --budget <N>
          The most steps of a turn,
          1 to 9
  -h, --help         Print help
  -V, --version      Print version

Commands, one a line:
  vat NAME (EARLIER..) N    a vat, whose script is the next N lines
  show                      the world

For example:
  vat a () 1
  'x' \\ "-y" ~

"""
PROGRAM = f"""\
#!/bin/sh
case $1 in
  --help) cat "{{help}}" ;;
  --version) echo evats 7.8.9 ;;
  *) exec "{sys.executable}" "{STAND_IN}" "$@" ;;
esac
"""
# What the companions import is the same in all tests.
MODULES = functools.cache(modules)
COMMANDS = "vat a () 1\n1 + 2\nturn e1.m0\n"
REPLIES = "ok e1 e1.m0\nok e2 value 3\n"


class Stub(Build):
    """A build whose sources are always the same."""

    def sources(self):
        return "a sum"


class Case(unittest.TestCase):
    def setUp(self):
        folder = tempfile.TemporaryDirectory()
        self.addCleanup(folder.cleanup)
        self.folder = Path(folder.name).resolve()
        self.prefix = self.folder / "made here" / "a prefix"
        (self.folder / "help").write_text(HELP, encoding="utf-8")
        for is_proved, name in ((True, "proved"), (False, "unproved")):
            program = self.folder / name / "evats"
            program.parent.mkdir()
            program.write_text(PROGRAM.format(help=self.folder / "help"), encoding="utf-8")
            program.chmod(0o755)
            build = Stub(ROOT, program, (), is_proved)
            build.note(build.sources())
            self.replace(mock.patch.object(installing, f"{name}_build", lambda root, build=build: build))
        self.replace(mock.patch.object(installing, "unproved_program", lambda root: None))
        self.replace(mock.patch.object(contents, "modules", MODULES))
        self.replace(mock.patch.dict(os.environ))
        os.environ.pop("DESTDIR", None)

    def replace(self, patch):
        patch.start()
        self.addCleanup(patch.stop)

    def run_install(self, *words):
        """The status of `./install`, what it printed, and what it told besides."""
        printed, told = io.StringIO(), io.StringIO()
        with contextlib.redirect_stdout(printed), contextlib.redirect_stderr(told):
            try:
                status = installing.main([str(word) for word in words])
            except SystemExit as ended:
                status = ended.code
        return status, printed.getvalue(), told.getvalue()

    def installed(self, *words):
        status, printed, told = self.run_install(*words, self.prefix)
        self.assertEqual(status, 0, told)
        return printed, told

    def below(self, folder):
        """All that stands in a folder."""
        return sorted(str(path.relative_to(folder)) for path in folder.rglob("*"))

    def run_here(self, *words, given="", **variables):
        """Runs a command in a folder of its own, in which modules stand that have the names of others."""
        elsewhere = self.folder / "elsewhere"
        elsewhere.mkdir(exist_ok=True)
        for name in ("talk", "signal", "conversation"):
            (elsewhere / f"{name}.py").write_text("raise SystemExit('a stranger was started')\n", encoding="utf-8")
        environment = {**os.environ, "XDG_STATE_HOME": str(self.folder / "state"), **variables}
        for name in ("PYTHONPATH", "PYTHONDONTWRITEBYTECODE"):
            environment.pop(name, None)
        return subprocess.run(
            [str(word) for word in words], input=given, capture_output=True, text=True, cwd=elsewhere, env=environment, check=False,
        )


class Installing(Case):
    def test_the_program_runs(self):
        printed, told = self.installed()
        ran = self.run_here(self.prefix / "bin" / "evats", given=COMMANDS)
        self.assertEqual((ran.stdout, ran.stderr, ran.returncode), (REPLIES, "", 0))
        self.assertEqual(sum_of_file(self.prefix / "bin" / "evats"), sum_of_file(self.folder / "proved" / "evats"))
        self.assertIn(f"evats 7.8.9 is in {self.prefix}", printed)
        self.assertIn(f"{self.prefix / 'bin'} is not on the PATH", printed)
        self.assertEqual(told, "install: the program is the one that was proved\n")

    def test_each_companion_starts_from_another_folder(self):
        self.installed()
        for name in COMPANIONS:
            ran = self.run_here(self.prefix / "bin" / f"evats-{name}", "--help")
            self.assertEqual((ran.returncode, ran.stderr), (0, ""), name)
            self.assertTrue(ran.stdout.startswith(f"usage: evats-{name} "), ran.stdout)
            self.assertIn("without it the installed one", " ".join(ran.stdout.split()))
            told = self.run_here(self.prefix / "bin" / f"evats-{name}", "--program", "/none/such").stderr
            self.assertTrue(told.startswith(f"evats-{name}: cannot run /none/such"), told)

    def test_companions_take_the_installed_program(self):
        self.installed()
        bin = self.prefix / "bin"
        told = f"the program is {bin / 'evats'}, which is proved\n"
        ran = self.run_here(bin / "evats-talk", given="vat a ()\n1 + 2\n\nturn e1.m0\nsave kept\nhelp show\n")
        self.assertEqual((ran.stdout, ran.returncode), (REPLIES, 0))
        self.assertTrue(ran.stderr.startswith(told), ran.stderr)
        # What `help` tells of a command stands in docs/COMMANDS.md.
        self.assertIn("`evats kept` does them again", ran.stderr)
        self.assertIn("# show                      the world\n#   wants: no other word", ran.stderr)
        ran = self.run_here(bin / "evats-causes", given=COMMANDS)
        self.assertEqual((ran.stderr, ran.returncode), (told, 0))
        self.assertIn("</svg>", ran.stdout)

    def test_the_workbench_serves_its_page(self):
        self.installed()
        command = self.prefix / "bin" / "evats-workbench"
        direct = urllib.request.build_opener(urllib.request.ProxyHandler({}))
        with subprocess.Popen([command], stdout=subprocess.PIPE, stderr=subprocess.DEVNULL, text=True, cwd=self.folder) as process:
            try:
                address = process.stdout.readline().split()[-1]
                for path in (ROOT / "companions" / "workbench" / "page").iterdir():
                    self.assertEqual(direct.open(f"{address}{path.name}", timeout=60).read(), path.read_bytes(), path.name)
                about = json.load(direct.open(f"{address}state", timeout=60))["about"]
            finally:
                process.terminate()
        self.assertEqual(about, {"program": str(self.prefix / "bin" / "evats"), "standing": "proved"})

    def test_a_command_that_is_linked_from_elsewhere(self):
        self.installed("--unproved")
        for name in ("evats", "evats-talk"):
            (self.folder / name).symlink_to(self.prefix / "bin" / name)
            self.assertEqual(self.run_here(self.folder / name, given=COMMANDS).stdout, REPLIES)

    def test_no_tests_are_installed_and_all_that_is_imported_is(self):
        found = {path.name for path in modules(ROOT / "companions")}
        self.assertTrue({"terminal.py", "server.py", "layout.py", "place.py"} <= found)
        self.assertFalse([name for name in found if name.startswith("test_") or name in ("person.py", "visitor.py", "trial.py")])

    def test_only_what_the_person_allows_may_be_read(self):
        before = os.umask(0o027)
        try:
            self.installed()
        finally:
            os.umask(before)
        for name, wanted in (("bin", 0o750), ("bin/evats", 0o750), ("lib/evats/installed.json", 0o640)):
            self.assertEqual(stat.S_IMODE((self.prefix / name).stat().st_mode), wanted, name)


class Unproved(Case):
    def test_it_says_so_where_it_is_asked_what_it_is(self):
        _, told = self.installed("--unproved")
        nothing = "evats without its proofs: nothing of it is proved\n"
        self.assertEqual(told, f"install: {nothing}")
        program = self.prefix / "bin" / "evats"
        for words in (["--version"], ["--help"]):
            ran = self.run_here(program, *words)
            self.assertEqual((ran.stderr, ran.returncode), (nothing, 0))
        self.assertEqual(self.run_here(program, "--version").stdout, "evats 7.8.9\n")
        ran = self.run_here(program, given=COMMANDS)
        self.assertEqual((ran.stdout, ran.stderr, ran.returncode), (REPLIES, "", 0))
        self.assertEqual(self.run_here(program, given="hop\n").returncode, 1)

    def test_companions_and_the_manual_say_so(self):
        self.installed("--unproved")
        ran = self.run_here(self.prefix / "bin" / "evats-causes", given=COMMANDS)
        self.assertIn("nothing of it is proved", ran.stderr)
        self.assertIn("Nothing of this program is proved.", (self.prefix / "share" / "man" / "man1" / "evats.1").read_text())

    def test_a_program_that_was_changed_is_not_taken_for_proved(self):
        self.installed()
        with open(self.prefix / "bin" / "evats", "a", encoding="utf-8") as file:
            file.write("# changed\n")
        ran = self.run_here(self.prefix / "bin" / "evats-causes", given=COMMANDS)
        self.assertIn("nothing of it is proved", ran.stderr)

    def test_without_a_proved_program_nothing_is_installed(self):
        with open(self.folder / "proved" / "evats", "a", encoding="utf-8") as file:
            file.write("# another one than was noted\n")
        status, printed, told = self.run_install(self.prefix)
        self.assertEqual((status, printed, self.prefix.exists()), (2, "", False))
        for words in ("./prove", "./install --unproved"):
            self.assertIn(words, told)


class Uninstalling(Case):
    def test_nothing_is_left(self):
        before = self.below(self.folder)
        self.installed()
        for name in ("evats-talk", "evats-causes", "evats-workbench"):
            self.run_here(self.prefix / "bin" / name, "--help")
        shutil.rmtree(self.folder / "elsewhere")
        status, printed, told = self.run_install("--uninstall", self.prefix)
        self.assertEqual((status, printed, told), (0, f"evats is no longer in {self.prefix}\n", ""))
        self.assertEqual(self.below(self.folder), before)

    def test_what_was_there_before_stays(self):
        (self.prefix / "share" / "man").mkdir(parents=True)
        (self.prefix / "bin").mkdir()
        (self.prefix / "bin" / "other").write_text("x")
        before = self.below(self.prefix)
        self.installed()
        self.assertEqual(self.run_install("--uninstall", self.prefix)[0], 0)
        self.assertEqual(self.below(self.prefix), before)

    def test_what_came_besides_or_was_changed_stays(self):
        self.installed()
        (self.prefix / "share" / "other").write_text("x")
        (self.prefix / "bin" / "evats-talk").write_text("mine now")
        status, _, told = self.run_install("--uninstall", self.prefix)
        self.assertEqual(status, 0)
        self.assertEqual(told, f"install: {self.prefix / 'bin' / 'evats-talk'} stays: it was changed since it was installed\n")
        self.assertEqual(self.below(self.prefix), ["bin", "bin/evats-talk", "share", "share/other"])

    def test_nothing_was_installed(self):
        status, _, told = self.run_install("--uninstall", self.prefix)
        self.assertEqual((status, told), (2, f"install: nothing was installed in {self.prefix} by ./install\n"))


class Replacing(Case):
    def test_another_version_takes_the_place_of_the_first(self):
        self.installed("--unproved")
        self.installed()
        self.assertFalse((self.prefix / "lib" / "evats" / "evats").exists())
        self.assertTrue(json.loads((self.prefix / "lib" / "evats" / "installed.json").read_text())["is_proved"])
        self.run_install("--uninstall", self.prefix)
        self.assertFalse(self.prefix.parent.exists())

    def test_files_of_others_are_not_written_over(self):
        (self.prefix / "bin").mkdir(parents=True)
        (self.prefix / "bin" / "evats").write_text("mine")
        before = self.below(self.prefix)
        status, _, told = self.run_install(self.prefix)
        self.assertEqual((status, self.below(self.prefix)), (2, before))
        self.assertIn(f"{self.prefix / 'bin' / 'evats'} is there, and not as ./install put it", told)

    def test_a_folder_in_the_place_of_a_file(self):
        (self.prefix / "bin" / "evats").mkdir(parents=True)
        self.assertEqual(self.run_install(self.prefix)[0], 2)

    def test_a_changed_file_is_not_written_over(self):
        self.installed()
        (self.prefix / "bin" / "evats-talk").write_text("mine")
        before = self.below(self.prefix)
        status, _, told = self.run_install(self.prefix)
        self.assertEqual((status, self.below(self.prefix)), (2, before))
        self.assertIn("evats-talk is there, and not as ./install put it", told)


class Places(Case):
    def test_below_destdir(self):
        os.environ["DESTDIR"] = str(self.folder / "packed")
        status, printed, _ = self.run_install("/usr/local")
        self.assertEqual(status, 0)
        self.assertIn(f"{self.folder}/packed/usr/local", printed)
        there = self.folder / "packed" / "usr" / "local"
        manual = (there / "share" / "man" / "man1" / "evats.1").read_text()
        for name in DOCUMENTS:
            self.assertIn(f"/usr/local/lib/evats/docs/{name}", manual)
            self.assertTrue((there / "lib" / "evats" / "docs" / name).is_file(), name)
        self.assertNotIn("packed", manual)
        there.rename(self.folder / "moved")
        self.assertEqual(self.run_here(self.folder / "moved" / "bin" / "evats-talk", given=COMMANDS).stdout, REPLIES)

    def test_a_prefix_from_here_and_the_usual_one(self):
        with contextlib.chdir(self.folder):
            self.assertEqual(self.run_install("near")[0], 0)
        self.assertTrue((self.folder / "near" / "bin" / "evats").exists())
        os.environ["HOME"] = str(self.folder / "home")
        self.assertEqual(self.run_install()[0], 0)
        self.assertTrue((self.folder / "home" / ".local" / "bin" / "evats").exists())

    def test_a_prefix_below_a_file(self):
        (self.folder / "file").write_text("")
        status, printed, told = self.run_install(self.folder / "file" / "prefix")
        self.assertEqual((status, printed), (2, ""))
        self.assertIn(f"cannot write {self.folder / 'file' / 'prefix'}: Not a directory", told)

    def test_a_prefix_in_which_nobody_may_write(self):
        self.prefix.mkdir(parents=True)
        self.prefix.chmod(0o555)
        for folder in (self.folder, self.prefix.parent):
            folder.chmod(0o755)
        # Who is root may write everywhere, and others may not read the repository.
        self.replace(mock.patch.object(installing, "contents", lambda *_: ({"bin/evats": File(b"")}, "evats 7.8.9")))
        before = os.geteuid()
        os.seteuid(before or 65534)
        try:
            status, printed, told = self.run_install(self.prefix)
        finally:
            os.seteuid(before)
        self.assertEqual((status, printed, self.below(self.prefix)), (2, "", []))
        self.assertEqual(told, f"install: cannot write {self.prefix / 'bin'}: Permission denied\n")

    def test_a_file_that_cannot_be_written_whole(self):
        before = resource.getrlimit(resource.RLIMIT_FSIZE)
        resource.setrlimit(resource.RLIMIT_FSIZE, (3_000, before[1]))
        try:
            with self.assertRaisesRegex(Fault, f"cannot write {self.prefix / 'bin' / 'evats'}: File too large"):
                put(Prefix.of(str(self.prefix)), {"bin/evats-talk": File(b"x"), "bin/evats": File(bytes(5_000))}, {})
        finally:
            resource.setrlimit(resource.RLIMIT_FSIZE, before)
        self.assertFalse(self.prefix.parent.exists())

    def test_where_it_fails_midway_nothing_stays(self):
        files = {"bin/evats": File(b"x"), "bin/evats-talk": File(b"y"), f"bin/{'x' * 300}": File(b"z")}
        with self.assertRaisesRegex(Fault, "File name too long"):
            put(Prefix.of(str(self.prefix)), files, {})
        self.assertFalse(self.prefix.parent.exists())

    def test_a_note_that_is_none(self):
        self.installed()
        prefix = Prefix.of(str(self.prefix))
        victim = self.folder / "victim"
        victim.write_text("mine")
        good = json.loads(prefix.note.read_text())
        outside = os.path.relpath(victim, self.prefix)
        sum_of_victim = sum_of_file(victim)
        bad = [
            "{", "[]", "{}", "null", "[" * 100_000, "\xff",
            *(json.dumps({**good, **part}) for part in (
                {"files": {outside: sum_of_victim}}, {"files": {str(victim): sum_of_victim}}, {"files": []}, {"files": None},
                {"folders": ["../elsewhere"]}, {"folders": [3]}, {"folders": None}, {"is_proved": "yes"},
            )),
        ]
        for text in bad:
            prefix.note.write_text(text, encoding="latin-1")
            for words in (["--uninstall", self.prefix], [self.prefix]):
                status, printed, told = self.run_install(*words)
                self.assertEqual((status, printed), (2, ""), text[:100])
                self.assertEqual(told, f"install: {prefix.note} is not as ./install wrote it, so it does not tell what was installed: remove "
                                       "that by hand\n")
        self.assertEqual(victim.read_text(), "mine")
        ran = self.run_here(self.prefix / "bin" / "evats-causes", given=COMMANDS)
        self.assertEqual(ran.returncode, 2)
        self.assertIn(f"{prefix.note} is not as ./install wrote it", ran.stderr)
        self.assertNotIn("Traceback", ran.stderr)

    def test_a_note_that_cannot_be_read_to_an_end(self):
        prefix = Prefix.of(str(self.prefix))
        prefix.note.parent.mkdir(parents=True)
        os.mkfifo(prefix.note)
        self.assertEqual(self.run_install("--uninstall", self.prefix)[2], f"install: {prefix.note} is no plain file, so it does not tell what "
                                                                          "was installed\n")

    def test_a_user_who_is_not_there(self):
        status, printed, told = self.run_install("~nosuchuser/somewhere")
        self.assertEqual((status, printed), (2, ""))
        self.assertEqual(told, "install: ~nosuchuser/somewhere is no folder: there is no such user, or none who has a home\n")

    def test_wrong_words(self):
        for words in (["a", "b"], ["--unproved", "--uninstall"], ["--what"]):
            self.assertEqual(self.run_install(*words)[0], 2)
        status, printed, _ = self.run_install("--help")
        self.assertEqual(status, 0)
        self.assertIn("PREFIX/lib/evats", printed)


class Manuals(Case):
    def page(self, is_proved=True):
        return manual(HELP, "evats 7.8.9", Stub(ROOT, None, (), is_proved), Path("/a place"))

    def formatted(self):
        ran = subprocess.run(
            ["groff", "-man", "-Tascii", "-ww", "-P-cbou", "-rLL=100n"], input=self.page(), capture_output=True, text=True, check=True,
        )
        self.assertEqual(ran.stderr, "")
        return ran.stdout

    def test_the_lines_of_the_help_stand_in_it(self):
        text = self.page()
        heads, options = [".SH OPTIONS", ".SH FOR EXAMPLE"], [r"\fB\-\-budget <N>\fR", "The most steps of a turn, 1 to 9"]
        for line in (*heads, *options, r"\fBvat NAME (EARLIER..) N\fR"):
            self.assertIn(f"\n{line}\n", text)
        self.assertIn(r"evats \- runs programs of vats: one reply for each command", text)

    def test_what_is_proved(self):
        self.assertNotIn("Nothing of this program is proved", self.page())
        self.assertIn("Nothing of this program is proved", self.page(is_proved=False))

    def test_an_example_is_no_list(self):
        self.assertEqual(rows_in(["  vat a () 1", "  show"]), [])
        self.assertEqual(rows_in(["  a  b", "          c"]), [("a", ["b", "c"])])

    @unittest.skipUnless(shutil.which("groff"), "there is no groff")
    def test_it_is_formatted_as_it_is_meant(self):
        text = self.formatted()
        told = ("EVATS(1)", "SYNOPSIS", "evats [OPTIONS] [FILE]", "-h, --help", "/a place/lib/evats/docs/LANGUAGE.md")
        for line in (*told, "  'x' \\ \"-y\" ~"):
            self.assertIn(line, text)


class Changelog(unittest.TestCase):
    def test_it_tells_what_the_program_says(self):
        source = (ROOT / "crates" / "evats" / "src" / "options.rt").read_text(encoding="utf-8")
        version = re.search(r'^const VERSION: &str = "(.*)";$', source, re.MULTILINE)[1]
        changes = (ROOT / "CHANGELOG.md").read_text(encoding="utf-8")
        latest, told = re.search(r"^## \[([0-9.]+)\] - \d{4}-\d\d-\d\d\n(.*?)^### ", changes, re.MULTILINE | re.DOTALL).groups()
        said = re.search(r"`evats --version` prints `evats ([0-9.]+)`", told)
        self.assertEqual(said[1] if said else latest, version)


if __name__ == "__main__":
    unittest.main()
