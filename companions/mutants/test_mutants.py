"""Looks at which crates a change chooses, which mutants go together, what is told of them, and what is kept. No prover runs: a stub
says what `rt` would."""
import contextlib
import io
import itertools
import os
import signal
import subprocess
import sys
import tempfile
import time
import unittest
from pathlib import Path
from unittest import mock

from building.crates import read_crates
from building.progress import EVERY, Display

from . import side_by_side
from .__main__ import chosen, parser, tell_all, try_all
from .changes import NoSuchRevision, stands_on, to_be_tried
from .contracts import contract_text
from .edits import BadEdit, Change, Edit, Mutant, changed, changed_together, edit_of, functions_of, groups, mutants_in
from .functions import Function
from .report import GOT_THROUGH, NOT_COMPILED, NOT_TRIED, Ran, Verdict, verdict_on
from .results import Results, sum_of
from .telling import Report
from .trial import Told, furnished

COMPANIONS = Path(__file__).resolve().parents[1]
SOURCE = """\
//! Doubles.
ghost use Rattle.std.specs.Prelude.{◌≡◌};

pub struct Pair {
    /// The first.
    pub one: u8,
}

/// Twice x.
pub fn twice(x: u8) -> u8
    requires { x < 100 }
    ensures { result ≡ x + x }
{
    let y = x;
    x + y
}

fn nothing() {}

impl Pair {
    // Why.
    fn sum(&self) -> u8 {
        let Pair { one } = self;
        *one
    }
}
"""
SEEN = """\
ghost use Rattle.std.specs.Prelude.{◌≡◌};
pub struct Pair {
    pub one: u8,
}
pub fn twice(x: u8) -> u8
    requires { x < 100 }
    ensures { result ≡ x + x }
{
fn nothing() {}
impl Pair {
    fn sum(&self) -> u8 {
}"""
MUTANTS = {
    "less": "file: src/lib.rt\nold: x + y\nnew: x - y\n",
    "one": "file: src/lib.rt\nold: *one\nnew: 1\n",
    "broken": "file: src/lib.rt\nold: let y = x;\nnew: let y = 1;\n",
    "of a type": "file: src/lib.rt\nold: pub one: u8,\nnew: pub one: u16,\n",
    "nowhere": "file: src/lib.rt\nold: x * y\nnew: x\n",
}
# What `rt` says here: a function is proved unless its source has what no right body has; a crate of a type of 16 bits is not.
RT = """\
#!/usr/bin/env -S python3 -I -S
import pathlib, sys
verb, _, _, *words = sys.argv[1:]
words = [verb, *words]
text = pathlib.Path("src/lib.rt").read_text()
with pathlib.Path(__file__).with_name("log").open("a") as log:
    log.write(" ".join([pathlib.Path.cwd().name, *words]) + "\\n")
if words == ["lib"]:
    rlib = pathlib.Path("out/rlib")
    rlib.mkdir(parents=True, exist_ok=True)
    (rlib / "stamp").write_text("a stamp")
    sys.exit(0)
if pathlib.Path(__file__).with_name("killed").exists():
    sys.exit(137)
if "let y = 1" in text:
    print("error[syntax]: src/lib.rt:14:9: not read"); sys.exit(1)
wrong = {"twice": "x - y" in text, "Pair::sum": False, "nothing": False}
names = [name for word, name in zip(words, words[1:]) if word == "--only"] or list(wrong)
for name in names:
    if wrong[name]:
        print("so far: note: src/lib.rt:15:5: it is not proved that what the function ensures holds (`returns`)")
    is_proved = not wrong[name] and "u16" not in text
    print(f"fn {pathlib.Path.cwd().name}::{name}: {'proved' if is_proved else 'not proved'}")
sys.exit(1 if any(wrong[name] for name in names) or "u16" in text else 0)
"""
# Tries the mutants of `high` in another repository than this one.
RUN = """\
import sys
sys.path.insert(0, sys.argv[1])
from pathlib import Path
from mutants import __main__ as mutants, results
mutants.ROOT, results.sum_of_kit = Path(sys.argv[2]), lambda: "a kit"
sys.exit(mutants.main(["high"]))
"""


def told(*names):
    """The text that tells these mutants."""
    return "\n".join(f"mutant: {name}\n{MUTANTS[name]}" for name in names)


class Contracts(unittest.TestCase):
    def test_bodies_and_comments_are_left_out(self):
        self.assertEqual(contract_text(SOURCE), SEEN)

    def test_a_body_changes_nothing_and_a_clause_does(self):
        self.assertEqual(contract_text(SOURCE.replace("x + y", "y + x")), SEEN)
        self.assertNotEqual(contract_text(SOURCE.replace("x < 100", "x < 10")), SEEN)


class Repository:
    """A folder as a repository, of three crates, `low` below `high`, and `other`, each with a mutant."""

    def __init__(self, folder):
        self.root = Path(folder)
        for name in ("low", "high", "other"):
            for part, text in (("src/lib.rt", SOURCE), ("specs/Lib.antt", ""), ("mutants.edits", told("less"))):
                self.write(f"crates/{name}/{part}", text)
        self.write("crates.txt", "# lowest first\nlow: std\nhigh may_wait=2: low\nother:\n")
        self.write("HANDLES", "Handles allowed: none.\n")

    def write(self, path, text):
        file = self.root / path
        file.parent.mkdir(parents=True, exist_ok=True)
        file.write_text(text)

    def git(self, *words):
        subprocess.run(
            ["git", "-C", str(self.root), "-c", "user.name=a", "-c", "user.email=a@b", *words], check=True, capture_output=True
        )

    def commit(self):
        self.git("add", "-A")
        self.git("commit", "-q", "-m", "a state")


class Since(unittest.TestCase):
    def setUp(self):
        folder = tempfile.TemporaryDirectory()
        self.addCleanup(folder.cleanup)
        self.there = Repository(folder.name)
        self.there.git("init", "-q")
        self.there.commit()

    def chosen(self):
        return to_be_tried(self.there.root, "HEAD")

    def test_crates_stand_in_the_order_of_their_file(self):
        self.assertEqual(stands_on("low: std\nhigh may_wait=2: low\n"), {"low": [], "high": ["low"]})

    def test_nothing_changed(self):
        self.assertEqual(self.chosen(), [])

    def test_a_body_is_the_crates_own(self):
        self.there.write("crates/low/src/lib.rt", SOURCE.replace("x + y", "y + x"))
        self.assertEqual(self.chosen(), ["low"])

    def test_a_contract_is_that_of_all_above(self):
        self.there.write("crates/low/src/lib.rt", SOURCE.replace("x < 100", "x < 10"))
        self.assertEqual(self.chosen(), ["low", "high"])

    def test_a_definition_is_that_of_all_above(self):
        self.there.write("crates/low/specs/New.antt", "pub two = 2\n")
        self.assertEqual(self.chosen(), ["low", "high"])

    def test_a_high_crate_changes_none_below(self):
        self.there.write("crates/high/src/lib.rt", SOURCE.replace("x < 100", "x < 10"))
        self.assertEqual(self.chosen(), ["high"])

    def test_a_new_mutant_and_a_new_line_of_crates(self):
        self.there.write("crates/other/mutants.edits", told("less", "one"))
        self.assertEqual(self.chosen(), ["other"])
        self.there.write("crates.txt", "low:\nhigh: low\nother: low\n")
        self.assertEqual(self.chosen(), ["other"])

    def test_what_is_told_of_crates_is_part_of_none(self):
        self.there.write("crates/README.md", "# The crates\n")
        self.there.write("crates/low/README.md", "# `low`\n")
        self.assertEqual(self.chosen(), [])

    def test_a_file_that_is_gone(self):
        (self.there.root / "crates/low/src/lib.rt").unlink()
        self.assertEqual(self.chosen(), ["low", "high"])

    def test_no_revision(self):
        with self.assertRaises(NoSuchRevision):
            to_be_tried(self.there.root, "nowhere")


class Functions(unittest.TestCase):
    def paths(self, **sources):
        found = functions_of({f"src/{file}.rt": text for file, text in sources.items()})
        return [function.path for of in found.values() for function in of]

    def test_functions_and_their_lines(self):
        found = {it.path: (it.first, it.last) for it in functions_of({"src/lib.rt": SOURCE})["src/lib.rt"]}
        self.assertEqual(found, {"twice": (10, 16), "nothing": (18, 18), "Pair::sum": (22, 25)})

    def test_an_arm_without_a_body_ends_no_function(self):
        text = "fn one(x: bool) {\n    match x {\n        true => {}\n        false => one(x),\n    }\n}\n"
        self.assertEqual([(it.first, it.last) for it in functions_of({"src/lib.rt": text})["src/lib.rt"]], [(1, 6)])

    def test_what_is_only_declared_ends_where_the_next_begins(self):
        text = "pub trait Key {\n    fn place(&self)\n        ensures { true };\n    fn other(&self);\n}\n"
        found = functions_of({"src/lib.rt": text})["src/lib.rt"]
        self.assertEqual([(it.path, it.first, it.last) for it in found], [("Key::place", 2, 3), ("Key::other", 4, 4)])

    def test_members_of_a_type_stand_in_its_module(self):
        self.assertEqual(self.paths(book="pub struct Book {\n}\n", taking="impl Book {\n    fn take() {}\n}\n"), ["book::Book::take"])

    def test_members_of_impls(self):
        heads = {
            "impl<'a> Reader<'a> {": "a::Reader::f",
            "impl<K: Key, V: Drop> Few<K, V> {": "a::Few::f",
            "impl<K: Key, V: Drop> Few<K, Touch<V>> {": "a::Few+K+Touch+V::f",
            "impl fmt::Display for SlotId {": "a::SlotIdDisplay::f",
            "impl<T: Drop> From<AllocFailed<T>> for Stop {": "a::StopFromAllocFailed::f",
            "impl<L: Shift> Workplace<L> for Workshop<L> {": "a::WorkshopWorkplace::f",
            "impl Drop for Plain {": "a::Plain::f",
        }
        for head, path in heads.items():
            self.assertEqual(self.paths(a=f"{head}\n    fn f() {{}}\n}}\n"), [path])


class Edits(unittest.TestCase):
    SOURCES = {"src/lib.rt": SOURCE}

    def edit(self, name):
        return edit_of(mutants_in(told(name))[0], self.SOURCES, functions_of(self.SOURCES))

    def test_a_file_of_mutants(self):
        found = mutants_in(told("less", "one") + "old: one\nnew:\nfile: src/two.rt\nold: a\nnew: b\n")
        self.assertEqual([it.name for it in found], ["less", "one"])
        self.assertEqual(found[1].changes[1:], (Change("src/lib.rt", "one", ""), Change("src/two.rt", "a", "b")))

    def test_what_is_no_file_of_mutants(self):
        wrong = {
            "file: a\n": "line 1",
            "mutant: a\nold: b\nnew: c\n": "line 2",
            "mutant: a\nfile: f\nold: b\nold: c\n": "line 4",
            "mutant: a\nfile: f\nnew: c\n": "line 3",
            "mutant: a\nfile: f\nold: b\n": "does not end with `new:`",
            "mutant: a\nmutant: b\nfile: f\nold: b\nnew: c\n": "line 2",
            "mutant:\n": "wants a name",
            f"{told('less')}{told('less')}": "two mutants `less`",
            "# a note\n": "a line is",
        }
        for text, why in wrong.items():
            with self.assertRaises(BadEdit) as caught:
                mutants_in(text)
            self.assertIn(why, str(caught.exception))

    def test_where_an_edit_stands(self):
        self.assertEqual(self.edit("less").paths, {"twice"})
        self.assertEqual(self.edit("of a type").paths, set())

    def test_what_cannot_be_applied(self):
        for file, old, new in (("lib", "x * y", "x"), ("lib", "x", "y"), ("no", "x", "y"), ("lib", "x + y", "x + y")):
            with self.assertRaises(BadEdit):
                edit_of(Mutant("a", (Change(f"src/{file}.rt", old, new),)), self.SOURCES, functions_of(self.SOURCES))

    def test_a_later_change_applies_to_what_an_earlier_one_made(self):
        changes = (Change("src/lib.rt", "x + y", "y + z"), Change("src/lib.rt", "y + z", "y"))
        self.assertIn("    y\n", changed(self.SOURCES, changes)["src/lib.rt"])

    def test_a_text_that_another_edit_makes_is_not_meant(self):
        text = "fn one() {\n    a\n}\n\nfn two() {\n    b\n}\n"
        sources, after = {"src/lib.rt": text}, "fn one() {\n    b\n}\n\nfn two() {\n    c\n}\n"
        made = mutants_in("mutant: x\nfile: src/lib.rt\nold: a\nnew: b\n\nmutant: y\nfile: src/lib.rt\nold: b\nnew: c\n")
        edits = [edit_of(mutant, sources, functions_of(sources)) for mutant in made]
        self.assertEqual(changed_together(sources, edits), {"src/lib.rt": after})

    def test_edits_of_different_functions_go_together(self):
        made = groups([self.edit(name) for name in ("less", "one", "broken", "of a type")])
        self.assertEqual([[it.name for it in group] for group in made], [["less", "one"], ["broken"], ["of a type"]])


class Verdicts(unittest.TestCase):
    def verdict(self, log, status=1, is_alone=False, path="twice"):
        edit = Edit(Mutant("a", (Change("src/lib.rt", "x + y", "x"),)), (Function(path, "src/lib.rt", 10, 16),))
        return verdict_on(edit, "high", Ran(log, status), is_alone)

    def test_a_refusal(self):
        log = "note: src/lib.rt:14:5: it is not proved (`returns`)\nfn high::twice: not proved\nfn high::sum: proved\n"
        self.assertIsNone(self.verdict(log).fault)
        self.assertIn("returns", self.verdict(log).said)
        self.assertEqual(self.verdict("fn high::sum: not proved\nfn high::twice: proved\n").fault, GOT_THROUGH)
        self.assertIsNone(self.verdict("fn high::fn::twice::map: not proved\nfn high::twice: proved\n").fault)

    def test_a_function_of_another_type_is_another_one(self):
        log = "./proofs/names/One/fmt/Answers.antt:1:1: error: no\nfn high::names::One::fmt: not proved\nfn high::names::Two::fmt: proved\n"
        self.assertEqual(self.verdict(log, path="names::Two::fmt").fault, GOT_THROUGH)
        self.assertIn("error: no", self.verdict(log, path="names::One::fmt").said)

    def test_a_refusal_that_may_be_anothers(self):
        leaning = "fn high::twice: not proved; it calls `high::sum`, which is not proved\n"
        own = "fn high::twice: no proof: expected answers; `search` did not prove `returns`\n"
        cycle = "fn high::twice: not proved\n"
        self.assertEqual([self.verdict(log).is_open for log in (leaning, own, cycle)], [True, False, True])
        # What is complained of in the function itself is its own.
        self.assertFalse(self.verdict("src/lib.rt:14:5: no\n" + leaning).is_open)
        # Alone it is told by all that the check complains of.
        self.assertIn("no", self.verdict("./proofs/Lemmas.antt:1:1: error: no\n" + leaning, is_alone=True).said)

    def test_a_cycle_of_calls_has_one_proof(self):
        leaning = "fn high::a::{}: not proved; it calls `high::a::both`, of this cycle of calls, which is not proved\n"
        for proof in ("./proofs/a/+both", "./proofs/+both"):
            goal = "one-returns" if "/a/" in proof else "a::one-returns"
            log = f"{proof}/Answers.antt:9:5: error: `{goal}`: no\n" + leaning.format("one") + leaning.format("two")
            self.assertFalse(self.verdict(log, path="a::one").is_open)
            self.assertTrue(self.verdict(log, path="a::two").is_open)

    def test_what_is_said_of_a_refusal(self):
        told = "fn high::twice: no proof: `search` did not prove `returns`\n"
        self.assertIn("did not prove", self.verdict(told).said)
        self.assertIn("did not prove", self.verdict("./specs/Two.antt:1:1: note: deriving\n" + told, is_alone=True).said)
        self.assertIn("it may wrap", self.verdict("fn high::twice: no proof: `search` did not prove `overflow_add`\n").fault)

    def test_what_shows_little(self):
        proof = "./proofs/twice/Answers.antt:4:2: error: `twice-returns`: record `Rattle.high` has no field `one`\nfn high::twice: not proved\n"
        self.assertIn("shows little", self.verdict(proof).fault)
        wraps = "note: src/lib.rt:14:5: it is not proved that the sum fits (`overflow_add-x`)\nfn high::twice: not proved\n"
        self.assertIn("shows little", self.verdict(wraps).fault)

    def test_what_does_not_compile(self):
        self.assertEqual(self.verdict("error[syntax]: src/lib.rt:3:1: no\n").fault, NOT_COMPILED)

    def test_what_was_not_looked_at(self):
        self.assertEqual(self.verdict("fn high::twice: not proved\n", status=-9).fault, NOT_TRIED)


class Side(unittest.TestCase):
    """A repository whose crate `high` has mutants, and a stub in place of `rt`."""

    def setUp(self):
        folder = tempfile.TemporaryDirectory()
        self.addCleanup(folder.cleanup)
        self.at = Path(folder.name)
        self.there = Repository(self.at / "tree")
        (self.at / "bin").mkdir()
        self.rt = self.at / "bin/rt"
        self.rt.write_text(RT)
        self.rt.chmod(0o755)
        variables = {"XDG_CACHE_HOME": str(self.at / "cache"), "PATH": f"{self.at / 'bin'}:{os.environ['PATH']}"}
        quick, kit = mock.patch.object(side_by_side, "PAUSE", 0.01), mock.patch("mutants.results.sum_of_kit", lambda: "a kit")
        for patch in (mock.patch.dict(os.environ, variables), quick, kit):
            patch.start()
            self.addCleanup(patch.stop)

    def tried(self, *names, words=(), crate="high"):
        """The report on these mutants, and the checks that were made for it."""
        self.there.write(f"crates/{crate}/mutants.edits", told(*names))
        (self.rt.with_name("log")).write_text("")
        crates = read_crates(self.there.root)
        given = parser().parse_args([*words, "--jobs", "2", crate])
        wanted = chosen(self.there.root, crates, given.names, given.since)
        self.out = io.StringIO()
        report = try_all(self.there.root, crates, wanted, given, Display(self.out))
        return report, [line for line in self.rt.with_name("log").read_text().splitlines() if not line.endswith(" lib")]


class Trials(Side):
    def faults(self, report):
        return {it.mutant.name: it.verdict.fault for of in report.told.values() for it in of}

    def test_different_functions_in_one_check(self):
        report, log = self.tried("less", "one")
        self.assertEqual(log, ["high check --only Pair::sum --only twice", "high check --only Pair::sum"])
        self.assertEqual(self.faults(report), {"less": None, "one": GOT_THROUGH})
        self.assertEqual([round(it.seconds, 3) > 0 for it in report.told["high"]], [True, True])
        self.assertIn("crates/high/mutants.edits: one: got through", self.out.getvalue())

    def test_what_does_not_compile_is_left_out(self):
        report, log = self.tried("one", "broken")
        self.assertEqual(log, ["high check --only Pair::sum --only twice", "high check --only Pair::sum"])
        self.assertEqual(self.faults(report), {"one": GOT_THROUGH, "broken": NOT_COMPILED})

    def test_what_changes_a_type_takes_a_whole_check(self):
        report, log = self.tried("of a type", "nowhere")
        self.assertEqual(log, ["high check"])
        self.assertEqual(self.faults(report), {"of a type": None, "nowhere": NOT_COMPILED})

    def test_what_is_told_for_itself_comes_first(self):
        report, _ = self.tried("one", "less")
        self.assertEqual([it.mutant.name for it in report.told["high"]], ["less", "one"])

    def test_a_program_is_no_library(self):
        self.there.write("crates/evats/src/lib.rt", SOURCE)
        self.there.write("crates/evats/src/main.rt", "fn main() {}\n")
        self.there.write("crates.txt", "low:\nevats: low\n")
        self.assertEqual(self.tried("less", crate="evats")[1], ["evats check", "evats check --only twice"])

    def test_what_is_not_proved_here_is_proved_first(self):
        self.tried("less")
        self.assertEqual(self.rt.with_name("log").read_text().split("\n")[:2], ["low lib", "high lib"])
        self.tried("less", "one")
        self.assertNotIn("low lib", self.rt.with_name("log").read_text())

    def test_crates_side_by_side(self):
        for name in ("low", "high", "other"):
            self.there.write(f"crates/{name}/mutants.edits", told("less"))
        crates = read_crates(self.there.root)
        given = parser().parse_args(["--jobs", "3"])
        wanted = chosen(self.there.root, crates, given.names, given.since)
        shown = io.StringIO()
        # Each line is a minute behind the last one.
        report = try_all(self.there.root, crates, wanted, given, Display(shown, itertools.count(step=EVERY).__next__))
        self.assertEqual({name: [it.verdict.fault for it in of] for name, of in report.told.items()}, dict.fromkeys(("low", "high", "other"), [None]))
        self.assertIn("tried 0 of 3, at work: low high other", shown.getvalue())

    def test_the_room_has_what_was_kept(self):
        for part in ("rlib", "incremental"):
            for name in ("low", "high"):
                self.there.write(f"crates/{name}/out/{part}/kept", "")
        crates = read_crates(self.there.root)
        (self.at / "room").mkdir()
        room = furnished(self.there.root, self.at / "room", [crates["low"], crates["high"]])
        kept = sorted(str(it.relative_to(room.folder / "crates")) for it in room.folder.rglob("kept"))
        self.assertEqual(kept, ["high/out/incremental/kept", "high/out/rlib/kept", "low/out/rlib/kept"])

    def test_the_tree_stays_as_it_is(self):
        self.tried("less")
        self.assertEqual((self.there.root / "crates/high/src/lib.rt").read_text(), SOURCE)


class Kept(Side):
    def test_what_was_tried_is_not_tried_again(self):
        self.tried("less", "one")
        report, log = self.tried("less", "one")
        self.assertEqual((log, report.earlier, report.tried), ([], 2, 2))
        self.assertEqual(len(report.faults()), 1)
        self.assertEqual(len(self.tried("less", "one", words=["--anew"])[1]), 2)

    def test_a_run_that_was_cut_off_goes_on(self):
        self.rt.with_name("killed").touch()
        report, _ = self.tried("less")
        self.assertEqual(report.told["high"][0].verdict.fault, NOT_TRIED)
        self.rt.with_name("killed").unlink()
        self.tried("less")
        self.assertEqual(self.tried("less", "one")[1], ["high check --only Pair::sum"])

    def test_an_interrupted_run_ends_what_it_started(self):
        self.there.write("crates/high/mutants.edits", told("less"))
        self.rt.write_text("#!/bin/sh\necho $$ > \"$(dirname \"$0\")/number\"\nsleep 60\n")
        words = [sys.executable, "-I", "-S", "-c", RUN, COMPANIONS, self.there.root]
        ran = subprocess.Popen(words, stdout=subprocess.DEVNULL, stderr=subprocess.PIPE, text=True)
        number = self.rt.with_name("number")
        while not number.is_file() or not number.read_text():
            time.sleep(0.05)
        ran.send_signal(signal.SIGTERM)
        self.assertIn("the same command goes on", ran.communicate(timeout=60)[1])
        self.assertEqual(ran.returncode, 128 + signal.SIGTERM)
        with self.assertRaises(ProcessLookupError):
            os.kill(int(number.read_text()), 0)

    def test_a_line_that_was_cut_off(self):
        self.tried("less")
        file = self.at / "cache/evats-mutants/high"
        file.write_text(file.read_text()[:20])
        self.assertEqual(self.tried("less")[1], ["high check --only twice"])

    def test_what_a_verdict_stands_on(self):
        crates, root = read_crates(self.there.root), self.there.root
        before = sum_of(root, crates, "high")
        self.there.write("crates/low/src/lib.rt", SOURCE.replace("x + y", "y + x"))
        self.assertEqual(sum_of(root, crates, "high"), before)
        self.there.write("crates/low/src/lib.rt", SOURCE.replace("x < 100", "x < 10"))
        self.assertNotEqual(sum_of(root, crates, "high"), before)
        before = sum_of(root, crates, "high")
        self.there.write("crates/high/src/lib.rt", SOURCE.replace("x + y", "y + x"))
        self.assertNotEqual(sum_of(root, crates, "high"), before)

    def test_a_mutant_of_another_text_is_another_one(self):
        results = Results(self.at / "results", "a sum")
        mutant, other = (Mutant("a", (Change("src/lib.rt", "x", new),)) for new in "yz")
        results.keep(Told(mutant, Verdict(None, "no proof"), 1.5))
        self.assertEqual([it.seconds for it in results.earlier([mutant, other])], [1.5])
        self.assertEqual(Results(self.at / "results", "another").earlier([mutant]), [])


class Telling(unittest.TestCase):
    def setUp(self):
        self.now = 0
        self.report = Report(4, lambda: self.now)
        for name, fault, seconds in (("less", None, 100), ("one", GOT_THROUGH, 20)):
            self.report.add("high", Told(Mutant(name, ()), Verdict(fault, "it is still proved" if fault else ""), seconds))

    def test_how_far_it_is(self):
        self.now = 600
        self.assertEqual(self.report.line(["high"]), "tried 2 of 4, 1 to be mended, at work: high, about 10 minutes left")

    def test_the_table(self):
        self.assertEqual(self.report.table().splitlines(), ["Crate  Mutants  Refused  Seconds", "high         2        1      120"])
        with contextlib.redirect_stdout(io.StringIO()) as out:
            self.assertEqual(tell_all(self.report), 1)
        fault, total = "crates/high/mutants.edits: one: got through: it is still proved", "2 mutants: 1 refused, 1 to be mended\nabout 2 minutes of one core; "
        self.assertIn(f"{fault}\n{total}", out.getvalue())


if __name__ == "__main__":
    unittest.main()
