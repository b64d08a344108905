"""Looks whether what the documents speak of is there: calls by their paths, and, in those about the crates, files, names, and functions as quoted."""
import re
import tempfile
import unittest
from pathlib import Path

from building.crates import ROOT, crate_of

from .calls import lost_calls, paths_of
from .house import TESTS, faces_in, families_in, not_lowest_first
from .naming import Place, lost_quotes, names_in, paths_in

CRATES = ROOT / "crates"
WORD = re.compile(r"\w+")


def documents():
    """The documents about the crates, each with the crate whose README it is, if it is one."""
    found = {file: file.parent for file in sorted(CRATES.glob("*/README.md"))}
    return found | {CRATES / "README.md": None, ROOT / "docs" / "MAP.md": None}


def all_documents():
    """The documents about the crates, and those of the repository and of its folders."""
    return {*documents(), *ROOT.glob("*.md"), *ROOT.glob("*/README.md"), *ROOT.glob("docs/*.md")}


def words_of_sources():
    """All words that stand in sources, definitions, proofs, companions and editors, and the names of folders."""
    files = [*CRATES.glob("*/src/*.rt"), *CRATES.glob("*/specs/*.antt"), *CRATES.glob("*/proofs/*.antt")]
    for folder in ("companions", "reference", "editors"):
        files += [it for it in (ROOT / folder).rglob("*.*") if it.suffix in (".py", ".js", ".vim", ".json")]
    words = {word for file in files for word in WORD.findall(file.read_text(encoding="utf-8"))}
    return words | {it.name for pattern in ("*", "*/*", "*/*/*") for it in ROOT.glob(pattern) if it.is_dir()}


class Told(unittest.TestCase):
    """What the documents say of the repository as it is."""

    def test_paths_are_there(self):
        for file, crate in documents().items():
            paths = paths_in(file.read_text(encoding="utf-8"), Place(ROOT, crate))
            with self.subTest(file):
                self.assertEqual([], [str(path.relative_to(ROOT)) for path in paths if not path.exists()])

    def test_names_are_there(self):
        words = words_of_sources()
        for file in documents():
            with self.subTest(file):
                self.assertEqual(set(), names_in(file.read_text(encoding="utf-8")) - words)

    def test_calls_are_there(self):
        there = paths_of(CRATES)
        for file in sorted(all_documents()):
            with self.subTest(file):
                self.assertEqual([], lost_calls(file.read_text(encoding="utf-8"), there))

    def test_functions_stand_as_they_are_quoted(self):
        for file, crate in documents().items():
            with self.subTest(file):
                self.assertEqual([], list(lost_quotes(file)))
                self.assertEqual(1 if crate else 0, file.read_text(encoding="utf-8").count("```rust"))


class House(unittest.TestCase):
    """Families, faces and parts are said alike wherever they are said."""

    def setUp(self):
        self.families = families_in((ROOT / "crates.txt").read_text(encoding="utf-8"))
        self.faces = faces_in((CRATES / "README.md").read_text(encoding="utf-8"))

    def test_each_crate_is_a_face_or_a_part_of_one(self):
        for family, crates in self.families.items():
            told = sorted(name for face, (of, parts) in self.faces.items() if of == family for name in (face, *parts))
            with self.subTest(family):
                self.assertEqual([] if family == TESTS else sorted(crate.name for crate in crates), told)

    def test_each_face_has_a_readme_that_tells_its_parts(self):
        self.assertEqual(sorted(self.faces), [it.parent.name for it in sorted(CRATES.glob("*/README.md"))])
        for face, (_, parts) in self.faces.items():
            rows = re.findall(r"^\| `(\w+)` \|", (CRATES / face / "README.md").read_text(encoding="utf-8"), re.MULTILINE)
            with self.subTest(face):
                self.assertEqual(sorted((face, *parts)) if parts else [], sorted(rows))

    def test_families_have_the_lowest_crate_first(self):
        for family, crates in self.families.items():
            self.assertEqual([], not_lowest_first(crates), family)


class Finding(unittest.TestCase):
    """What is not there is found."""

    def setUp(self):
        room = tempfile.TemporaryDirectory()
        self.addCleanup(room.cleanup)
        self.root = Path(room.name)
        for name in ("crates/low/src/lib.rt", "crates/high/src/lib.rt", "docs/MAP.md"):
            (self.root / name).parent.mkdir(parents=True, exist_ok=True)
            (self.root / name).write_text("")

    def write(self, name, text):
        (self.root / name).write_text(text)
        return self.root / name

    def paths(self, text):
        place = Place(self.root, self.root / "crates" / "high")
        return [str(path.relative_to(self.root)) for path in paths_in(text, place)]

    def test_a_path_is_of_the_crate_that_was_named_last(self):
        text = "- `src/lib.rt`, `more.rt`, `crates/low/src/lib.rt`, `src/other.rt`,\n  `third.rt`\n- `src/lib.rt`\n"
        high, low = "crates/high/src", "crates/low/src"
        self.assertEqual([f"{high}/lib.rt", f"{high}/more.rt", f"{low}/lib.rt", f"{low}/other.rt", f"{low}/third.rt", f"{high}/lib.rt"], self.paths(text))

    def test_what_is_no_path_is_left(self):
        self.assertEqual([], self.paths("`ask a f(3)`, `Book::undo`\n\n```\n`src/lib.rt`\n```\n"))

    def test_names_are_those_in_code(self):
        self.assertEqual({"Book", "undo", "lost"}, names_in("Book `Book::undo`, `lost`\n\n```\n`fence`\n```\n`two words`\n"))

    def test_a_call_that_is_not_there_is_told(self):
        self.write("crates/low/src/lib.rt", "pub mod tray;\n\npub use tray::Tray;\n")
        self.write("crates/low/src/tray.rt", "pub struct Tray {\n    pub size: u8,\n}\n\nimpl Tray {\n    pub fn fill(&self) {}\n}\n\nfn fill_all() {}\n")
        there = paths_of(self.root / "crates")
        found = "`low::tray::Tray::fill`, `low::Tray`, `Tray::size`, `tray::fill_all`, `Arc::get_mut`, `low::tray`\n"
        self.assertEqual([], lost_calls(found, there))
        lost = ["Tray::empty", "low::Tray::size_of", "low::tray::Lid", "tray::Lid"]
        self.assertEqual(lost, lost_calls(", ".join(f"`{path}`" for path in lost), there))

    def test_a_function_that_changed_is_told(self):
        self.write("crates/low/src/lib.rt", "impl Low {\n    fn low() {\n        1\n\n        2\n    }\n}\n")
        text = "From [it](../low/src/lib.rt):\n\n```rust\nfn low() {\n    1\n\n    2\n}\n```\n"
        self.assertEqual([], list(lost_quotes(self.write("crates/high/README.md", text))))
        self.assertEqual(["../low/src/lib.rt"], list(lost_quotes(self.write("crates/high/README.md", text.replace("2", "3")))))

    def test_a_crate_before_its_library_is_told(self):
        families = families_in("# low: first\nhigh: low\nlow:\n\n# other: then\nother: high\n")
        self.assertEqual({"low": ["high", "low"], "other": ["other"]}, {it: [crate.name for crate in families[it]] for it in families})
        self.assertEqual(["high"], not_lowest_first(families["low"]))
        self.assertEqual([], not_lowest_first([crate_of("low:"), crate_of("high: low")]))

    def test_a_row_without_a_family_is_of_the_last_one(self):
        rows = "| one | [low](low/README.md) | names | |\n| | [high](high/README.md) | more | `high_code`, `high_text` |\n"
        self.assertEqual({"low": ("one", ()), "high": ("one", ("high_code", "high_text"))}, faces_in(rows))


if __name__ == "__main__":
    unittest.main()
