"""Looks whether each relative link of the repository's documents leads to a file, and to a heading that is there."""
import re
import subprocess
import tempfile
import unittest
from collections import Counter
from pathlib import Path

from .finding import ROOT

CODE = re.compile(r"^```.*?^```$|`[^`\n]*`", re.MULTILINE | re.DOTALL)
LINK = re.compile(r"\[[^][]*\]\(([^()\s]+)\)")
HEADING = re.compile(r"^#{1,6} (.*)$", re.MULTILINE)
FENCED = re.compile(r"^```.*?^```$", re.MULTILINE | re.DOTALL)
ELSEWHERE = re.compile(r"[a-z]+:")


def documents():
    """The documents that the repository has."""
    listed = subprocess.run(["git", "ls-files", "-z", "*.md"], cwd=ROOT, capture_output=True, text=True, check=True).stdout
    return [ROOT / name for name in listed.split("\0") if name and (ROOT / name).is_file()]


def anchors(text):
    """The anchors of a document's headings, as the sites that show it make them."""
    found, seen = set(), Counter()
    for heading in HEADING.findall(FENCED.sub("", text)):
        anchor = re.sub(r"[^\w\- ]", "", heading.strip().lower()).replace(" ", "-")
        found.add(f"{anchor}-{seen[anchor]}" if seen[anchor] else anchor)
        seen[anchor] += 1
    return found


def broken_links(path):
    """The links of a document that lead nowhere."""
    links = (link for link in LINK.findall(CODE.sub("", path.read_text(encoding="utf-8"))) if not ELSEWHERE.match(link))
    return [link for link in links if not leads(path, *link.partition("#")[::2])]


def leads(path, place, anchor):
    """Whether a link from a document leads to a file and, if it names a heading, to one of that file."""
    target = path.parent / place if place else path
    if not anchor:
        return target.exists()
    return target.is_file() and anchor in anchors(target.read_text(encoding="utf-8"))


class Links(unittest.TestCase):
    def test_a_link_that_leads_nowhere_is_found(self):
        with tempfile.TemporaryDirectory() as folder:
            path = Path(folder, "A.md")
            (path.parent / "B.md").write_text("# Two `words`, or three\n```\n# no heading\n```\n## A\n## A\n", encoding="utf-8")
            good = "[x](B.md) [a\nb](#here) [x](B.md#two-words-or-three) [x](B.md#a-1) [x](https://none.such/#x) `[x](y)`"
            path.write_text(f"# Here\n{good}\n```\n[x](y)\n```\n", encoding="utf-8")
            self.assertEqual(broken_links(path), [])
            bad = ["C.md", "#there", "B.md#no-heading", "B.md#a-2", "C.md#a"]
            path.write_text("# Here\n" + " ".join(f"[`x`]({link})" for link in bad), encoding="utf-8")
            self.assertEqual(broken_links(path), bad)

    def test_all_links_lead_somewhere(self):
        self.assertGreater(len(documents()), 5)
        found = {str(path.relative_to(ROOT)): broken_links(path) for path in documents()}
        self.assertEqual({name: links for name, links in found.items() if links}, {})


if __name__ == "__main__":
    unittest.main()
