"""The families, faces and parts of the crates, as crates.txt and crates/README.md have them."""
import re

from building.crates import crate_of

TESTS = "tests"
FAMILY = re.compile(r"# (\w+): ")
FACE = re.compile(r"\[(\w+)\]\(\w+/README\.md\)")


def families_in(text):
    """The crates of each family, in the order of a text as that of crates.txt."""
    families, family = {}, None
    for line in text.splitlines():
        begun, crate = FAMILY.match(line), crate_of(line)
        if begun:
            family = begun[1]
        elif crate:
            families.setdefault(family, []).append(crate)
    return families


def not_lowest_first(crates):
    """The crates of a family that stand before one that they stand on."""
    names = [crate.name for crate in crates]
    return [crate.name for place, crate in enumerate(crates) if set(crate.uses) & set(names[place:])]


def faces_in(text):
    """Of each face its family and its parts, as the table of crates/README.md has them."""
    faces, family = {}, None
    for row in (line.split("|")[1:-1] for line in text.splitlines() if line.startswith("|")):
        face = FACE.search(row[1])
        if face and len(row) == 4:
            family = row[0].strip() or family
            faces[face[1]] = (family, tuple(re.findall(r"`(\w+)`", row[3])))
    return faces
