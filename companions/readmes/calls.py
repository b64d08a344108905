"""Which calls and types a document names by paths, as `desk::desk::Desk::lend`, and which of these the sources do not have.

A path begins with a crate, a module, or a type. What begins with another name is outside of the crates, and not looked for.
"""
import re

from .naming import code_in, items_of

PATH = re.compile(r"[A-Za-z_]\w*(?:::[A-Za-z_]\w*)+")
WORD = re.compile(r"\w+")
DEFINED = re.compile(r"\b(?:fn|struct|enum|trait|type|const) (\w+)")
SHOWN = re.compile(r"^pub use [^;]*;", re.MULTILINE)
VISIBLE = r"(?:pub(?:\(crate\))? )?"
BLOCK = re.compile(rf"^{VISIBLE}(?:impl|struct|enum|trait)\b([^{{;]*)\{{(.*?)^\}}", re.MULTILINE | re.DOTALL)
MEMBER = re.compile(rf"^    {VISIBLE}(?:ghost )?(?:const )?(?:fn )?(\w+)", re.MULTILINE)
ROOTS = {"lib", "main"}


def names_of(text):
    """What a source defines, and what it shows of others."""
    return set(DEFINED.findall(text)) | {word for shown in SHOWN.findall(text) for word in WORD.findall(shown)}


def members_of(text):
    """The functions, fields and variants that stand in blocks of a source, each with the names in the head of its block."""
    return {(name, member) for head, body in BLOCK.findall(text) for name in WORD.findall(head) for member in MEMBER.findall(body)}


def paths_of_crate(crate):
    """All paths that lead to something of a crate: from the crate, from a module, or from a type on."""
    texts = {file.stem: file.read_text(encoding="utf-8") for file in crate.glob("src/*.rt")}
    members = {pair for text in texts.values() for pair in members_of(text)}
    paths = {crate.name}
    for module, text in texts.items():
        place = (crate.name,) if module in ROOTS else (crate.name, module)
        names = names_of(text)
        items = {(name,) for name in names} | {pair for pair in members if pair[0] in names}
        paths |= {"::".join((*place[start:], *item)) for item in items for start in range(len(place) + 1)}
        paths |= {"::".join(place), module}
    return paths


def paths_of(crates):
    """All paths that lead to something of the crates in a folder."""
    return {path for crate in crates.iterdir() if crate.is_dir() for path in paths_of_crate(crate)}


def lost_calls(text, there):
    """The paths of a document that are not there, though they begin with something of the crates."""
    named = {words for item in items_of(text) for words in code_in(item) if PATH.fullmatch(words)}
    return sorted(path for path in named - there if path.partition("::")[0] in there)
