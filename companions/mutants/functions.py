"""The functions of a crate: on which lines they stand, and by which paths the prover knows them."""
import re
from dataclasses import dataclass

HEAD = re.compile(r"( *)(?:pub(?:\([a-z ]*\))? )?(?:(?:const|unsafe) )*fn (\w+)")
IMPL = re.compile(r"impl\b(?P<parameters><.*?>(?= ))? (?:(?P<of>.+?) for )?(?P<on>.+?)(?: where\b.*)?(?: \{\}?)?$")
TYPE = re.compile(r"^(?:pub(?:\([a-z ]*\))? )?(?:struct|enum) (\w+)", re.M)
TRAIT = re.compile(r"(?:pub(?:\([a-z ]*\))? )?trait (\w+)")
ROOTS = ("lib", "main")


@dataclass(frozen=True)
class Function:
    """A function, by its path in the crate, and the lines of a file on which it stands."""

    path: str
    file: str
    first: int
    last: int

    def has(self, file, line):
        return file == self.file and self.first <= line <= self.last


def module_of(file):
    """The module that a source of a crate is."""
    module = file.removeprefix("src/").removesuffix(".rt").removesuffix("/mod")
    return "" if module in ROOTS else module.replace("/", "::")


def modules_of_types(sources):
    """The module of each type that these sources define."""
    return {type: module_of(file) for file, source in sources.items() for type in TYPE.findall(source)}


def last_word(path):
    """What stands last in the path of a type or trait, without its arguments."""
    return re.match(r"(?:\w+::)*(\w+)", path)[1]


def parameters_of(text):
    """The names of the parameters that stand between these brackets."""
    return set(re.findall(r"[<,] *(?:const )?(\w+)", text or ""))


def words_of_trait(text, parameters):
    """What the name of a trait is in the path of an impl: its own, and those of its arguments that the impl does not leave open."""
    name, _, arguments = text.lstrip("!").partition("<")
    heads = [it for it in re.split(r", (?![^<]*>)", arguments.removesuffix(">")) if re.match(r"[A-Za-z]", it)]
    return last_word(name) + "".join(word for word in map(last_word, heads) if word not in parameters)


def words_of_type(text, parameters):
    """What the name of a type is in the path of its own impl: its own alone, or with all in its arguments where one is not left open."""
    name, _, arguments = text.partition("<")
    words = re.findall(r"(?<!')\b[A-Za-z]\w*", arguments)
    return "+".join([last_word(name), *(words if set(words) - parameters else [])])


@dataclass(frozen=True)
class Owner:
    """An impl or a trait, whose members stand under a name in a module."""

    module: str
    name: str


def owner_of(line, module, types):
    """The impl or trait that begins on this line of a module; None where none begins. A type's own impl is in the type's module."""
    impl, trait = IMPL.match(line), TRAIT.match(line)
    if trait:
        return Owner(module, trait[1])
    if not impl:
        return None
    on, parameters = re.sub(r"^&(?:'\w+ )?(?:mut )?", "", impl["on"]), parameters_of(impl["parameters"])
    of = words_of_trait(impl["of"], parameters) if impl["of"] else ""
    if of:
        # What ends a value is known as the type's own.
        return Owner(module, last_word(on) + ("" if of == "Drop" else of))
    return Owner(types.get(last_word(on), module), words_of_type(on, parameters))


def is_last(line, head, indent):
    """Whether a function that stands at this indent ends with this line; its head, if it is on the line, is told."""
    return line in (f"{indent}}}", f"{indent}{{}}") or bool(head) and line.endswith(("{}", ";"))


def is_beyond(line, head, indent):
    """Whether a function that has no body, at this indent, ended above this line."""
    return bool(head) and len(head[1]) <= len(indent) or bool(indent) and line.startswith("}")


def functions_in(file, source, types):
    """The functions of a source, as `rt fmt` lays it out, where these types have these modules; one that stands in another one is
    part of that."""
    found, owner, indent, module = [], None, None, module_of(file)
    for number, line in enumerate(source.splitlines(), 1):
        owner = None if line.startswith("}") else owner_of(line, module, types) or owner
        head = HEAD.match(line)
        if indent is not None and is_beyond(line, head, indent):
            found.append(Function(path, file, first, number - 1))
            indent = None
        if head and indent is None:
            within = (owner.module, owner.name) if owner and head[1] else (module,)
            path, indent, first = "::".join(filter(None, (*within, head[2]))), head[1], number
        if indent is not None and is_last(line, head, indent):
            found.append(Function(path, file, first, number))
            indent = None
    return found
