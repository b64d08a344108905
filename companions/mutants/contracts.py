"""What other crates see of a source: its items with their contracts, without the bodies of functions and without comments."""
import re

FUNCTION = re.compile(r"\s*(?:pub(?:\([a-z ]*\))? )?(?:(?:const|unsafe) )*fn \w")
CLAUSE = re.compile(r"\s*(?:requires|ensures|where|ghost)\b")
COMMENT = re.compile(r"\s*//")


def indent_of(line):
    return line[: len(line) - len(line.lstrip())]


def opens_body(line):
    """A line at whose end the body of a function begins, as `rt fmt` lays it out."""
    return line.endswith("{") and not CLAUSE.match(line)


def contract_text(source):
    """A source, as `rt fmt` lays it out, without what stands in the bodies of its functions, comments and blank lines."""
    kept, indent, state = [], "", "items"
    for line in source.splitlines():
        if state == "body":
            state = "items" if line == f"{indent}}}" else "body"
            continue
        if not line.strip() or COMMENT.match(line):
            continue
        if FUNCTION.match(line):
            indent, state = indent_of(line), "head"
        kept.append(line)
        if state == "head":
            if line.endswith("{}") or line == f"{indent}{{}}" or line.endswith(";") and not CLAUSE.match(line):
                state = "items"
            elif opens_body(line):
                state = "body"
    return "\n".join(kept)
