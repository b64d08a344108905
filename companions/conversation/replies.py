"""What replies say: refusals, events that were made, and how turns ended."""
import re
from dataclasses import dataclass

REFUSAL = re.compile(r"no ([A-Z]\d+) (\S+)(?: (.*))?", re.DOTALL)
EVENT = re.compile(r"ok (e\d+)(?: .*)?", re.DOTALL)
ENDED = re.compile(r"ok (e\d+) ((?:value|problem|abandoned) .*)", re.DOTALL)


@dataclass(frozen=True)
class Refusal:
    """A refusal: its code, the name of that, and what it names besides."""

    code: str
    name: str
    arguments: tuple


def refusal_in(reply):
    """The refusal that a reply has for its last line, if it is one."""
    found = REFUSAL.fullmatch(reply[-1]) if reply else None
    return Refusal(found[1], found[2], tuple((found[3] or "").split())) if found else None


def events_in(reply):
    """The events that a reply says were made, in their order."""
    return [found[1] for line in reply if (found := EVENT.fullmatch(line))]


def ends_in(reply):
    """How the turns ended of which a reply tells, by their events."""
    return {found[1]: found[2] for line in reply if (found := ENDED.fullmatch(line))}
