"""How a word of a command may go on, from what the session has now."""
import glob

from .commands import words_of
from .program import Ended, Stopped, TooMuch
from .visible import visible

# What stands for the rest of a line in the help.
REST = {"PROGRAM", "TEXT"}
LIVE, UNDONE = {"cone", "undo", "undo-cone"}, {"redo"}


def messages(session, word):
    """The messages of which this command may be done now; for a command of which that is not told, all."""
    may_be_done = [line.split() for line in session.enabled()]
    if word in ("arrive", "forward", "turn"):
        return [words[1] for words in may_be_done if words[0] == word]
    return session.world().messages


def promises(session, vat):
    return [words[2] for words in map(str.split, session.enabled()) if words[:2] == ["learn", vat]]


def events(session, word):
    wanted = {True} if word in LIVE else {False} if word in UNDONE else {True, False}
    return [event.name for event in session.events() if event.is_live in wanted]


def objects(session):
    return [name for held in session.world().objects.values() for name in held]


def argument_at(usage, words, before):
    """What stands in the help for the word that comes behind these words."""
    if "(" in before and ")" not in before and "(" in usage.words:
        return "EARLIER"
    place = len(words) - 1
    if usage.arguments and usage.arguments[-1] in REST and place >= len(usage.arguments):
        return usage.arguments[-1]
    return usage.argument(place).rstrip(" .")


def words_for(session, usage, words, argument):
    """What the session has for an argument."""
    if argument in ("NAME", "EARLIER"):
        return session.world().vats
    if argument in REST:
        return session.world().nouns.get(words[1], [])
    if argument == "P":
        return promises(session, words[-1]) if len(words) > 1 else []
    found = {"M": messages, "E": events, "F": events}.get(argument)
    if found:
        return found(session, usage.word)
    return objects(session) if argument == "O" else []


def labels(session, argument):
    """What may stand for an event or a message by its label."""
    ending = {"E": "", "F": "", "M": ".m0"}.get(argument)
    return [] if ending is None else [f"${label}{ending}" for label in session.labels]


def paths(text):
    """The files whose names begin so, without those that a terminal could not show as they are."""
    return sorted(path for path in glob.iglob(glob.escape(text) + "*") if visible(path) == path)


def commands(usages):
    return [word + " " * bool(usage.arguments) for word, usage in usages.items()]


def completions(session, usages, before, text):
    """What a word may become that begins with a text and stands behind another one; `usages` are those of all commands."""
    words = words_of(before)
    if text.startswith("@"):
        return [f"@{path}" for path in paths(text[1:])]
    if not words:
        return [word for word in commands(usages) if word.startswith(text)]
    usage = usages.get(words[0])
    if usage is None:
        return []
    argument = argument_at(usage, words, before)
    if argument == "FILE":
        return paths(text)
    try:
        found = usages if argument == "COMMAND" else words_for(session, usage, words, argument)
    except (Ended, Stopped, TooMuch):
        return []
    return [word for word in [*found, *labels(session, argument)] if word.startswith(text)]
