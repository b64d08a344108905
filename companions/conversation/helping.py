"""What is told of one command or refusal, by the program's help, docs/COMMANDS.md and docs/REFUSALS.md."""
import re

from .language import meanings, read_documents, told_of
from .refusals import SENTENCES

OF_ONE_COMMAND = re.compile(r", for `([a-z-]+)` [^;]*")


def row(usage):
    return f"  {usage.words:<25} {usage.does}"


def in_one_line(cell):
    return cell.replace("`", "")


def told_for(word, when):
    """When a refusal comes, without what is so for another command alone."""
    return in_one_line(OF_ONE_COMMAND.sub(lambda found: found[0] if found[1] == word else "", when))


def one_command(usage, ways=()):
    """The lines on a command, with ways in which it may be typed besides."""
    wants, replies, refused = told_of(read_documents(), usage.word)
    lines = [row(usage).strip(), *(way for way in ways if way.split()[0] == usage.word)]
    lines += [f"  wants: {in_one_line(each)}" for each in wants]
    lines += [f"  reply: {in_one_line(each)}" for each in replies]
    return lines + [f"  {' '.join(['no', each.code, each.name, *each.arguments])}: {told_for(usage.word, each.when)}" for each in refused]


def one_refusal(code):
    """The lines on a refusal."""
    found = [each for each in meanings(read_documents()) if each.code == code]
    names = [*(found[0].arguments if found else ()), "..", ".."]
    lines = [f"  no {' '.join([code, each.name, *each.arguments])}: {in_one_line(each.when)}" for each in found]
    return [SENTENCES[code].format(*names), *lines]


def help_on(word, usages, ways=()):
    """What is told of a word: a command, or the code of a refusal."""
    if word in usages:
        return one_command(usages[word], ways)
    if word.upper() in SENTENCES:
        return one_refusal(word.upper())
    return [f"There is no command {word} and no refusal of that code; `help` lists the commands."]
