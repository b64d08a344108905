"""What `help` tells: the commands of the program and of the talk, how they may be typed, one command, or a refusal."""
from building.place import RUN
from conversation import helping
from conversation.helping import row
from conversation.usages import usages_in

OWN = f"""\
Commands, one a line:
  help [COMMAND]            all commands; or one, or a refusal by its code, as `help B15`
  save FILE                 writes the commands so far that were not refused, as `{RUN} FILE` takes them; for `work` its turns
  load FILE                 does the commands of a file, which may name files of its own folder alone
  labels                    lists the labels of events
  stop                      ends a command that is still at work, as if it had not been given
  quit                      ends the talk, as the end of the input does
"""
WAYS = """\
How they may be typed:
  vat NAME (EARLIER ..)     without a number: the script is typed behind it, up to an empty line outside of brackets
  ask NAME PROGRAM          goes on in the next lines as long as a bracket is open, or up to an empty one
  @FILE                     in place of the number or the program takes it from a file
  COMMAND as LABEL          names its event: $LABEL stands for it, $LABEL.m0 for its first message
  control-C                 ends the wait for a reply, or drops a line that is half typed, and what was pasted behind it"""


def own_usages():
    return usages_in(OWN)


def usages_of(session):
    """The commands of the talk and of the session's program, by their first words."""
    return {**own_usages(), **session.usages}


def all_commands(usages):
    """The lines on all commands."""
    own = own_usages()
    lines = ["Commands of the program:", *(row(each) for each in usages.values() if each.word not in own)]
    return [*lines, "Commands of the talk:", *map(row, own.values()), *WAYS.split("\n")]


def help_on(word, usages):
    """What is told of a word, or of all commands where there is none."""
    return helping.help_on(word, usages, WAYS.split("\n")) if word else all_commands(usages)
