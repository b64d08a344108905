"""What the scripts that measure the built program share: their words, the commands that they give it, what a run costs."""
import argparse
import os
import re
import resource
import shutil
import signal
import subprocess
import sys
import tempfile
from dataclasses import dataclass, field
from pathlib import Path

sys.path.append(str(Path(__file__).resolve().parents[1] / "companions"))

from building.place import USUAL
from building.programs import named_or_built

OPTIONS_OF_PROGRAM = ("--budget", "1000000")
# One that keeps no file, and is the same in each run.
PYTHON = (sys.executable, "-S", "-")
ENVIRONMENT = {**os.environ, "PYTHONHASHSEED": "0"}
# Seconds from which a run is run once, and up to which ten times in place of three.
LONG_RUN, SHORT_RUN = 10, 0.1
# The cheapest tools of valgrind that count exactly: instructions, and requests for memory with the most that was held.
COUNTING = ("valgrind", "--vgdb=no", "--tool=cachegrind", "--cache-sim=no", f"--cachegrind-out-file={os.devnull}")
WATCHING = ("valgrind", "--vgdb=no", "--tool=dhat", f"--dhat-out-file={os.devnull}")
COUNTED = re.compile(r"I +refs: +([\d,]+)")
HELD = re.compile(r"Total: +[\d,]+ bytes in ([\d,]+) blocks\n.*At t-gmax: +([\d,]+) bytes")


def complain(text):
    """Ends a script that cannot begin."""
    print(f"{Path(sys.argv[0]).name}: {text}", file=sys.stderr)
    sys.exit(2)


def parser_of(document):
    """A parser of a script's words, which may name the program."""
    parser = argparse.ArgumentParser(
        description=document, formatter_class=argparse.RawDescriptionHelpFormatter, allow_abbrev=False)
    parser.add_argument("program", metavar="PROGRAM", nargs="?", help=f"the program that is measured; without it {USUAL}")
    return parser


def add_instructions(parser):
    """Has a parser know the option that counts instructions."""
    parser.add_argument("--instructions", action="store_true",
                        help="count instructions, of smaller sizes, in place of time: the same on a busy machine; needs valgrind")


def positive(word):
    """The number above 0 that a word is."""
    if not word.isdecimal() or int(word) < 1:
        raise argparse.ArgumentTypeError(f"{word} is no number above 0")
    return int(word)


def program_of(word):
    """Where the program stands that a word names, or else the one that is built."""
    program = os.path.abspath(named_or_built(word))
    if not (os.path.isfile(program) and os.access(program, os.X_OK)):
        complain(f"{word} is no program that can be run")
    return program


def meter_of(options):
    """What measures, as the words want it."""
    return counting_meter(options) if options.instructions else Seconds(program_of(options.program))


def counting_meter(options, limit=None):
    """What counts instructions, of runs that take at most so many processor seconds."""
    if not shutil.which(COUNTING[0]):
        complain(f"there is no {COUNTING[0]}, which has to count the instructions")
    return Instructions(program_of(options.program), limit)


def text_of(lines):
    return "".join(f"{line}\n" for line in lines)


@dataclass
class Session:
    """Commands, with the number of the next event."""

    lines: list = field(default_factory=list)
    next: int = 1

    def birth(self, name, script=(), earlier=()):
        """A vat, and the turn of its script."""
        self.lines += [f"vat {name} ({' '.join(earlier)}) {len(script)}", *script, f"turn e{self.next}.m0"]
        self.next += 2

    def ask(self, name, program):
        """A question to a vat, and its turn."""
        self.lines += [f"ask {name} {program}", f"turn e{self.next}.m0"]
        self.next += 2

    def run(self, steps):
        """So many steps, where there are so many."""
        self.lines.append(f"run {steps}")
        self.next += steps


@dataclass(frozen=True)
class Ended:
    """How a run of a command ended: its status, its processor seconds, its greatest resident size in bytes, and what it wrote."""

    words: tuple
    status: int
    seconds: float
    memory: int
    out: str
    said: str


@dataclass(frozen=True)
class Memory:
    """The most bytes that a run held at a time, and how often it asked for memory, where that was counted."""

    most: int
    requests: int | None = None


def read_whole(file):
    file.seek(0)
    return file.read().decode(errors="replace")


def started(words, **streams):
    """A process that was started on these words."""
    try:
        return subprocess.Popen(words, env=ENVIRONMENT, **streams)
    except OSError as fault:
        complain(f"cannot run {words[0]}: {fault.strerror}")


class TookTooLong(Exception):
    """A run took more processor time than it was given."""


def run(words, text, limit=None):
    """Runs a command to its end, with this for its input, and at most so many processor seconds."""
    give = limit and (lambda: resource.setrlimit(resource.RLIMIT_CPU, (limit, limit + 5)))
    with tempfile.TemporaryFile() as given, tempfile.TemporaryFile() as out, tempfile.TemporaryFile() as said:
        given.write(text.encode())
        given.seek(0)
        child = started(words, stdin=given, stdout=out, stderr=said, preexec_fn=give)
        _, status, used = os.wait4(child.pid, 0)
        child.returncode = os.waitstatus_to_exitcode(status)
        if limit and child.returncode in (-signal.SIGXCPU, -signal.SIGKILL):
            raise TookTooLong
        seconds, memory = used.ru_utime + used.ru_stime, used.ru_maxrss * 1024
        return Ended(words, child.returncode, seconds, memory, read_whole(out), read_whole(said))


def must(is_so, ended, found=""):
    """Ends the script where a run did not do what is measured."""
    if not is_so:
        said = [line for line in ended.said.splitlines() if not re.match("(==|--)[0-9]+", line)]
        sys.exit("\n".join([f"{' '.join(ended.words)} ended with {ended.status}{found}", *said[-5:]]))


def check_replies(ended, last):
    """Looks whether the last reply of the program begins so, and all are accepted, or refused for just this reason."""
    replies = ended.out.splitlines() or [""]
    wrong = [reply for reply in replies if reply.startswith("no ") and not reply.startswith(last)]
    wrong += [] if replies[-1].startswith(last) else replies[-1:]
    must(not wrong and ended.status == int(last.startswith("no ")), ended, f"; a reply is {''.join(wrong[:1])[:200]!r}")


@dataclass(frozen=True)
class Meter:
    """Tells what runs cost, those of the program and those of python3. What cost is, those below say."""

    program: str

    def words(self):
        return (self.program, *OPTIONS_OF_PROGRAM)

    def ours(self, commands, last="ok "):
        """What the program costs on these commands, the last of which is answered so."""
        cost, ended = self.cost(self.words(), commands)
        check_replies(ended, last)
        return cost

    def theirs(self, source):
        """What python3 costs on this source."""
        cost, ended = self.cost(PYTHON, source)
        must(ended.status == 0, ended)
        return cost

    def accepted(self, commands, watching=()):
        """A run of the program on these commands, which are all accepted, below what watches it."""
        ended = run((*watching, *self.words()), commands)
        check_replies(ended, "ok ")
        return ended


class Seconds(Meter):
    """Processor time: the least of three runs, or of one that is long, or of ten that are short."""

    is_exact = False

    def cost(self, words, text):
        first = run(words, text)
        times = 1 if first.seconds > LONG_RUN else 10 if first.seconds < SHORT_RUN else 3
        return min([first.seconds, *(run(words, text).seconds for _ in range(times - 1))]), first

    def memory(self, commands):
        """The greatest resident size of the program. It is no less than that of this script, from which it was started."""
        return Memory(self.accepted(commands).memory)

    def told(self, cost):
        return f"{cost * 1e6:12,.1f} microseconds"

    def each(self, cost, count, item):
        """How many of an item are done at this cost for so many."""
        return f"{count / cost:14,.0f} {item}s/s"

    def beside_python(self, mine, theirs):
        return f"{theirs / mine:6.2f} times as fast"


@dataclass(frozen=True)
class Instructions(Meter):
    """Instructions, of which each run takes the same number. A run may take so many processor seconds, where that is limited."""

    limit: int | None = None
    is_exact = True

    def cost(self, words, text):
        ended = run((*COUNTING, *words), text, self.limit)
        return self.found(COUNTED, ended)[0], ended

    def memory(self, commands):
        """The most bytes of those that the program asked for that it held at a time, and how often it asked."""
        requests, most = self.found(HELD, self.accepted(commands, WATCHING))
        return Memory(most, requests)

    def found(self, pattern, ended):
        """The numbers that valgrind told."""
        numbers = pattern.search(ended.said)
        must(numbers, ended, ", and valgrind told no number")
        return [int(it.replace(",", "")) for it in numbers.groups()]

    def told(self, cost):
        return f"{cost:12,.0f} instructions"

    def each(self, cost, count, item):
        """What one of an item costs, of so many for this."""
        return f"{cost / count:10,.1f} instructions/{item}"

    def beside_python(self, mine, theirs):
        return f"{mine / theirs:6.2f} times those of python3"


@dataclass(frozen=True)
class Run:
    """Commands, what they cost, and what the last of them added to that."""

    meter: Meter
    text: str
    cost: float
    added: float

    def then(self, lines, last="ok "):
        """The same with these commands behind it, the last of which is answered so."""
        text = self.text + text_of(lines)
        cost = self.meter.ours(text, last)
        return Run(self.meter, text, cost, max(cost - self.cost, 0))


def run_of(meter, session):
    return Run(meter, "", 0, 0).then(session.lines)


def with_vats(*names):
    """A session of vats that have a variable."""
    session = Session()
    for name in names:
        session.birth(name, ["var n := 0"])
    return session


def with_questions(count):
    """A session of so many questions that add one, each with its turn."""
    session = with_vats("a")
    for _ in range(count):
        session.ask("a", "n := n + 1")
    return session


def names_of(events):
    return " ".join(f"e{event}" for event in events)
