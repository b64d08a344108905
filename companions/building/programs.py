"""Which program there is to run: with its proofs, without them, or the plain interpreter."""
import contextlib
import sys
import tempfile
from dataclasses import dataclass
from pathlib import Path

from conversation.visible import lines_for_stream

from . import kit, well
from .builds import locked, proved_build, quick_build, unproved_build
from .crates import PROGRAM, ROOT, Fault
from .place import installed
from .unproved import Workshop, compile_quickly, read_module

NOTHING_PROVED = f"{PROGRAM} without its proofs: nothing of it is proved"
NOT_PROVED = "not proved here; ./prove proves it"
SLOW = f"{NOT_PROVED}. It is slow"
QUICK = f"{SLOW}: one that is compiled well takes its place in a few minutes"


@dataclass(frozen=True)
class Choice:
    """A program to run, what is to be told of it, and the process that is making a better one."""

    program: Path
    told: str = ""
    behind: int | None = None

    @property
    def line(self):
        """What is told of it before it runs; nothing of one that is proved."""
        return self.told and f"{PROGRAM}: {self.told}"


def say(text):
    print(lines_for_stream(str(text), sys.stderr), file=sys.stderr, flush=True)


@contextlib.contextmanager
def building():
    """Tells of what the system refuses to who builds."""
    try:
        yield
    except OSError as fault:
        raise Fault(f"cannot build {PROGRAM}: {fault.filename}: {fault.strerror}") from fault


def plain(root):
    """The plain interpreter, which needs Python alone."""
    told = f"there is no kit of Rattle at {kit.KIT}: this is the plain interpreter of reference/, which is slow; nothing of it is proved"
    return Choice(root / "reference" / "answer", told)


def build_quickly(build):
    """Builds a first program without its proofs, and has a better one made behind it."""
    say(f"building {PROGRAM} without its proofs, which takes a minute or two ..")
    with tempfile.TemporaryDirectory(prefix=f"{PROGRAM}-unproved-") as folder:
        sources = build.sources()
        workshop = Workshop(build.root, build.crates(), Path(folder))
        module = read_module(workshop)
        if build.sources() != sources:
            raise Fault("the sources changed while they were read: start this again")
        say("the sources are read; compiling ..")
        build.put(compile_quickly(workshop, module), sources)
        # What it cannot begin with is made anew by the next one who wants it.
        with contextlib.suppress(OSError):
            well.begin(build.root, lambda folder: well.hand_over(module, sources, folder))


def quick(root):
    """The program that was compiled quickly, which is built first where none stands that was made from the sources as they are; None
    where the one that is compiled well stands now."""
    build, behind = quick_build(root), None
    if not build.is_current():
        with building():
            build.program.parent.mkdir(parents=True, exist_ok=True)
            with locked([build.program.parent], lambda _: say(f"another process is building {PROGRAM}; waiting for it ..")):
                if not build.is_current():
                    build_quickly(build)
    # Who may not write here has no better one made.
    with contextlib.suppress(OSError):
        behind = well.begin(root)
    if behind is None and unproved_build(root).is_current():
        return None
    return Choice(build.program, told_of_quick(root, behind), behind)


def told_of_quick(root, behind):
    """What is told of a program that was compiled quickly, behind which a process makes a better one, or none does."""
    if behind is not None:
        return QUICK
    failure = well.failure(root)
    return f"{SLOW}: it could not be compiled well, as {failure} tells" if failure.exists() else SLOW


def standing(root):
    """The program that stands and was made from the sources as they are, proved if there is such a one; or None."""
    if proved_build(root).is_current():
        return Choice(proved_build(root).program)
    if unproved_build(root).is_current():
        return Choice(unproved_build(root).program, NOT_PROVED)
    return None


def is_built(root=ROOT):
    """Whether a program can be chosen without being built first."""
    return not kit.is_there() or standing(root) is not None or quick_build(root).is_current()


def choice(root=ROOT):
    """The program to run at once: the proved one, the unproved one, or one that stands in until it is there."""
    if not kit.is_there():
        return plain(root)
    # Behind one that was compiled quickly a better one may have come meanwhile.
    return standing(root) or quick(root) or standing(root)


def unproved_program(root=ROOT):
    """The program without its proofs, compiled well. It is waited for where none stands that was made from the sources as they are."""
    build = unproved_build(root)
    if not build.is_current():
        with building(), well.alone(root, lambda _: say(f"another process is compiling {PROGRAM}; waiting for it ..")):
            if not build.is_current():
                say(f"building {PROGRAM} without its proofs, which takes some minutes ..")
                well.make_here(build)
    return build.program


def patient_choice(root=ROOT):
    """The program to test or to measure, which is waited for."""
    if not kit.is_there():
        return plain(root)
    return standing(root) or Choice(unproved_program(root), NOT_PROVED)


def is_proved(program, root=ROOT):
    """Whether a program that stands here is the one with its proofs."""
    there = installed(root)
    return there.is_proved if there else program == proved_build(root).program


def told_of(choice_of, root):
    """The installed program, or in the repository the one that is chosen so. It is told which."""
    there = installed(root)
    chosen = Choice(there.program, NOTHING_PROVED) if there else choice_of(root)
    say(f"the program is {chosen.program}{', which is proved' if is_proved(chosen.program, root) else f': {chosen.told}'}")
    return chosen.program


def program_to_try(root=ROOT):
    """The program for a companion that talks with somebody."""
    return told_of(choice, root)


def named_or_built(word):
    """The program that a word names; without one the one to test or to measure. Ends where there is none."""
    try:
        return word or str(told_of(patient_choice, ROOT))
    except Fault as fault:
        say(fault)
        sys.exit(2)
