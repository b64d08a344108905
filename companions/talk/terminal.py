"""A person at a terminal: lines are edited, completed by TAB, and kept for the next time."""
import array
import atexit
import collections
import contextlib
import fcntl
import os
import readline
import select
import signal
import sys
import termios

from conversation.completion import completions
from conversation.history import MOST_LINES, NotKept, keep, kept_lines

from .consoles import MARK, MORE, PROMPT, put
from .helping import usages_of

DELIMITERS = " \t([{,;"
# What a terminal puts round what is pasted, where it was asked to; and how long its end may be on its way.
PASTE, PASTED, SECONDS = "\x1b[200~", "\x1b[201~", 2
LOCAL_MODES, CHARACTERS = 3, 6


@contextlib.contextmanager
def interruptible(handler=signal.default_int_handler):
    """Has control-C call this meanwhile; else it raises KeyboardInterrupt."""
    before = signal.signal(signal.SIGINT, handler)
    try:
        yield
    finally:
        signal.signal(signal.SIGINT, before)


class Keys:
    """What comes from the keys of a terminal while no line is wanted: it waits as it is. The system itself would cut it to lines,
    lose what is longer than it likes, and show it at once."""

    def __init__(self, number):
        self.number, self.modes = number, termios.tcgetattr(number)
        atexit.register(self.give_back)
        self.rest()

    def give_back(self):
        """Leaves the terminal as it was; one that is gone wants nothing."""
        with contextlib.suppress(termios.error):
            termios.tcsetattr(self.number, termios.TCSANOW, self.modes)

    def rest(self, is_shown=False):
        """Has what is typed wait, shown or not. The line editor shows nothing where the terminal does not as it begins."""
        modes = [*self.modes[:CHARACTERS], [*self.modes[CHARACTERS]]]
        modes[LOCAL_MODES] &= ~(termios.ICANON | (0 if is_shown else termios.ECHO))
        modes[CHARACTERS][termios.VMIN], modes[CHARACTERS][termios.VTIME] = 1, 0
        with contextlib.suppress(termios.error):
            termios.tcsetattr(self.number, termios.TCSANOW, modes)

    @contextlib.contextmanager
    def wanted(self):
        """A line is wanted meanwhile, which the line editor reads."""
        self.rest(is_shown=True)
        try:
            yield
        finally:
            self.rest()

    def are_waiting(self, seconds=0):
        return bool(select.select([self.number], [], [], seconds)[0])

    @property
    def are_pasted(self):
        """Whether what is read comes faster than anybody types: more than another tab or the line's end is there already."""
        count = array.array("i", [0])
        fcntl.ioctl(self.number, termios.FIONREAD, count)
        return count[0] > 1

    def taken(self):
        """All that waits now; of what is being pasted also what is still on its way."""
        data = ""
        while self.are_waiting(SECONDS if data.count(PASTE) > data.count(PASTED) else 0):
            if not (piece := os.read(self.number, 1 << 16)):
                break
            data += piece.decode(errors="surrogateescape")
        return data.replace(PASTE, "").replace(PASTED, "").replace("\r\n", "\n").replace("\r", "\n")


class Terminal:
    """A person at a terminal."""

    is_terminal = True

    def __init__(self, session):
        self.session, self.keys = session, Keys(sys.stdin.fileno())
        # Lines that were pasted, what was typed behind them, and what was told.
        self.pasted, self.begun, self.found, self.hints = collections.deque(), "", [], set()
        # Where nothing is typed, waited for or shown, control-C does nothing.
        signal.signal(signal.SIGINT, lambda *_: None)
        readline.set_auto_history(False)
        readline.set_history_length(MOST_LINES)
        readline.set_completer_delims(DELIMITERS)
        readline.set_completer(self.complete)
        readline.set_startup_hook(self.put_begun)
        readline.parse_and_bind("tab: complete")
        # What is pasted comes at once, so that no tab in it completes anything.
        readline.parse_and_bind("set enable-bracketed-paste on")
        self.is_kept = self.kept(self.read_history)

    def kept(self, act):
        """Does something with the lines that are kept, and tells where that is not possible."""
        try:
            act()
        except NotKept as fault:
            self.fault(f"what is typed is not kept: {fault}")
            return False
        return True

    @staticmethod
    def read_history():
        for line in kept_lines():
            readline.add_history(line)

    def note(self, text):
        """Keeps what was typed."""
        last = readline.get_current_history_length()
        if not text.strip() or last and readline.get_history_item(last) == text:
            return
        readline.add_history(text)
        self.is_kept = self.is_kept and self.kept(lambda: keep(text))

    def taken(self, prompt):
        """The next line, of what was pasted or is typed; nothing at the end of the input."""
        if not self.pasted:
            text = self.typed(prompt)
            lines = [] if text is None else text.split("\n")
            for line in lines:
                self.note(line)
            if len(lines) < 2:
                return text
            self.pasted.extend(lines)
        self.show(prompt, self.pasted[0])
        return self.pasted.popleft()

    def typed(self, prompt):
        """What is typed behind a prompt; nothing at the end of the input."""
        try:
            with self.keys.wanted(), interruptible():
                return input(prompt)
        except EOFError:
            print()
            return None

    def put_begun(self):
        """Begins a line with what was typed of it before it was wanted."""
        begun, self.begun = self.begun, ""
        readline.insert_text(begun)

    def first(self):
        return self.taken(PROMPT)

    def more(self, what):
        """A further line of a command. What it is to be is told the first time."""
        if what not in self.hints and not self.pasted:
            self.hints.add(what)
            self.tell([what])
        return self.taken(MORE)

    def forget(self):
        """Forgets what was pasted and not taken yet, and tells how many lines that were."""
        count = len(self.pasted)
        self.pasted.clear()
        return count

    def drop(self):
        """Forgets what is half typed or pasted."""
        self.forget()
        print()

    def say(self, lines):
        with interruptible():
            put(lines)

    def tell(self, lines):
        self.say(MARK + line for line in lines)

    def show(self, prompt, line):
        put([prompt + line])

    def fault(self, text):
        self.tell([text])

    def agrees(self, question):
        """Whether a line says so that is typed once the question is seen; what was typed or pasted before stays as it is."""
        *lines, begun = (self.begun + self.keys.taken()).split("\n")
        self.begun = ""
        self.pasted.extend(lines)
        answer = self.typed(f"{MARK}{question} [y/N] ") or ""
        self.begun = begun
        if "\n" in answer:
            self.pasted.extend(answer.split("\n"))
        return answer.strip().lower() in ("y", "yes")

    @contextlib.contextmanager
    def waiting(self):
        """Has control-C end the waits of the session meanwhile, and do nothing else."""
        reading, writing = os.pipe2(os.O_NONBLOCK | os.O_CLOEXEC)
        self.session.stopper = reading
        try:
            with interruptible(lambda *_: os.write(writing, b".")):
                yield
        finally:
            self.session.stopper = None
            os.close(reading)
            os.close(writing)

    def complete(self, text, place):
        """The completion at a place, as readline asks for them."""
        if place == 0:
            with self.waiting():
                before = readline.get_line_buffer()[: readline.get_begidx()]
                self.found = completions(self.session, usages_of(self.session), before, text)
            # A tab that is pasted stands for itself.
            if len(self.found) != 1 and self.keys.are_pasted:
                self.found = [text + "\t"]
        return self.found[place] if place < len(self.found) else None
