"""The line that tells how far the proofs are."""
import shutil
import time

EVERY = 60
MOST_NAMES = 6


def counted(number, word):
    """A number of things, as 1 minute or 2 minutes."""
    return f"{number} {word}{'' if number == 1 else 's'}"


def duration(seconds):
    """About how long that is, in words."""
    minutes = round(seconds / 60)
    if minutes < 1:
        return "less than a minute"
    if minutes < 100:
        return f"about {counted(minutes, 'minute')}"
    hours, minutes = divmod(5 * round(minutes / 5), 60)
    return f"about {counted(hours, 'hour')}" + (f" {counted(minutes, 'minute')}" if minutes else "")


def few(names):
    """The first of these names, with dots for the others."""
    return [*names[:MOST_NAMES], *([".."] if len(names) > MOST_NAMES else [])]


def line(proved, whole, at_work, seconds):
    """How far the proofs are: how many crates are proved, which are at work, and how long the rest takes."""
    work = f", at work: {' '.join(few(at_work))}" if at_work else ""
    return f"proved {proved} of {whole}{work}, {duration(seconds)} left"


class Display:
    """A line that is drawn again and again at a terminal; elsewhere one is written each minute."""

    def __init__(self, out, clock=time.monotonic):
        self.out, self.clock, self.is_terminal, self.next = out, clock, out.isatty(), None

    def show(self, text):
        """Shows a line in place of the one before."""
        if self.is_terminal:
            width = shutil.get_terminal_size().columns - 1
            self.out.write(f"\r{text[:width]}\033[K")
        elif self.next is None or self.clock() >= self.next:
            self.next = self.clock() + EVERY
            self.out.write(f"{text}\n")
        self.out.flush()

    def clear(self):
        """Leaves the terminal without the line."""
        if self.is_terminal:
            self.out.write("\r\033[K")
            self.out.flush()
