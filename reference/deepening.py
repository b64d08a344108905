"""A stack on which the interpreter reaches the last level of a program, which is many levels of this one."""
import sys
import threading

STACK, LEVELS = 1 << 28, 100_000


class NoThread(Exception):
    """No thread can be started that would have such a stack."""


def deep(work):
    """What a piece of work answers on such a stack, or raises."""
    answers, faults = [], []

    def run():
        try:
            answers.append(work())
        except BaseException as fault:
            faults.append(fault)

    sys.setrecursionlimit(LEVELS)
    threading.stack_size(STACK)
    thread = threading.Thread(target=run)
    try:
        thread.start()
    except RuntimeError:
        raise NoThread from None
    finally:
        # No other thread needs such a stack.
        threading.stack_size(0)
    thread.join()
    if faults:
        raise faults[0]
    return answers[0]
