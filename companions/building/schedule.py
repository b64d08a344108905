"""Which crate comes next, and how long all that is left takes."""
import heapq

# What a crate takes on one processor, in seconds: to begin with, for a line of code, and for one of definitions and proofs.
BEGINNING, A_LINE, A_LINE_OF_PROOFS = 20, 0.12, 0.005
# What the program takes besides: it is compiled whole.
COMPILING = 120
# How many seconds of proofs tell as much of the pace as the figures above.
TRUSTED = 300


def expected(code, proofs, is_program):
    """What a crate with so many lines of code, and of definitions and proofs, takes in seconds."""
    return BEGINNING + A_LINE * code + A_LINE_OF_PROOFS * proofs + COMPILING * is_program


def longest_chains(crates, seconds):
    """Of each crate, how long it takes with the longest chain of crates that wait for it; the crates come lowest first."""
    behind = dict.fromkeys((crate.name for crate in crates), 0)
    for crate in reversed(crates):
        behind[crate.name] += seconds[crate.name]
        for use in crate.uses:
            if use in behind:
                behind[use] = max(behind[use], behind[crate.name])
    return behind


def is_ready(crate, left):
    """Whether a crate waits for none of those that are left."""
    return not any(use in left for use in crate.uses)


def pace(spent, wanted):
    """How many times as long crates have taken as was expected of them."""
    return (TRUSTED + spent) / (TRUSTED + wanted)


def time_left(crates, seconds, at_work, lanes):
    """How long these crates take, side by side and those with the longest chain behind them first; some are at work, and
    take as long as it says there."""
    chains = longest_chains(crates, seconds)
    ends = [(rest, name) for name, rest in at_work.items()]
    heapq.heapify(ends)
    left = {crate.name for crate in crates}
    waiting = sorted((crate for crate in crates if crate.name not in at_work), key=lambda crate: -chains[crate.name])
    now = 0
    while left:
        for crate in [crate for crate in waiting if is_ready(crate, left)][: max(0, lanes - len(ends))]:
            waiting.remove(crate)
            heapq.heappush(ends, (now + seconds[crate.name], crate.name))
        now, name = heapq.heappop(ends)
        left.remove(name)
    return now
