"""Tries the mutants of crates: each is put in place of the right body, and the prover must refuse it.

Without words those of all crates; with NAME those of these; with --since those of the crates whose files, or a contract
below them, changed since the revision REV. A crate that is not proved here is proved first. Those of different functions
are tried in one check, over what checks of the tree have kept, and crates side by side, as many as memory allows. What
came of each is kept at once, by the checksums of all that it stands on: a run that was interrupted goes on when it is
started again, and --anew tries all. Ends with 1 where one got through, could not be tried, or shows little.
"""
import argparse
import sys
import tempfile
from pathlib import Path

from building.crates import ROOT, Fault, lowest_first, read_crates
from building.machine import processors
from building.processes import Interrupted, interruptions
from building.programs import say
from building.progress import Display
from building.proving import prove_crates, rt

from .changes import NoSuchRevision, to_be_tried
from .edits import BadEdit, mutants_of
from .results import Results, place_of_results, sum_of
from .side_by_side import Crew
from .telling import Report, fault_of


def chosen(root, crates, names, revision):
    """The mutants that were asked for, by their crates, in the order of `crates.txt`."""
    strange = [name for name in names if name not in crates]
    if strange:
        raise Fault(f"there is no crate {strange[0]}")
    asked = set(names or crates)
    if revision:
        try:
            asked &= set(to_be_tried(root, revision))
        except NoSuchRevision:
            raise Fault(f"{revision} is no revision here") from None
    found = {name: mutants_of(root, name) for name in crates if name in asked}
    return {name: mutants for name, mutants in found.items() if mutants}


def positive(word):
    if not word.isdecimal() or int(word) < 1:
        raise argparse.ArgumentTypeError(f"{word} is no number above 0")
    return int(word)


def parser():
    how = {"formatter_class": argparse.RawDescriptionHelpFormatter, "allow_abbrev": False}
    made = argparse.ArgumentParser(prog=".ci/mutants", description=__doc__, **how)
    made.add_argument("--since", metavar="REV", help="only those of crates that see a change since this revision")
    made.add_argument("--list", action="store_true", help="say which crates would be tried, and try nothing")
    made.add_argument("--anew", action="store_true", help="try also what an earlier run tried")
    jobs = "how many crates at most are tried side by side; without it as many as there are processors"
    made.add_argument("--jobs", metavar="N", type=positive, default=processors(), help=jobs)
    made.add_argument("names", metavar="NAME", nargs="*", help="a crate whose mutants are tried; without it those of all")
    return made


def untried(wanted, results, report):
    """Those of the wanted mutants of which no earlier run told; what one told goes into the report."""
    left = {}
    for name, mutants in wanted.items():
        earlier = results[name].earlier(mutants)
        for told in earlier:
            report.add_earlier(name, told)
        known = [told.mutant for told in earlier]
        if len(known) < len(mutants):
            left[name] = [mutant for mutant in mutants if mutant not in known]
    return left


def prove_what_they_stand_on(root, crates, names, jobs, display):
    """Proves these crates and those below them, where that was not done yet: only then a refusal tells of a mutant."""
    needed = {crate.name: crate for name in names for crate in lowest_first(crates, name)}
    prove_crates(root, list(needed.values()), jobs, display)


def try_all(root, crates, wanted, given, display):
    """Tries the wanted mutants that no earlier run has tried, and reports on all."""
    report = Report(sum(map(len, wanted.values())))
    results = {name: Results(place_of_results() / name, sum_of(root, crates, name)) for name in wanted}
    left = wanted if given.anew else untried(wanted, results, report)

    def tell(name, told):
        results[name].keep(told)
        report.add(name, told)
        if told.verdict.fault:
            display.clear()
            print(fault_of(name, told), file=display.out, flush=True)

    with tempfile.TemporaryDirectory(prefix="evats-mutants-") as rooms:
        try:
            prove_what_they_stand_on(root, crates, left, given.jobs, display)
            report.begin()
            Crew(root, crates, Path(rooms), given.jobs, tell, rt()).try_all(left, lambda at_work: display.show(report.line(at_work)))
        finally:
            display.clear()
    return report


def tell_all(report):
    """Tells what came of the mutants, and gives the status to end with."""
    print(report.table(), *report.faults(), report.total(), sep="\n")
    return 1 if report.faults() else 0


def main(words):
    given = parser().parse_args(words)
    try:
        crates = read_crates(ROOT)
        wanted = chosen(ROOT, crates, given.names, given.since)
        print(f"{sum(map(len, wanted.values()))} mutants of {len(wanted)} crates: {' '.join(wanted)}", flush=True)
        if given.list or not wanted:
            return 0
        with interruptions():
            return tell_all(try_all(ROOT, crates, wanted, given, Display(sys.stderr)))
    except (Fault, BadEdit, OSError) as fault:
        say(f"mutants: {fault}")
        return 2
    except Interrupted as interrupted:
        print("mutants: interrupted; what was tried is kept, and the same command goes on", file=sys.stderr)
        return interrupted.status


if __name__ == "__main__":
    sys.exit(main(sys.argv[1:]))
