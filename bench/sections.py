"""Measures sections by the calls of `crl_calls`, with 1, 2 and 4 threads, each with a node of its own; and beside
them the same by one-sided communication of MPI, where a compiled one_sided.c is given and there is Open MPI's mpirun.

usage: sections.py [PROGRAM] [--one-sided FILE] [--runs N] [--sections N] [--only WORK]
PROGRAM is crl_calls_bench, as `rt run` leaves it in crates/crl_calls_bench/out. Works: `own`, `own64k`, `counter` and
`reads`, by its README.md. The same number of sections is shared among 1, 2 or 4 threads or ranks.

Seconds are those of the whole run by the clock, the best of so many runs: the start of the process, of its threads and
nodes, or of mpirun and its ranks; the regions made and mapped, the sections, two barriers, the numbers read at the end;
and what is let go or closed. Nothing is subtracted. The last column has the seconds of a run with no sections, the best
of as many. MiB are the most that one process took, in any of the runs. Each run's line has to be the one that is wanted.
"""

import argparse
import functools
import os
import shutil
import sys
import tempfile

from run import MEBIBYTE, run_once

TOP = os.path.dirname(os.path.dirname(os.path.abspath(__file__)))
BUILT = os.path.join(TOP, "crates", "crl_calls_bench", "out", "crl_calls_bench")
THREADS = (1, 2, 4)
# A run of the program by one thread takes about half a second.
SECTIONS = {"own": 400_000, "own64k": 5_000, "counter": 400_000, "reads": 400_000}


def by_calls(program, work, threads, sections):
    """The command of a run by threads."""
    return [program, work, str(threads), str(sections)]


def by_ranks(program, work, ranks, sections):
    """The command of a run by ranks of MPI."""
    return ["mpirun", "--allow-run-as-root", "--oversubscribe", "-n", str(ranks), program, work, str(sections)]


def best_of(command, wanted, seen, runs):
    """The best of so many runs, each of which prints this line, with the most memory of all."""
    all_runs = []
    for _ in range(runs):
        run = run_once(command[0], command[1:], os.devnull, seen)
        with open(seen) as file:
            line = file.read()
        if run.status != 0 or line != wanted:
            sys.exit("%s: status %d, %r where %r is wanted" % (" ".join(command), run.status, line, wanted))
        all_runs.append(run)
    return min(all_runs)._replace(memory=max(run.memory for run in all_runs))


def measure(name, command, work, sections, seen, runs):
    """Prints a line for each number of threads, and how 4 compare with 1."""
    taken = {}
    for threads in THREADS:
        done = sections // threads * threads
        run = best_of(command(threads, sections), "%s %d\n" % (work, done), seen, runs)
        idle = best_of(command(threads, 0), "%s 0\n" % work, seen, runs)
        taken[threads] = run.clock
        print("%-8s %-6s %2d: %8d sections, %6.2f s, %9.0f a second, %5.0f MiB; with no sections %.2f s" % (
            work, name, threads, done, run.clock, done / run.clock, run.memory / MEBIBYTE, idle.clock), flush=True)
    print("%-8s %-6s 4 to 1: %.2f times as long" % (work, name, taken[4] / taken[1]), flush=True)


def main():
    parser = argparse.ArgumentParser(description=__doc__, formatter_class=argparse.RawDescriptionHelpFormatter)
    parser.add_argument("program", nargs="?", default=BUILT)
    parser.add_argument("--one-sided", help="one_sided.c, compiled by mpicc")
    parser.add_argument("--runs", type=int, default=5)
    parser.add_argument("--sections", type=int, help="in each run, in place of those of the work")
    parser.add_argument("--only", choices=SECTIONS, help="this work alone")
    asked = parser.parse_args()
    programs = [("calls", by_calls, asked.program)]
    if asked.one_sided and shutil.which("mpirun"):
        programs.append(("mpi", by_ranks, asked.one_sided))
    for _, _, program in programs:
        if not os.access(program, os.X_OK):
            sys.exit("no program at %s: README.md says how to build it" % program)
    with tempfile.TemporaryDirectory() as folder:
        seen = os.path.join(folder, "seen")
        for work in [asked.only] if asked.only else SECTIONS:
            sections = SECTIONS[work] if asked.sections is None else asked.sections
            for name, make, program in programs:
                command = functools.partial(make, os.path.abspath(program), work)
                measure(name, command, work, sections, seen, asked.runs)


if __name__ == "__main__":
    main()
