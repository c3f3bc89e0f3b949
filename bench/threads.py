"""Measures `threads` with 1, 2 and 4 workers beside `order first` on the same script.

Inputs: eight nodes with write sections on a region of their own; a counter that eight nodes raise; and one node that writes
a region which seven others read. Each account is judged by `check`.
usage: threads.py [CRL] [--runs N] [--sections N]
"""

import argparse
import os
import subprocess
import sys
import tempfile

from run import MEBIBYTE, run_once

TOP = os.path.dirname(os.path.dirname(os.path.abspath(__file__)))
BUILT = os.path.join(TOP, "crates", "crl", "out", "crl")
NODES = 8
WORKERS = (1, 2, 4)


def own(sections):
    """Each node writes a region of its own so often, which is at home there."""
    yield "nodes %d" % NODES
    for node in range(NODES):
        yield from ("node %d" % node, "create r%d 8" % node, "map r%d" % node)
        yield from ("write r%d\nadd r%d 0 1\nendwrite r%d" % (node, node, node) for _ in range(sections // NODES))


def own_copies(sections):
    """The same where another node is the region's home: the copy is fetched once, and stays."""
    yield "nodes %d" % NODES
    for node in range(NODES):
        mine = (node + 1) % NODES
        yield from ("node %d" % node, "create r%d 8" % node, "barrier", "map r%d" % mine)
        yield from ("write r%d\nadd r%d 0 1\nendwrite r%d" % (mine, mine, mine) for _ in range(sections // NODES))


def counter(sections):
    """Eight nodes raise one counter."""
    yield "nodes %d" % NODES
    for node in range(NODES):
        yield "node %d" % node
        if node == 0:
            yield "create c 8"
        yield from ("barrier", "map c")
        yield from ("write c\nadd c 0 1\nendwrite c" for _ in range(sections // NODES))


def readers(sections):
    """Node 0 writes a region, once for each eight times that each of seven other nodes reads it."""
    yield "nodes %d" % NODES
    for node in range(NODES):
        yield "node %d" % node
        if node == 0:
            yield "create c 64"
        yield from ("barrier", "map c")
        if node == 0:
            yield from ("write c\nadd c 0 1\nendwrite c" for _ in range(sections // NODES // 8))
        else:
            yield from ("read c\nendread c" for _ in range(sections // NODES))


def best_of(crl, words, script, seen, runs):
    """The best run of so many, each of whose accounts is legal."""
    best = None
    for _ in range(runs):
        run = run_once(crl, words, script, seen)
        if run.status != 0:
            sys.exit("%s: status %d" % (" ".join(words), run.status))
        with open(seen, "rb") as account:
            judged = subprocess.run([crl, "check", str(NODES)], stdin=account, capture_output=True, check=False).stdout
        if judged != b"legal\n":
            sys.exit("%s: %s" % (" ".join(words), judged.decode()))
        if best is None or run.clock < best.clock:
            best = run
    return best


def main():
    parser = argparse.ArgumentParser(description=__doc__, formatter_class=argparse.RawDescriptionHelpFormatter)
    parser.add_argument("crl", nargs="?", default=BUILT)
    parser.add_argument("--runs", type=int, default=5)
    parser.add_argument("--sections", type=int, default=200_000)
    asked = parser.parse_args()
    failed = False
    with tempfile.TemporaryDirectory() as folder:
        script, seen = os.path.join(folder, "script"), os.path.join(folder, "seen")
        for make in (own, own_copies, counter, readers):
            with open(script, "w") as file:
                file.writelines(line + "\n" for line in make(asked.sections))
            times = {}
            for words in [("order", "first")] + [("threads", str(workers)) for workers in WORKERS]:
                run = best_of(asked.crl, words, script, seen, asked.runs)
                times[words[1]] = run.clock
                print("%-10s %-9s %2s: %.2f s, %.2f s of processor, %.0f MiB" % (
                    make.__name__, *words, run.clock, run.processor, run.memory / MEBIBYTE), flush=True)
            most = 0.5 if make is own else 1.5
            ratio = times["4"] / times["1"]
            print("  %s  4 workers: %.2f times as long as one, at most %.1f" % (
                "ok    " if ratio <= most else "FAILED", ratio, most), flush=True)
            failed = failed or ratio > most
    return 1 if failed else 0


if __name__ == "__main__":
    sys.exit(main())
