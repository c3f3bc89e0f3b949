"""Runs scripts under `threads` many times, and judges each account.

Scripts are those of examples/ and of the generator, workers 1 to 16. Of each run: the status is 0, or 3 exactly where the
account has a line of a node that is stuck; `check` of the account is `legal`; and the counts of its last line fit its
lines: each call and each answer that was collected is an event, and each message two, one that carries and one that
handles it.
usage: try_threads.py [CRL] [--runs N] [--seed N]
"""

import argparse
import os
import random
import re
import subprocess
import sys
import tempfile

HERE = os.path.dirname(os.path.abspath(__file__))
TOP = os.path.dirname(HERE)
BUILT = os.path.join(TOP, "crates", "crl", "out", "crl")
FOLDS = ("barrier", "broadcast", "sum", "min", "max")


def example_scripts():
    folder = os.path.join(TOP, "examples")
    for name in sorted(os.listdir(folder)):
        if name.endswith(".script"):
            with open(os.path.join(folder, name), "rb") as script:
                yield name, script.read()


def made_script(crl, rng):
    """A script of the generator, of up to eight nodes and some sixty rounds in all."""
    nodes = rng.randint(1, 8)
    words = ("gen", rng.getrandbits(64), nodes, rng.randint(1, 6), rng.randint(0, 64 // nodes))
    words = tuple(map(str, words))
    made = subprocess.run([crl, *words], capture_output=True, check=True)
    return " ".join(words), made.stdout


def is_second(words):
    """Whether this is the second line of a call: what a round comes to, or the end of a delete."""
    if words[1] == "deleted" or (words[1] in FOLDS):
        return True
    return words[1] == "refused" and words[-1] == "Mixed"


def counts_fit(lines):
    """Whether the counts of the last line fit the lines."""
    shown = re.fullmatch(r"events (\d+) messages (\d+)", lines[-1])
    if not shown:
        return False
    events, messages = map(int, shown.groups())
    entries = [line.split() for line in lines[:-1] if line[0].isdigit()]
    calls = sum(not is_second(words) for words in entries)
    # A node that is stuck has made a call that has no line yet, if it waits for a section or a map.
    waiting = sum(line.startswith("stuck ") for line in lines)
    return calls <= events - 2 * messages <= 2 * (calls + waiting)


def fault_of(crl, script, workers):
    """What is wrong with one run, or None."""
    run = subprocess.run([crl, "threads", str(workers)], input=script, capture_output=True, timeout=120, check=False)
    text = run.stdout.decode()
    lines = text.splitlines()
    stuck = any(line.startswith("stuck ") for line in lines)
    if run.returncode != (3 if stuck else 0):
        return "status %d" % run.returncode
    nodes = re.search(rb"^nodes (\d+)$", script, re.MULTILINE)[1].decode()
    judged = subprocess.run([crl, "check", nodes], input=run.stdout, capture_output=True, check=False).stdout
    if judged != b"legal\n":
        return "check: %s" % judged.decode().strip()
    if not lines or not counts_fit(lines):
        return "counts: %s" % lines[-1:]
    return None


def main():
    parser = argparse.ArgumentParser(description=__doc__, formatter_class=argparse.RawDescriptionHelpFormatter)
    parser.add_argument("crl", nargs="?", default=BUILT)
    parser.add_argument("--runs", type=int, default=10_000)
    parser.add_argument("--seed", type=int, default=1)
    asked = parser.parse_args()
    rng = random.Random(asked.seed)
    examples = list(example_scripts())
    failed = 0
    for number in range(asked.runs):
        name, script = examples[number // 2 % len(examples)] if number % 2 else made_script(asked.crl, rng)
        workers = number % 16 + 1
        fault = fault_of(asked.crl, script, workers)
        if fault:
            failed += 1
            print("FAILED  %s, threads %d: %s" % (name, workers, fault), flush=True)
        if (number + 1) % 1_000 == 0:
            print("%d runs, %d wrong" % (number + 1, failed), flush=True)
    return 1 if failed else 0


if __name__ == "__main__":
    sys.exit(main())
