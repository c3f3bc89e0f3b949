"""Runs scripts of many nodes under many orders, and holds each answer against the reference.

usage: try_runs.py [--from FIRST] [--count COUNT] [CRL], where CRL is the program, as `rt run` leaves it in
crates/crl/out. For each seed from FIRST (0) on, COUNT (100) of them, it tries

- the script of `gen` with that seed, which has to be the one that words.py makes: under `first`, `seed` and some
  picks, each with status 0; and the line of `summary`;
- a script at random with sections inside others, deletes, refused calls, regions of several pieces and rounds that
  don't fit, under the same orders: with status 0 or 3.

Each account has to be right by runs.py, which doesn't know the protocol, and to be, byte for byte, the one of
protocol.py, which does; and `check` has to say `legal` of it. The status is 1 where an answer is another.
"""

import collections
import itertools
import os
import random
import subprocess
import sys

from protocol import account as account_of
from runs import faults_of
from words import generated, words as words_of

HERE = os.path.dirname(os.path.abspath(__file__))


def run(crl, words, text):
    """The status and the bytes that the program gives."""
    done = subprocess.run([crl, *words], input=text, stdout=subprocess.PIPE, check=False)
    return done.returncode, done.stdout


def turn_words(words):
    """The word of each turn, by the words of an order."""
    if words[0] == "seed":
        return words_of(int(words[1]))
    picks = [item.split("*") for item in words[1].split(",")] if words[0] == "picks" else []
    values = (int(value) for value, *times in picks for _ in range(int(times[0]) if times else 1))
    return itertools.chain(values, itertools.repeat(0))


class Writer:
    """Writes a script at random. It keeps each node's sections and maps as they stand if nothing is refused, so
    that most calls fit; a call in `wild` is any call at all."""

    def __init__(self, seed):
        self.dice = random.Random(seed)
        self.nodes = self.dice.randint(1, 6)
        self.wild = self.dice.choice([0.0, 0.05, 0.3])  # how many calls are any at all
        self.nests = self.dice.choice([0.0, 0.0, 0.4])  # how often a section opens inside another one
        self.rounds = self.dice.choice([0, 0, 1, 3])  # that all nodes come to, each with a part of one kind
        self.deletes = self.dice.choice([0.0, 0.03])
        sizes = [1, 1, 2, 8, 9, 16, 0, 40_000] if self.dice.random() < 0.15 else [1, 2, 8, 9]
        self.creates = [[] for _ in range(self.nodes)]
        self.sizes = {}
        for region in range(self.dice.randint(1, 4)):
            self.creates[self.dice.randrange(self.nodes)].append("r%d" % region)
            self.sizes["r%d" % region] = self.dice.choice(sizes)

    def text(self):
        cache = ["cache %d" % self.dice.choice([0, 1, 2])] if self.dice.random() < 0.6 else []
        kinds = [self.dice.choice(["barrier", "barrier", "sum", "min", "max", "send", "mixed"]) for _ in range(self.rounds)]
        senders = [self.dice.randrange(self.nodes) for _ in kinds]
        lines = ["nodes %d" % self.nodes, *cache]
        for node in range(self.nodes):
            lines += ["node %d" % node, *self.block(node, kinds, senders)]
        return "".join(line + "\n" for line in lines).encode()

    def block(self, node, kinds, senders):
        self.maps, self.open = collections.Counter(), []
        yield from ("create %s %d" % (label, self.sizes[label]) for label in self.creates[node])
        for kind, sender in zip(kinds, senders):
            yield from self.calls()
            yield from self.close_all()
            yield self.part(kind if kind != "mixed" else self.dice.choice(["barrier", "sum"]), node == sender)
        yield from self.calls()
        if self.dice.random() < 0.8:
            yield from self.close_all()

    def part(self, kind, sends):
        if kind == "send":
            return "send %02x" % self.dice.randrange(256) if sends else "receive"
        return kind if kind == "barrier" else "%s %d" % (kind, self.dice.randint(-(2**63), 2**63 - 1))

    def calls(self):
        for _ in range(self.dice.randrange(12)):
            if self.dice.random() < self.wild:
                yield self.any_call()
            else:
                yield from self.fitting_call()

    def any_call(self):
        """A call of any kind, of any region, which is refused as often as not."""
        label = self.dice.choice(sorted(self.sizes))
        word = self.dice.choice(
            ["map", "unmap", "flush", "read", "endread", "write", "endwrite", "put", "add", "delete", "barrier", "sum"])
        if word == "put":
            return "put %s %d %s" % (label, self.dice.randrange(9), self.dice.randbytes(self.dice.randint(1, 3)).hex())
        if word == "add":
            return "add %s %d %d" % (label, self.dice.randrange(3), self.dice.randrange(2**64))
        if word in ("barrier", "sum"):
            return self.part(word, False) if self.dice.random() < 0.15 else "flush %s" % label
        return "%s %s" % (word, label)

    def fitting_call(self):
        if self.open and self.dice.random() >= self.nests:
            yield from self.inside()
            return
        label = self.dice.choice(sorted(self.sizes))
        if self.dice.random() < self.deletes:
            yield "delete %s" % label
        elif not self.maps[label]:
            self.maps[label] += 1
            yield "map %s" % label
        elif any(other == label and writes for other, writes in self.open):
            yield from self.inside()
        elif any(other == label for other, _ in self.open):
            self.open.append((label, False))
            yield "read %s" % label
        else:
            yield from self.outside(label)

    def outside(self, label):
        word = self.dice.choice(["read", "read", "write", "write", "write", "flush", "unmap", "map"])
        if word in ("read", "write"):
            self.open.append((label, word == "write"))
        self.maps[label] += {"unmap": -1, "map": 1}.get(word, 0)
        yield "%s %s" % (word, label)

    def inside(self):
        label, writes = self.open[-1]
        if writes and self.dice.random() < 0.5:
            size = self.sizes[label]
            if size >= 8 and self.dice.random() < 0.5:
                yield "add %s %d %d" % (label, self.dice.randint(0, size - 8), self.dice.randrange(2**64))
            elif size:
                yield "put %s %d %02x" % (label, self.dice.randrange(size), self.dice.randrange(256))
        yield self.close(label, writes)

    def close(self, label, writes):
        self.open.remove((label, writes))
        return "%s %s" % ("endwrite" if writes else "endread", label)

    def close_all(self):
        while self.open:
            yield self.close(*self.open[-1])


class Trial:
    def __init__(self, crl):
        self.crl = crl
        self.wrong = 0
        self.seen = collections.Counter()

    def fail(self, what, text, faults):
        self.wrong += 1
        name = "failed_%d.script" % self.wrong
        with open(name, "wb") as file:
            file.write(text)
        print("FAILED  %s: %s; its script is in %s" % (what, "; ".join(faults), name), flush=True)

    def order(self, name, words, text, wanted):
        """One run, which has to be right and to end with one of the statuses that are wanted."""
        status, account = run(self.crl, ["order", *words], text)
        faults = faults_of(text, status, account)
        if account != account_of(text, turn_words(words)):
            faults.append("another account than protocol.py gives")
        if status not in wanted:
            faults.append("status %d" % status)
        nodes = text.split()[1].decode()
        judged = run(self.crl, ["check", nodes], account)
        if judged != (0, b"legal\n"):
            faults.append("check %s: %r" % (nodes, judged))
        self.seen["%s, status %d" % (name, status)] += 1
        self.count_lines(account)
        if faults:
            self.fail("%s under %s" % (name, " ".join(words)), text, faults)
        return account

    def count_lines(self, account):
        for line in account.splitlines():
            words = line.split()
            if words[0] == b"stuck":
                self.seen["stuck in a %s" % ("round" if words[2] == b"round" else "section")] += 1
            elif words[1] == b"refused":
                self.seen["refused %s %s" % (words[2].decode(), words[4].decode())] += 1

    def orders(self, seed):
        dice = random.Random(seed)
        few, many = (",".join("%d*%d" % (dice.randrange(most), dice.randint(1, 9)) for _ in range(99)) for most in (3, 40))
        return [["first"], ["seed", str(seed)], ["picks", few], ["picks", many]]

    def generated(self, seed):
        nodes, regions, rounds = 1 + seed % 9, 1 + seed * 7 % 20, 5 + seed * 3 % 23
        shape = [str(number) for number in (seed, nodes, regions, rounds)]
        status, text = run(self.crl, ["gen", *shape], b"")
        if status != 0 or text != generated(seed, nodes, regions, rounds):
            self.fail("gen %s" % " ".join(shape), text, ["another script than words.py makes"])
            return
        accounts = [self.order("generated", words, text, (0,)) for words in self.orders(seed)]
        lines = accounts[1].splitlines()
        sections = sum(line.split()[1] in (b"read", b"write") for line in lines if line[:1].isdigit())
        wanted = "nodes %d regions %d sections %d %s\n" % (nodes, regions, sections, lines[-1].decode())
        summary = run(self.crl, ["summary", *shape], b"")
        if summary != (0, wanted.encode()):
            self.fail("summary %s" % " ".join(shape), text, ["%r, and wanted %r" % (summary, wanted)])

    def at_random(self, seed):
        text = Writer(seed).text()
        for words in self.orders(seed):
            self.order("at random", words, text, (0, 3))


def main():
    options, words = {"--from": "0", "--count": "100"}, sys.argv[1:]
    while words and words[0] in options:
        options[words[0]], words = words[1], words[2:]
    crl = os.path.abspath(words[0] if words else os.path.join(HERE, "..", "crates", "crl", "out", "crl"))
    if not os.access(crl, os.X_OK):
        sys.exit("no program at %s: build it with 'rt run -- order first </dev/null' in crates/crl" % crl)
    trial, first = Trial(crl), int(options["--from"])
    for seed in range(first, first + int(options["--count"])):
        trial.generated(seed)
        trial.at_random(seed)
    for what in sorted(trial.seen):
        print("%6d  %s" % (trial.seen[what], what))
    print("%s  %d wrong" % ("FAILED" if trial.wrong else "ok    ", trial.wrong))
    sys.exit(1 if trial.wrong else 0)


if __name__ == "__main__":
    main()
