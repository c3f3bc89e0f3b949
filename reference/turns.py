"""Shows each turn of a run: what was chosen, of how many choices, and the lines that it gave.

usage: turns.py SCRIPT ORDER..., where ORDER is `order first`, `order picks LIST` or `order seed N`. It runs the
script by protocol.py, not by the program.

A line has the number of the turn, the place of the choice and the number of choices, and the choice: a node's
next statement, or `answer` where it takes an answer for which it waited; a message that is handled; a message that
is carried. The lines of the account stand under the turn that gives them.
"""

import sys

from protocol import account
from try_runs import turn_words


def region(name):
    return "" if name is None else " %d:%d" % name


def statement(node, world):
    word, *rest = world.plan.statements[node.number][node.taken]
    shown = ["%d:%d" % part if isinstance(part, tuple) else part[:40] for part in rest]
    return " ".join([word, *shown])


def message(piece):
    what, index, count = piece
    version = " version %d" % what.version if what.version and what.kind not in ("Come", "Result") else ""
    part = ", piece %d of %d" % (index + 1, count) if count > 1 else ""
    return "%s%s%s from %d to %d%s" % (what.kind, region(what.name), version, what.sender, what.to, part)


class Watch:
    def __init__(self):
        self.turn = self.shown = 0

    def lines(self, world):
        """The lines that the last turn gave."""
        for line in world.lines[self.shown :]:
            print("             %s" % line[:100])
        self.shown = len(world.lines)

    def __call__(self, world, kind, node, place):
        self.lines(world)
        self.turn += 1
        choices = world.choices()
        chosen = next(number for number, choice in enumerate(choices) if choice == (kind, node, place))
        if kind == "node":
            what = "node %d: %s" % (node.number, "answer" if node.state == "ready" else statement(node, world))
        else:
            what = "%s %s" % (kind, message((node.inbox if kind == "handle" else node.outbox)[place]))
        print("%4d  %d of %-3d %s" % (self.turn, chosen, len(choices), what))


def main():
    if len(sys.argv) < 4 or sys.argv[2] != "order":
        sys.exit(__doc__)
    with open(sys.argv[1], "rb") as file:
        script = file.read()
    watch = Watch()
    printed = account(script, turn_words(sys.argv[3:]), watch).decode().splitlines()
    for line in printed[watch.shown :]:
        print("%s%s" % (" " * 13 if line[:1].isdigit() else "", line[:100]))


main()
