"""Whether a text is what `order` may print of a script: a second writing of docs/SCRIPTS.md, which follows none of
the code. It doesn't know the order of steps. So it asks: are the entries one history of the single machine; are
each node's the lines of its statements, in order, with their answers; are the lines behind them, of regions, of
stuck nodes and of counts, those that the entries call for?

faults_of(script, status, text)   what is wrong with an answer to a script, as a list of texts
"""

import re

from grammar import entry
from machine import REGION_LIMIT, SEND_LIMIT, Machine

COLLECTIVES = {"barrier", "send", "receive", "sum", "min", "max"}
PIECE = 32_768


class Plan:
    """A script: the statements of each node, with names in the place of labels, and each region's size."""

    def __init__(self, text):
        lines = [line.split() for line in text.decode("latin-1").split("\n")]
        lines = [line for line in lines if line and not line[0].startswith("#")]
        self.nodes, self.cache = int(lines[0][1]), 16
        self.statements = [[] for _ in range(self.nodes)]
        self.sizes = {}
        names, block, used = {}, 0, [0] * self.nodes
        for line in lines[1:]:
            if line[0] == "node":
                block = int(line[1])
            elif line[0] == "cache":
                self.cache = int(line[1])
            else:
                self.statements[block].append(line)
            if line[0] == "create":
                used[block] += 1
                names[line[1]] = (block, used[block])
                self.sizes[block, used[block]] = int(line[2])
        for statements in self.statements:
            for line in statements:
                if line[0] not in COLLECTIVES:
                    line[1] = names[line[1]]

    def message_bound(self):
        """The most messages that a run of this script sends, by docs/PROTOCOL.md."""
        bound = 0
        for word, *rest in (line for statements in self.statements for line in statements):
            if word in ("read", "write"):
                size = self.sizes[rest[0]]
                bound += 3 + 3 * (-(-size // PIECE) if 1 <= size <= REGION_LIMIT else 1)
            elif word == "delete":
                bound += 2 * self.nodes
            elif word == "map" or word in COLLECTIVES:
                bound += 2
        return bound


class Mismatch(Exception):
    """An entry isn't what its node's next statement may lead to."""


class Waits(Exception):
    """The node's entries end inside a statement."""


class Walk:
    """One node's statements, held against its entries."""

    def __init__(self, node, plan, entries):
        self.node, self.plan, self.entries = node, plan, entries
        self.next = 0
        self.used = self.rounds = 0
        self.maps, self.reads, self.edits = {}, {}, {}
        self.events = 0  # calls that are events
        self.answers = 0  # those for whose answer the node may have waited
        self.waiting = None  # the statement in which the entries end
        for statement in plan.statements[node]:
            try:
                getattr(self, "take_" + statement[0], self.take_collective)(*statement)
            except Waits:
                self.events += 1
                self.waiting = statement
                break
            self.answers += statement[0] in ("map", "delete", "read", "write") or statement[0] in COLLECTIVES
            self.events += 1
        if self.next != len(entries):
            raise Mismatch("node %d has more lines than its statements give: %r" % (node, entries[self.next]))

    def take(self, *wanted):
        """The next entry is one of those wanted, each given by its word and first fields: gives it."""
        if self.next == len(self.entries):
            raise Waits
        word, fields = self.entries[self.next]
        shown = [word.decode(), *fields]
        if word == b"refused":
            shown = ["refused", fields[0].decode(), fields[1], fields[2].decode()]
        for want in wanted:
            if shown[: len(want)] == want:
                self.next += 1
                return shown
        raise Mismatch("node %d: %r in the place of one of %r" % (self.node, shown, wanted))

    def refused(self, word, place, why):
        return ["refused", word, place, why]

    def must_refuse(self, word, place, why):
        """A refusal by the node's own books: it can't be waited for."""
        try:
            self.take(self.refused(word, place, why))
        except Waits:
            raise Mismatch("node %d: no line of %s %r, refused %s" % (self.node, word, place, why)) from None

    def must(self, *wanted):
        """An answer that can't be waited for."""
        try:
            return self.take(*wanted)
        except Waits:
            raise Mismatch("node %d: no line of %r" % (self.node, wanted)) from None

    def section_fault(self, word, name):
        """Why a call about sections is refused, or None."""
        reads, writes = self.reads.get(name, 0), name in self.edits
        if not self.maps.get(name):
            return "NotMapped"
        if word == "write" and (reads or writes) or word == "read" and writes:
            return "SectionOpen"
        if word == "endread" and not reads:
            return "NotReading"
        if word in ("endwrite", "put", "add") and not writes:
            return "NotWriting"
        if word in ("unmap", "flush") and (reads or writes):
            return "InSection"
        return None

    def is_refused(self, word, name):
        why = self.section_fault(word, name)
        if why:
            self.must_refuse(word, name, why)
        return why is not None

    def take_create(self, word, name, size):
        self.used += 1
        if 1 <= int(size) <= REGION_LIMIT:
            self.must([word, name, int(size)])
        else:
            self.must_refuse(word, name, "BadSize")

    def take_map(self, word, name):
        entry_ = self.take(
            [word, name, self.plan.sizes[name]], self.refused(word, name, "Unknown"), self.refused(word, name, "Deleted")
        )
        if entry_[0] == word:
            self.maps[name] = self.maps.get(name, 0) + 1

    def take_unmap(self, word, name):
        if not self.is_refused(word, name):
            self.must([word, name])
            self.maps[name] -= 1

    def take_flush(self, word, name):
        if not self.is_refused(word, name):
            self.must([word, name])

    def take_read(self, word, name):
        if not self.is_refused(word, name):
            self.take(["startread", name])
            self.reads[name] = self.reads.get(name, 0) + 1

    def take_endread(self, word, name):
        if not self.is_refused(word, name):
            self.must(["read", name])
            self.reads[name] -= 1

    def take_write(self, word, name):
        if not self.is_refused(word, name):
            self.take(["startwrite", name])
            self.edits[name] = []

    def take_endwrite(self, word, name):
        if self.is_refused(word, name):
            return
        _, _, before, after = self.must(["write", name])
        made = bytearray(before)
        for edit in self.edits.pop(name):
            edit(made)
        if after != bytes(made):
            raise Mismatch("node %d: a write of %r leaves %r" % (self.node, name, after[:40]))

    def take_put(self, word, name, offset, digits):
        data, offset = bytes.fromhex(digits), int(offset)

        def edit(made):
            made[offset : offset + len(data)] = data

        self.take_edit(word, name, offset + len(data), edit)

    def take_add(self, word, name, offset, number):
        offset = int(offset)

        def edit(made):
            value = int.from_bytes(made[offset : offset + 8], "big") + int(number)
            made[offset : offset + 8] = (value % 2**64).to_bytes(8, "big")

        self.take_edit(word, name, offset + 8, edit)

    def take_edit(self, word, name, end, edit):
        if self.is_refused(word, name):
            return
        if end > self.plan.sizes[name]:
            self.must_refuse(word, name, "OutOfRange")
            return
        self.edits[name].append(edit)
        self.events -= 1  # a put or an add that is done is no event

    def take_delete(self, word, name):
        entry_ = self.take(
            ["deleting", name], self.refused(word, name, "Unknown"), self.refused(word, name, "Deleted")
        )
        if entry_[0] == "deleting":
            self.take(["deleted", name])

    def take_collective(self, word, value=None):
        if word == "send" and not 1 <= len(value) // 2 <= SEND_LIMIT:
            self.must_refuse(word, self.rounds + 1, "WrongSize")
            return
        self.rounds += 1
        part = (word.encode(),) if value is None else (
            word.encode(), bytes.fromhex(value) if word == "send" else int(value))
        if self.must(["come"])[1] != part:
            raise Mismatch("node %d comes with another part than %r" % (self.node, part))
        told = "broadcast" if word in ("send", "receive") else word
        self.take([told, self.rounds], self.refused(word, self.rounds, "Mixed"))


def region_lines(machine):
    for name in sorted(machine.regions):
        if machine.is_there(name):
            yield "region %d:%d %s" % (*name, machine.regions[name].bytes.hex())


def stuck_lines(machine, walks):
    """Who can't go on, and what blocks it, by the entries alone. None where nothing blocks a waiting node."""
    for node, walk in enumerate(walks):
        if walk.waiting is None:
            continue
        word, *rest = walk.waiting
        others = [other for other in range(len(walks)) if other != node]
        if word in ("read", "write"):
            place = "%d:%d by" % rest[0]
            blocking = [other for other in others if machine.desks[other].section(rest[0])]
        elif word in COLLECTIVES:
            place = "round %d without" % walk.rounds
            blocking = [other for other in others if len(machine.desks[other].came) < walk.rounds]
        else:
            place, blocking = "%s %r by" % (word, rest), []
        yield "stuck %d %s %s" % (node, place, blocking[0] if blocking else "nobody")


def faults_of(script, status, text):
    """What is wrong with this answer to the script."""
    if status not in (0, 3):
        return ["status %d: %r" % (status, text[:200])]
    plan = Plan(script)
    lines = text.decode().split("\n")
    if lines.pop() != "":
        return ["the last line isn't ended"]
    count = sum(1 for line in lines if line[:1].isdigit())
    machine, entries = Machine(plan.nodes), [[] for _ in range(plan.nodes)]
    for number, line in enumerate(lines[:count], 1):
        who, word, what = entry(line.encode().split(b" "))
        if not machine.step(who, word, what):
            return ["line %d is no legal step: %s" % (number, line[:200])]
        entries[who].append((word, what))
    try:
        walks = [Walk(node, plan, entries[node]) for node in range(plan.nodes)]
    except Mismatch as mismatch:
        return [str(mismatch)]
    faults = []
    unfinished = any(walk.waiting for walk in walks)
    if unfinished != (status == 3):
        faults.append("status %d, and a node is %sfinished" % (status, "un" if unfinished else ""))
    behind = list(stuck_lines(machine, walks)) if unfinished else list(region_lines(machine))
    if lines[count:-1] != behind:
        faults.append("behind the entries stands %r and should %r" % (lines[count:-1], behind))
    return faults + count_faults(plan, walks, lines[-1])


def count_faults(plan, walks, line):
    """Events are the calls, the answers that were waited for, and two for each message."""
    shown = re.fullmatch(r"events (0|[1-9]\d*) messages (0|[1-9]\d*)", line)
    if not shown:
        return ["the last line is %r" % line]
    events, messages = int(shown[1]), int(shown[2])
    collects = events - sum(walk.events for walk in walks) - 2 * messages
    most = sum(walk.answers for walk in walks) if plan.nodes > 1 else 0
    if not 0 <= collects <= most or messages > plan.message_bound():
        return ["%s: %d answers would have been waited for, of %d; %d messages at most" % (
            line, collects, most, plan.message_bound())]
    return []
