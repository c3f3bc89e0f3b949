"""What texts are scripts and accounts, and what accounts are histories of the single machine.

A second writing of docs/SCRIPTS.md and, in machine.py, of docs/SINGLE_MACHINE.md. It was made from the rules
and from none of the code, so that the two can be held against each other. It is short and slow. Texts are bytes.

script_fault(text)            the fault of a script: (line, reason), or None
account_answer(text, nodes)   what `check` prints of an account, without its line feed
"""

import re

from machine import Machine

LINE_LIMIT = 140_000
NODE_LIMIT = 64
ACCOUNT_LIMIT = 2**28
LAST_U16, LAST_U32, LAST_U64 = (2**bits - 1 for bits in (16, 32, 64))

# ---------------------------------------------------------------------------------------------- lines


def lines_of(text):
    """The lines with their numbers from 1: number, bytes without the line feed, whether it had one."""
    pieces = text.split(b"\n")
    last = pieces.pop()
    for number, piece in enumerate(pieces, 1):
        yield number, piece, True
    if last:
        yield len(pieces) + 1, last, False


# -------------------------------------------------------------------------------------------- scripts


class Fault(Exception):
    """The reason why a line is no line of a script."""


LABEL = re.compile(rb"[A-Za-z][A-Za-z0-9_]{0,31}")
NUMBER = re.compile(rb"[0-9]{1,20}")
HEX = re.compile(rb"([0-9A-Fa-f]{2})+")

# The words behind the first word of each statement.
STATEMENTS = {
    b"create": ["new label", "size"],
    b"delete": ["label"],
    b"map": ["label"],
    b"unmap": ["label"],
    b"flush": ["label"],
    b"read": ["label"],
    b"endread": ["label"],
    b"write": ["label"],
    b"endwrite": ["label"],
    b"put": ["label", "offset", "bytes"],
    b"add": ["label", "offset", "number"],
    b"barrier": [],
    b"receive": [],
    b"send": ["bytes"],
    b"sum": ["value"],
    b"min": ["value"],
    b"max": ["value"],
}


def number(word, most, why):
    """The number that a word is, or this fault."""
    if not NUMBER.fullmatch(word) or int(word) > most:
        raise Fault(why)
    return int(word)


def value(word):
    """A word of `sum`, `min` or `max`."""
    negative = word.startswith(b"-")
    digits = word[1:] if negative else word
    number(digits, 2**63 if negative else 2**63 - 1, "BadNumber")


class Script:
    """What the lines of a script have said so far."""

    def __init__(self):
        self.nodes = None
        self.lines = 0  # that weren't skipped
        self.blocks = set()
        self.created = set()
        self.used = []  # labels that aren't of a create, with their lines

    def take(self, line_number, line, ended):
        """Reads the next line, or raises its first fault."""
        if len(line) > LINE_LIMIT:
            raise Fault("LineTooLong")
        if ended and line.endswith(b"\r"):
            line = line[:-1]
        words = [word for word in re.split(rb"[ \t]", line) if word]
        if not words or words[0].startswith(b"#"):
            return
        self.lines += 1
        first, rest = words[0], words[1:]
        if self.lines == 1:
            if first != b"nodes":
                raise Fault("NoNodes")
            self.take_nodes(rest)
        elif first == b"cache":
            if self.lines != 2 or len(rest) != 1:
                raise Fault("BadWord")
            number(rest[0], LAST_U16, "BadNumber")
        elif first == b"node":
            self.take_block(rest)
        else:
            self.take_statement(line_number, first, rest)

    def take_nodes(self, rest):
        if len(rest) != 1:
            raise Fault("BadWord")
        self.nodes = number(rest[0], LAST_U64, "BadNumber")
        if not 1 <= self.nodes <= NODE_LIMIT:
            raise Fault("BadNodes")

    def take_block(self, rest):
        if len(rest) != 1:
            raise Fault("BadWord")
        node = number(rest[0], LAST_U32, "BadNumber")
        if node >= self.nodes:
            raise Fault("BadNode")
        if node in self.blocks:
            raise Fault("TwiceNode")
        self.blocks.add(node)

    def take_statement(self, line_number, first, rest):
        kinds = STATEMENTS.get(first)
        if kinds is None or not self.blocks or len(rest) != len(kinds):
            raise Fault("BadWord")
        for kind, word in zip(kinds, rest):
            if kind.endswith("label") and not LABEL.fullmatch(word):
                raise Fault("BadWord")
        for kind, word in zip(kinds, rest):
            self.take_word(line_number, kind, word)

    def take_word(self, line_number, kind, word):
        if kind == "new label":
            if word in self.created:
                raise Fault("TwiceLabel")
            self.created.add(word)
        elif kind == "label":
            self.used.append((line_number, word))
        elif kind == "size":
            number(word, LAST_U32, "BadSize")
        elif kind == "offset":
            number(word, LAST_U32, "BadNumber")
        elif kind == "number":
            number(word, LAST_U64, "BadNumber")
        elif kind == "value":
            value(word)
        elif not HEX.fullmatch(word):
            raise Fault("BadHex")


def script_fault(text):
    """The line and the reason of a script's fault. None where it is a script."""
    script = Script()
    for line_number, line, ended in lines_of(text):
        try:
            script.take(line_number, line, ended)
        except Fault as fault:
            return line_number, str(fault)
    if script.nodes is None:
        return 1, "NoNodes"
    for line_number, label in script.used:
        if label not in script.created:
            return line_number, "UnknownLabel"
    return None


# ------------------------------------------------------------------------------------------- accounts


class BadLine(Exception):
    """A line fits no place of an account."""


def natural(last):
    def read(word):
        if not re.fullmatch(rb"0|[1-9][0-9]*", word) or int(word) > last:
            raise BadLine
        return int(word)

    return read


def whole(bits):
    def read(word):
        if not re.fullmatch(rb"0|-?[1-9][0-9]*", word) or not -(2 ** (bits - 1)) <= int(word) < 2 ** (bits - 1):
            raise BadLine
        return int(word)

    return read


def name(word):
    home, colon, serial = word.partition(b":")
    if not colon:
        raise BadLine
    return node(home), size(serial)


def some_bytes(word):
    if not re.fullmatch(rb"([0-9a-f]{2})+", word):
        raise BadLine
    return bytes.fromhex(word.decode())


def literally(wanted):
    def read(word):
        if word != wanted:
            raise BadLine

    return read


node, size, count = natural(LAST_U16), natural(LAST_U32), natural(LAST_U64)

# The fields of each entry, by the word behind its node.
ENTRIES = {
    b"create": [name, size],
    b"map": [name, size],
    b"unmap": [name],
    b"flush": [name],
    b"startread": [name],
    b"read": [name, some_bytes],
    b"startwrite": [name],
    b"write": [name, some_bytes, some_bytes],
    b"deleting": [name],
    b"deleted": [name],
    b"barrier": [count],
    b"broadcast": [count, some_bytes],
    b"sum": [count, whole(128)],
    b"min": [count, whole(64)],
    b"max": [count, whole(64)],
}

# The fields of each part with which a node comes to a round.
PARTS = {
    b"barrier": [],
    b"receive": [],
    b"send": [some_bytes],
    b"sum": [whole(64)],
    b"min": [whole(64)],
    b"max": [whole(64)],
}

# The lines behind the entries, each with its rank: the ranks never fall, and there is one line of counts.
COUNTS = 3
TAIL = [
    (1, [literally(b"region"), name, some_bytes]),
    (2, [literally(b"stuck"), node, name, literally(b"by"), node]),
    (2, [literally(b"stuck"), node, literally(b"round"), count, literally(b"without"), node]),
    (COUNTS, [literally(b"events"), count, literally(b"messages"), count]),
]

ROUND_REASONS = {b"WrongSize", b"Mixed"}
REASONS = ROUND_REASONS | {
    b"BadSize", b"NamesSpent", b"Unknown", b"Deleted", b"NotMapped", b"SectionOpen", b"NotReading",
    b"NotWriting", b"InSection", b"OutOfRange", b"TooMany",
}  # fmt: skip


def fields(kinds, words):
    if len(kinds) != len(words):
        raise BadLine
    return [kind(word) for kind, word in zip(kinds, words)]


def one_of(table, word):
    if word not in table:
        raise BadLine
    return table[word]


def entry(words):
    """The entry of a line: node, word, and fields."""
    if len(words) < 3:
        raise BadLine
    who, word, rest = node(words[0]), words[1], words[2:]
    if word == b"come":
        return who, word, [(rest[0], *fields(one_of(PARTS, rest[0]), rest[1:]))]
    if word != b"refused":
        return who, word, fields(one_of(ENTRIES, word), rest)
    if len(rest) != 3 or rest[0] not in STATEMENTS or rest[2] not in REASONS:
        raise BadLine
    place = count if rest[2] in ROUND_REASONS else name
    return who, word, [rest[0], place(rest[1]), rest[2]]


def tail_rank(words):
    """The rank of a line behind the entries."""
    for rank, kinds in TAIL:
        try:
            fields(kinds, words)
            return rank
        except BadLine:
            pass
    raise BadLine


def read_account(text):
    """The entries, or the number of the first line that fits no place."""
    entries, rank = [], 0
    for line_number, line, _ in lines_of(text):
        words = line.split(b" ")
        try:
            if rank == 0 and re.match(rb"[0-9]", line):
                entries.append(entry(words))
                continue
            new_rank = tail_rank(words)
            if new_rank < rank or rank == COUNTS:
                raise BadLine
            rank = new_rank
        except BadLine:
            return line_number
    return entries


# -------------------------------------------------------------------------------------------- answers


def account_answer(text, nodes):
    """What `check` prints of an account of so many nodes."""
    if len(text) > ACCOUNT_LIMIT:
        return "bad account 0"
    entries = read_account(text)
    if isinstance(entries, int):
        return "bad account %d" % entries
    machine = Machine(nodes)
    for line_number, one in enumerate(entries, 1):
        if not machine.step(*one):
            return "illegal %d" % line_number
    return "legal"
