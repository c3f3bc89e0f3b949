"""Holds the program against the reference, at each text of texts/ and each change of it that make_cases.py makes.

usage: compare.py [--more] [CRL], where CRL is the program, as `rt run` leaves it in crates/crl/out. With --more
it tries further changes, of bytes and of lines.

A script that has no fault is run, and has the account that protocol.py gives. The status is 1 where an answer is
another.
"""

import functools
import itertools
import os
import subprocess
import sys

from grammar import account_answer, script_fault
from make_cases import ACCOUNTS, HERE, SCRIPTS, changes, text_of
from protocol import account as account_of
from runs import faults_of

STATUSES = {"legal": 0, "illegal": 7, "bad": 8}


def run(crl, words, text):
    """The status and the text that the program gives."""
    done = subprocess.run([crl, *words], input=text, stdout=subprocess.PIPE, check=False)
    return done.returncode, done.stdout.decode()


def script_is_right(crl, text):
    fault = script_fault(text)
    status, printed = run(crl, ["order", "first"], text)
    if fault is None:
        right = printed.encode() == account_of(text, itertools.repeat(0))
        return right and not faults_of(text, status, printed.encode())
    return (status, printed) == (2, "bad script %d %s\n" % fault)


def account_is_right(crl, nodes, text):
    answer = account_answer(text, nodes)
    return run(crl, ["check", str(nodes)], text) == (STATUSES[answer.split()[0]], answer + "\n")


def rearranged(parts):
    """The parts with one left out, one doubled, and one exchanged with the next, joined."""
    for place, part in enumerate(parts):
        before, after = parts[:place], parts[place + 1 :]
        yield b"".join(before + after)
        yield b"".join(before + [part, part] + after)
        yield b"".join(before + after[:1] + [part] + after[1:])


def more_changes(text):
    yield "bytes rearranged", rearranged([bytes([byte]) for byte in text])
    yield "lines rearranged", rearranged(text.splitlines(keepends=True))


def compare(name, all_changes, is_right):
    """How many of the changed texts have another answer."""
    count = wrong = 0
    for shown, texts in all_changes:
        for place, changed in enumerate(texts):
            count += 1
            if not is_right(changed):
                wrong += 1
                print("FAILED  %s, %s number %d: %r" % (name, shown, place, changed))
    print("%s  %s: %d texts" % ("FAILED" if wrong else "ok    ", name, count))
    return wrong


def main():
    more = "--more" in sys.argv[1:]
    words = [word for word in sys.argv[1:] if word != "--more"]
    default = os.path.join(HERE, "..", "crates", "crl", "out", "crl")
    crl = os.path.abspath(words[0] if words else default)
    if not os.access(crl, os.X_OK):
        sys.exit("no program at %s: build it with 'rt run -- check 1 </dev/null' in crates/crl" % crl)

    def all_changes(text):
        return itertools.chain(changes(text), more_changes(text) if more else ())

    wrong = 0
    for name in SCRIPTS:
        wrong += compare(name, all_changes(text_of(name, "script")), lambda text: script_is_right(crl, text))
    for name, nodes in ACCOUNTS:
        is_right = functools.partial(account_is_right, crl, nodes)
        wrong += compare(name, all_changes(text_of(name, "account")), is_right)
    sys.exit(1 if wrong else 0)


main()
