"""Writes down what the reference answers to each text of texts/ when it is cut or one byte of it is changed.

usage: make_cases.py [--check]

It writes the files of crates/crl_text_tests/src/changed, which hold the texts and the answers. With --check it writes
nothing, and its status is 1 where a file isn't what it would write.
"""

import itertools
import os
import sys
import textwrap

from grammar import account_answer, script_fault

HERE = os.path.dirname(os.path.abspath(__file__))
CASES = os.path.join(HERE, "..", "crates", "crl_text_tests", "src", "changed")

# The texts, each with the nodes of `check` where it is an account.
SCRIPTS = ["statements", "forms", "limits", "labels"]
ACCOUNTS = [("sections", 2), ("rounds", 2), ("refusals", 2), ("stuck", 3)]

# What a byte is changed to; a row of answers begins with its number.
CUT, FLIP = "cut", "flip"
BYTES = [ord(mark) for mark in "09g -#\n"] + [0xFF]

MARKS = {
    "NoNodes": "n",
    "BadNodes": "N",
    "BadWord": "w",
    "BadNumber": "d",
    "BadHex": "h",
    "UnknownLabel": "u",
    "TwiceLabel": "t",
    "BadSize": "s",
    "BadNode": "b",
    "TwiceNode": "T",
}


def text_of(name, kind):
    with open(os.path.join(HERE, "texts", "%s.%s" % (name, kind)), "rb") as file:
        return file.read()


def with_byte(text, place, byte):
    return text[:place] + bytes([byte]) + text[place + 1 :]


def changes(text):
    """Each change with its texts: cut before each byte and behind the last, then each byte changed."""
    yield CUT, [text[:place] for place in range(len(text) + 1)]
    for byte in BYTES:
        yield str(byte), [with_byte(text, place, byte) for place in range(len(text))]
    yield FLIP, [with_byte(text, place, byte ^ 1) for place, byte in enumerate(text)]


def script_mark(text):
    fault = script_fault(text)
    return "." if fault is None else "%s%d" % (MARKS[fault[1]], fault[0])


def account_mark(text, nodes):
    answer = account_answer(text, nodes)
    return "." if answer == "legal" else answer[0] + answer.split()[-1]


def literal(text):
    """A text as a byte string, a line of it on a line."""
    shown = ["b\"\\"]
    for line in text.splitlines(keepends=True):
        start = r"\x20" if line.startswith(b" ") else ""
        line = line[1:] if start else line
        shown.append(start + line.decode().replace("\t", r"\t").replace("\r", r"\r").replace("\n", r"\n") + "\\")
    shown[-1] = shown[-1][:-1] + '"'
    return "\n".join(shown)


def runs(marks):
    """Marks in a row, those that are alike counted."""
    counted = ("%d*%s" % (len(list(alike)), mark) for mark, alike in itertools.groupby(marks))
    return "\n".join(textwrap.wrap(" ".join(counted), 98))


def case(name, words, text, mark):
    """The text, the words of its command and its answers."""
    rows = ["%s %s" % (shown, runs(map(mark, texts))) for shown, texts in changes(text)]
    return "\n".join(
        ["    // %s" % name, "    Case {", '        words: "%s",' % words, "        text: %s," % literal(text)]
        + ['        answers: "\\', "%\\\n".join(rows) + '",', "    },"]
    )


def file_of(what, cases):
    head = "//! %s, and the answers to them when they are changed. Made by `reference/make_cases.py`.\n\n" % what
    head += "use crate::changed::Case;\n\n/// The texts.\n"
    return head + "pub const CASES: [Case; %d] = [\n%s\n];\n" % (len(cases), "\n".join(cases))


def files():
    scripts = [case(name, "", text_of(name, "script"), script_mark) for name in SCRIPTS]
    accounts = [
        case(name, "check %d" % nodes, text_of(name, "account"), lambda text, nodes=nodes: account_mark(text, nodes))
        for name, nodes in ACCOUNTS
    ]
    return {"scripts.rt": file_of("Scripts", scripts), "accounts.rt": file_of("Accounts", accounts)}


def main():
    status = 0
    for name, wanted in files().items():
        path = os.path.join(CASES, name)
        if "--check" in sys.argv[1:]:
            with open(path) as file:
                same = file.read() == wanted
            print("%s  %s" % ("ok    " if same else "FAILED", name))
            status = status if same else 1
        else:
            with open(path, "w") as file:
                file.write(wanted)
    sys.exit(status)


if __name__ == "__main__":
    main()
