"""Runs the commands of docs/TUTORIAL.md and compares what they print with what stands there.

usage: check_tutorial.py [CRL], where CRL is the program, as `rt run` leaves it in crates/crl/out. In a block that
begins with ```console, a line that begins with `$ ` is a command of the shell, and the lines behind it are what it
prints. Each block has a shell of its own. The status is 1 where something else is printed.
"""

import os
import re
import subprocess
import sys
import tempfile

TOP = os.path.join(os.path.dirname(os.path.abspath(__file__)), "..")


def blocks(text):
    """Of each block its commands, each with what it is to print."""
    for block in re.findall(r"^```console\n(.*?)^```$", text, re.M | re.S):
        parts = re.split(r"^\$ (.*)\n", block, flags=re.M)
        yield list(zip(parts[1::2], parts[2::2]))


def printed(commands, crl, folder):
    """What each of the commands prints, all in one shell."""
    mark = "## the next command ##\n"
    # The status of a command is kept for the next one, which may print it.
    lines = ["(exit $kept); %s\nkept=$?\necho '%s'" % (command, mark.strip()) for command in commands]
    path = "%s:%s" % (folder, os.environ["PATH"])
    os.symlink(crl, os.path.join(folder, "crl"))
    done = subprocess.run(
        ["sh", "-c", "kept=0\n" + "\n".join(lines)], cwd=TOP, stdout=subprocess.PIPE, check=False,
        env={**os.environ, "PATH": path, "LC_ALL": "C"})
    os.remove(os.path.join(folder, "crl"))
    return done.stdout.decode().split(mark)[:-1]


def main():
    crl = os.path.abspath(sys.argv[1] if len(sys.argv) > 1 else os.path.join(TOP, "crates", "crl", "out", "crl"))
    if not os.access(crl, os.X_OK):
        sys.exit("no program at %s: README.md says how to build it" % crl)
    with open(os.path.join(TOP, "docs", "TUTORIAL.md"), encoding="utf-8") as file:
        all_blocks = list(blocks(file.read()))
    failed = count = 0
    with tempfile.TemporaryDirectory() as folder:
        for block in all_blocks:
            seen = printed([command for command, _ in block], crl, folder)
            seen += ["nothing more\n"] * (len(block) - len(seen))
            for (command, wanted), shown in zip(block, seen):
                count += 1
                if shown != wanted:
                    failed += 1
                    print("FAILED  %s\n-- prints --\n%s-- and not --\n%s" % (command, shown, wanted))
    print("%s  %d commands, %d wrong" % ("FAILED" if failed else "ok    ", count, failed))
    sys.exit(1 if failed else 0)


main()
