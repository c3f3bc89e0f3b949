"""Runs the program on long scripts and accounts, and measures its time and its memory.

usage: run.py [--only WORD] [--runs RUNS] [CRL], where CRL is the program, as `rt run` leaves it in crates/crl/out.
Each script and the account that is wanted of it are made here. With --only it takes the inputs alone whose names
have this word in them. The status is 1 where an account is wrong or a bound is broken.
"""

import filecmp
import os
import re
import subprocess
import sys
import tempfile
import time
from typing import NamedTuple

RUNS = 7  # each script is run so often, and the best time counts
MEBIBYTE = 1 << 20
PIECE = 32_768  # of a region's bytes in a message
MOST_SHORT_LINES = 22_369_000  # in an account of 2^28 bytes

# What `summary` prints of these words, behind the nodes and the regions. Of other words the first run says it.
SUMMARIES = {
    (1, 8, 100, 10_000): "sections 40106 events 436721 messages 130211",
    (1, 16, 50, 10_000): "sections 80353 events 972697 messages 308170",
    (1, 16, 100, 5_000): "sections 40106 events 492755 messages 155553",
    (1, 16, 100, 10_000): "sections 80353 events 973823 messages 307714",
    (5, 32, 1_000, 3_000): "sections 47849 events 824740 messages 257528",
    (5, 64, 500, 3_000): "sections 96292 events 1480173 messages 476904",
    (5, 64, 1_000, 1_500): "sections 47849 events 1067104 messages 330115",
    (5, 64, 1_000, 3_000): "sections 96292 events 1699663 messages 538662",
}


def write_sections(count, script, account):
    """One region, and so many write sections of it, each with a put of one byte."""
    script.write("nodes 1\nnode 0\ncreate a 4\nmap a\n")
    account.write("0 create 0:1 4\n0 map 0:1 4\n")
    before = ["00"] * 4
    for section in range(count):
        offset, byte = section % 4, "%02x" % (section * 37 % 256)
        after = list(before)
        after[offset] = byte
        script.write("write a\nput a %d %s\nendwrite a\n" % (offset, byte))
        account.write("0 startwrite 0:1\n0 write 0:1 %s %s\n" % ("".join(before), "".join(after)))
        before = after
    script.write("unmap a\n")
    account.write("0 unmap 0:1\nregion 0:1 %s\n" % "".join(before))
    account.write("events %d messages 0\n" % (3 + 2 * count))


def regions(count, script, account):
    """So many regions, all created first. Then each is mapped and written once, in another order."""
    script.write("nodes 1\nnode 0\n")
    for region in range(count):
        script.write("create label_%d 1\n" % region)
        account.write("0 create 0:%d 1\n" % (region + 1))
    stride = 7919  # a prime that divides no count used here: each region is met once
    for step in range(count):
        region = step * stride % count
        label, name = "label_%d" % region, "0:%d" % (region + 1)
        script.write("map %s\nwrite %s\nput %s 0 2a\nendwrite %s\n" % (label, label, label, label))
        account.write("0 map %s 1\n0 startwrite %s\n0 write %s 00 2a\n" % (name, name, name))
    for region in range(count):
        account.write("region 0:%d 2a\n" % (region + 1))
    account.write("events %d messages 0\n" % (4 * count))


def shared_account(count, account, answer):
    """The account of 64 nodes that share 64 regions, and write them so often."""
    for region in range(1, 65):
        account.write("0 create 0:%d 4\n" % region)
    for node in range(64):
        for region in range(1, 65):
            account.write("%d map 0:%d 4\n" % (node, region))
    values = [0] * 64
    for section in range(count):
        node, region = section * 7 % 64, section * 11 % 64
        account.write("%d startwrite 0:%d\n" % (node, region + 1))
        account.write("%d write 0:%d %08x %08x\n" % (node, region + 1, values[region], section))
        values[region] = section
    answer.write("legal\n")


def short_lines(count, account, answer):
    """The account of a node that flushes one region so often: the shortest lines that there are."""
    account.write("0 create 0:1 1\n0 map 0:1 1\n")
    for _ in range(count // 1_000):
        account.write("0 flush 0:1\n" * 1_000)
    answer.write("legal\n")


def creates(count, account, answer):
    """The account of a node that creates so many regions of one byte."""
    for region in range(1, count + 1):
        account.write("0 create 0:%d 1\n" % region)
    answer.write("legal\n")


def large_creates(count, account, answer):
    """The account of a node that creates so many regions of 64 KiB."""
    for region in range(1, count + 1):
        account.write("0 create 0:%d 65536\n" % region)
    answer.write("legal\n")


def last_line_bad(count, script, answer):
    """A script of two nodes with so many statements, of which the last has a fault: it is read, and not run."""
    script.write("nodes 2\nnode 0\ncreate a 8\n")
    for statement in range(1, count - 1):
        script.write(("write a\n", "put a 0 0123456789abcdef\n", "endwrite a\n")[statement % 3])
    script.write("crea b 8\n")
    answer.write("bad script %d BadWord\n" % (count + 2))


def all_created(count, script, account):
    """So many regions of one byte, which one node creates."""
    script.write("nodes 1\nnode 0\n")
    for region in range(1, count + 1):
        script.write("create r%d 1\n" % region)
        account.write("0 create 0:%d 1\n" % region)
    for region in range(1, count + 1):
        account.write("region 0:%d 00\n" % region)
    account.write("events %d messages 0\n" % count)


def write_bytes(account, size, first, last):
    """So many zeros but for the first and the last byte. They are written in parts: what this process has taken
    of memory at most counts as the program's too."""
    account.write(first + "00" * (PIECE - 2))
    for _ in range(size // PIECE - 1):
        account.write("00" * PIECE)
    account.write(last)


def large_region(count, script, account):
    """A region of so many MiB, which node 0 creates, and node 1 writes, flushes and reads."""
    size = count * MEBIBYTE
    pieces = size // PIECE
    script.write("nodes 2\nnode 0\ncreate a %d\nbarrier\nnode 1\nbarrier\nmap a\n" % size)
    script.write("write a\nput a 0 01\nput a %d 02\nendwrite a\nflush a\nread a\nendread a\n" % (size - 1))
    account.write("0 create 0:1 %d\n0 come barrier\n1 come barrier\n0 barrier 1\n1 barrier 1\n" % size)
    account.write("1 map 0:1 %d\n1 startwrite 0:1\n1 write 0:1 " % size)
    write_bytes(account, size, "00", "00")
    for front in (" ", "\n1 flush 0:1\n1 startread 0:1\n1 read 0:1 ", "\nregion 0:1 "):
        account.write(front)
        write_bytes(account, size, "01", "02")
    account.write("\n")
    # A come and its result, a map, two asks; and the bytes three times: to node 1, back, and to it again.
    messages = 6 + 3 * pieces
    # Nine calls, and the answers to two barriers, a map and two sections.
    account.write("events %d messages %d\n" % (9 + 5 + 2 * messages, messages))


class Run(NamedTuple):
    """Seconds by the clock and of the processor, bytes of memory at most, and the exit status."""

    clock: float
    processor: float
    memory: int
    status: int


def run_once(crl, words, script, seen):
    """What one run takes, and its exit status."""
    with open(script, "rb") as source, open(seen, "wb") as sink:
        start = time.perf_counter()
        child = subprocess.Popen([crl, *words], stdin=source, stdout=sink)
        _, status, usage = os.wait4(child.pid, 0)
        seconds = time.perf_counter() - start
    child.returncode = os.WEXITSTATUS(status) if os.WIFEXITED(status) else -os.WTERMSIG(status)
    return Run(seconds, usage.ru_utime + usage.ru_stime, usage.ru_maxrss * 1024, child.returncode)


class Bench:
    def __init__(self, crl, folder, runs):
        self.crl = crl
        self.folder = folder
        self.runs = runs
        self.failed = False

    def check(self, holds, what):
        """Prints whether a bound holds."""
        print("  %s  %s" % ("ok    " if holds else "FAILED", what))
        self.failed = self.failed or not holds

    def shown(self, count):
        """A count, or the numbers of a summary."""
        return " ".join(map(str, count)) if isinstance(count, tuple) else str(count)

    def path(self, count, name):
        return os.path.join(self.folder, "%s_%s" % (name, self.shown(count).replace(" ", "_")))

    def within(self, run, seconds, mebibytes):
        self.check(run.clock <= seconds, "at most %.2f s" % seconds)
        self.check(run.memory <= mebibytes * MEBIBYTE, "at most %d MiB" % mebibytes)

    def measure(self, make, counts, words=("order", "first"), wanted_status=0):
        """Makes a script of each count and runs them in turn, again and again, so that what else the
        machine does meets all of them: the best times of each, and its most memory."""
        for count in counts:
            with open(self.path(count, "script"), "w") as script, open(self.path(count, "wanted"), "w") as account:
                make(count, script, account)
        runs = self.run_all(counts, [words] * len(counts))
        return [self.report(make.__name__, count, runs[count], wanted_status) for count in counts]

    def run_all(self, counts, words):
        """Runs each input with its words, in turn, again and again."""
        runs = {count: [] for count in counts}
        for _ in range(self.runs):
            for count, its_words in zip(counts, words):
                runs[count].append(run_once(self.crl, its_words, self.path(count, "script"), self.path(count, "seen")))
        return runs

    def summaries(self, shape, half):
        """Compares a summary with one of about half the events: the time of an event, by the processor's."""
        shapes = [half, shape]
        events = [self.want_summary(each) for each in shapes]
        runs = self.run_all(shapes, [("summary", *map(str, each)) for each in shapes])
        less, more = (self.report("summary", each, runs[each], 0) for each in shapes)
        ratio = more.processor / events[1] / (less.processor / events[0])
        self.check(ratio <= 1.1, "%.2f times as many events: %.2f times as long for each, at most 1.1" % (
            events[1] / events[0], ratio))
        return more

    def want_summary(self, shape):
        """Writes the line that is wanted of a summary, and an empty script. Gives the number of events."""
        with open(self.path(shape, "script"), "w"), open(self.path(shape, "wanted"), "w+") as wanted:
            if shape in SUMMARIES:
                wanted.write("nodes %d regions %d %s\n" % (*shape[1:3], SUMMARIES[shape]))
            else:
                subprocess.run([self.crl, "summary", *map(str, shape)], stdout=wanted, check=False)
            wanted.seek(0)
            line = wanted.read()
        form = r"nodes %d regions %d sections \d+ events (\d+) messages \d+\n" % shape[1:3]
        shown = re.fullmatch(form, line)
        self.check(shown is not None, "the line is a summary's: %s" % line.strip())
        return int(shown[1]) if shown else 1

    def report(self, name, count, runs, wanted_status):
        best = Run(*(min(values) for values in zip(*runs)))._replace(memory=max(run.memory for run in runs))
        script, wanted, seen = (self.path(count, file) for file in ("script", "wanted", "seen"))
        print("%s %s: %.1f MB in, %.1f MB out, %.2f s, %.2f s of processor, %.0f MiB" % (
            name, self.shown(count), os.path.getsize(script) / 1e6, os.path.getsize(seen) / 1e6, best.clock,
            best.processor, best.memory / MEBIBYTE), flush=True)
        right = filecmp.cmp(wanted, seen, shallow=False) and all(run.status == wanted_status for run in runs)
        self.check(right, "the answer is the one that is wanted")
        return best

    def compare(self, make, count, most, words=("order", "first")):
        """Compares an input with one of twice the count, by the processor's time."""
        half, whole = self.measure(make, [count, 2 * count], words)
        ratio = whole.processor / half.processor
        self.check(ratio <= most, "twice as many: %.2f times as long, at most %.1f" % (ratio, most))
        return whole


def bench_sections(bench):
    (run,) = bench.measure(write_sections, [300_000])
    bench.within(run, 0.37, 250)
    # The larger script has 16.5 MB, and none may have more than 16.8.
    bench.compare(write_sections, 275_000, 2.2)


def bench_regions(bench):
    # Names that were looked up one by one would make it 4 times as long.
    bench.compare(regions, 50_000, 3)


def bench_created(bench):
    (run,) = bench.measure(all_created, [65_535])
    bench.within(run, 0.14, 60)
    bench.compare(all_created, 65_535, 2.2)


def bench_large(bench):
    (run,) = bench.measure(large_region, [16])
    bench.within(run, 0.73, 500)
    bench.compare(large_region, 8, 2.2)


def bench_summary(bench):
    shape = (1, 16, 100, 10_000)
    bench.within(bench.summaries(shape, (1, 16, 100, 5_000)), 0.23, 250)
    bench.summaries(shape, (1, 8, 100, 10_000))
    bench.summaries(shape, (1, 16, 50, 10_000))


def bench_wide(bench):
    shape = (5, 64, 1_000, 3_000)
    bench.within(bench.summaries(shape, (5, 64, 1_000, 1_500)), 1.74, 500)
    bench.summaries(shape, (5, 32, 1_000, 3_000))
    bench.summaries(shape, (5, 64, 500, 3_000))


def bench_check(bench):
    run = bench.compare(shared_account, 155_000, 2.3, ("check", "64"))
    bench.within(run, 3, 1024)
    (run,) = bench.measure(short_lines, [MOST_SHORT_LINES], ("check", "64"))
    bench.check(run.memory <= 2 * 2**28, "at most twice the account")
    (run,) = bench.measure(creates, [830_000], ("check", "64"))
    bench.within(run, 0.6, 300)
    (run,) = bench.measure(large_creates, [10_000], ("check", "64"))
    bench.check(run.memory <= 10_000 * 65_536, "at most the regions' bytes")


def bench_read(bench):
    (run,) = bench.measure(last_line_bad, [600_000], wanted_status=2)
    bench.check(run.clock <= 1.5, "at most 1.5 s")


ALL = [bench_sections, bench_regions, bench_created, bench_large, bench_summary, bench_wide, bench_check, bench_read]


def main():
    here = os.path.dirname(os.path.abspath(__file__))
    options, words = {"--only": "", "--runs": str(RUNS)}, sys.argv[1:]
    while words and words[0] in options:
        options[words[0]], words = words[1], words[2:]
    crl = os.path.abspath(words[0] if words else os.path.join(here, "..", "crates", "crl", "out", "crl"))
    if not os.access(crl, os.X_OK):
        sys.exit("no program at %s: README.md says how to build it" % crl)
    with tempfile.TemporaryDirectory() as folder:
        bench = Bench(crl, folder, int(options["--runs"]))
        for each in ALL:
            if options["--only"] in each.__name__:
                each(bench)
    sys.exit(1 if bench.failed else 0)


if __name__ == "__main__":
    main()
