"""What the benchmarks share: processor time, bare writes to compare with, and databases of many stamps."""

import os
import resource
import subprocess
import sys
import time

from modules.programs import PROGRAM, ROOT, compiled

SOURCES = os.path.join(ROOT, "bench", "c")
PAGE = bytes(4096)
# the stamps of one account on one day, sealed, with octets of the sizes that those of a token have
FILL = """\
WITH RECURSIVE n (i) AS (SELECT 1 UNION ALL SELECT i + 1 FROM n WHERE i < {0})
INSERT INTO stamp SELECT i, 'guest', 0, 0, x'883701', x'608648016503040201', randomblob(32), randomblob(59),
randomblob(86), randomblob(471) FROM n;
INSERT INTO tally VALUES ('guest', 0, {0});
"""


def filled(folder, stamps):
    """A database of so many stamps."""
    path = os.path.join(folder, f"{stamps}.db")
    subprocess.run([PROGRAM, "init", "--db", path], check=True)
    subprocess.run(["sqlite3", path, FILL.format(stamps)], check=True)
    return path


def compiled_peer(name, folder, *options):
    """Compiles the file of that name of bench/c."""
    program = os.path.join(folder, name)
    return compiled(os.path.join(SOURCES, f"{name}.c"), program, "-O2", *options)


def counted(count, *words):
    """Runs a program that does its work so many times, and answers the count."""
    answer = subprocess.run(words, stdout=subprocess.PIPE, check=True).stdout
    if answer.split() != [str(count).encode()]:
        sys.exit(f"bench: {words} answers {answer!r}")


def processor_time(count, *words):
    """The processor time that such a program takes, in seconds."""
    before = resource.getrusage(resource.RUSAGE_CHILDREN)
    counted(count, *words)
    after = resource.getrusage(resource.RUSAGE_CHILDREN)
    return after.ru_utime - before.ru_utime + after.ru_stime - before.ru_stime


def two_syncs(file, times):
    """The time of two `fdatasync`, each after a write of one page in place: the mean of so many times, in seconds."""
    begun = time.monotonic()
    for _ in range(2 * times):
        os.pwrite(file, PAGE, 0)
        os.fdatasync(file)
    return (time.monotonic() - begun) / times
