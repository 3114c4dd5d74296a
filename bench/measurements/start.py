"""A start, which reads the whole database: its time over 100,000 stamps beside `PRAGMA integrity_check` by sqlite3, the
medians of runs in turns, and the greatest memory that it has at a time beside the file's size, over many stamps and
over large deposits."""

import os
import statistics
import subprocess
import sys
import time

from measurements.timing import filled
from modules.programs import EXAMPLE, PROGRAM

RUNS = 5
STAMPS, DEPOSITS, OCTETS = 100_000, 100, 1_048_576
DEPOSIT = """\
WITH RECURSIVE n (i) AS (SELECT 1 UNION ALL SELECT i + 1 FROM n WHERE i < {})
INSERT INTO deposit SELECT i, 'guest', 'plan-' || i, randomblob({}) FROM n;
"""


def started(path):
    """Seconds and the greatest memory of a start, and of the extract of one stamp, after which it ends."""
    words = [PROGRAM, "audit", "--db", path, "--rules", EXAMPLE, "--account", "audra", "--from", "1", "--to", "1"]
    begun = time.monotonic()
    running = subprocess.Popen(words, stdin=subprocess.DEVNULL, stdout=subprocess.DEVNULL)
    _, status, usage = os.wait4(running.pid, 0)
    running.returncode = os.waitstatus_to_exitcode(status)
    if running.returncode:
        sys.exit(f"bench: {words}: status {running.returncode}")
    return time.monotonic() - begun, usage.ru_maxrss * 1024


def checked(path):
    """How long sqlite3 takes to look through the whole database."""
    begun = time.monotonic()
    subprocess.run(["sqlite3", path, "PRAGMA integrity_check"], stdout=subprocess.DEVNULL, check=True)
    return time.monotonic() - begun


def in_memory(what, path):
    """The row that tells a start's memory."""
    memory, size = started(path)[1] / 1e6, os.path.getsize(path) / 1e6
    return f"memory of a start, {what}", f"{memory:.0f} MB", f"its file {size:.0f} MB", memory / size


def ratios(folder):
    path = filled(folder, STAMPS)
    runs = [(started(path)[0], checked(path)) for _ in range(RUNS)]
    one, other = (statistics.median(times) for times in zip(*runs))
    ratio = statistics.median(one / other for one, other in runs)
    yield f"a start over {STAMPS:,} stamps", f"{one:.2f} s", f"sqlite3's integrity_check {other:.2f} s", ratio
    yield in_memory(f"{STAMPS:,} stamps", path)
    path = filled(folder, DEPOSITS)
    subprocess.run(["sqlite3", path, DEPOSIT.format(DEPOSITS, OCTETS)], check=True)
    yield in_memory(f"{DEPOSITS} deposits", path)
