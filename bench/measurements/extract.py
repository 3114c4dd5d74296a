"""How much memory `counter audit` takes over databases of 10 and of 100,000 stamps: the greatest that the program has
at a time, for an extract of all of them, beside one of one stamp."""

import os
import subprocess
import sys
import tempfile

from measurements.timing import filled
from modules.programs import EXAMPLE, PROGRAM

STAMPS = (10, 100_000)


def extract(path, last):
    """The greatest memory, in bytes, that an extract of the stamps from the first to the last takes."""
    words = ["audit", "--db", path, "--rules", EXAMPLE, "--account", "audra", "--from", "1", "--to", str(last)]
    with tempfile.TemporaryFile() as written:
        running = subprocess.Popen([PROGRAM, *words], stdin=subprocess.DEVNULL, stdout=written)
        _, status, usage = os.wait4(running.pid, 0)
        running.returncode = os.waitstatus_to_exitcode(status)
        written.seek(0)
        lines = sum(1 for _ in written)
    if (running.returncode, lines) != (0, 1 + last):
        sys.exit(f"bench: {words}: status {running.returncode}, {lines} lines")
    return usage.ru_maxrss * 1024


def ratios(folder):
    for stamps in STAMPS:
        path = filled(folder, stamps)
        one, whole = extract(path, 1), extract(path, stamps)
        of_one = f"of one of them {one / 1e6:.1f} MB"
        yield f"an extract of {stamps:,} stamps", f"{whole / 1e6:.1f} MB", of_one, whole / one
