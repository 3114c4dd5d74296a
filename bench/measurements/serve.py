"""Requests for tokens over HTTP and loopback, which Apache's `ab` sends, four connections at a time.

The exchanges a second with the database in memory, beside those of a bare accept loop in C that answers as many octets.
Then the time of a request to `counter serve` with its database in a file, beside two bare `fdatasync` on the same file
system, each after a write of one page in place. Both have the stand-in signer, and all are the medians of nine runs in
turns.
"""

import os
import re
import statistics
import subprocess
import sys

from measurements.timing import compiled_peer, two_syncs
from modules.authority import Authority, Running
from modules.programs import built

RUNS = 9
EXCHANGES = 5_000
# ab opens some connections more than it needs
MORE = 100
ON_FILE = 500
AT_ONCE = 4
MOST_SECONDS = 60
TYPE = "application/timestamp-query"


def sent(port, query, count, *options, at_once=AT_ONCE):
    """How many requests a second ab finds answered, so many at a time, by further options of its own."""
    limits = ["-t", str(MOST_SECONDS), "-n", str(count), "-c", str(at_once), "-s", str(MOST_SECONDS)]
    words = ["ab", "-q", "-l", *limits, *options, "-p", query, "-T", TYPE, f"http://127.0.0.1:{port}/tsp"]
    said = subprocess.run(words, capture_output=True, text=True, check=True).stdout
    found = {
        name: re.search(rf"^{name}: +([0-9.]+)", said, re.M)
        for name in ("Complete requests", "Failed requests", "Requests per second")
    }
    complete, failed, rate = (float(line[1]) for line in found.values())
    if (complete, failed) != (count, 0) or "Non-2xx" in said:
        sys.exit(f"bench: ab: {said}")
    return rate


def rate_of(words, query):
    """How many exchanges a second a program has that tells its port."""
    with Running(words) as running:
        return sent(int(running.process.stdout.readline()), query, EXCHANGES)


def answered(authority, query):
    """A file with the octets of an answer."""
    answer = authority.path("answer")
    with Running([built("player"), "work", "serve", "1"]) as running:
        url = f"http://127.0.0.1:{int(running.process.stdout.readline())}/tsp"
        words = ["curl", "-sS", "-i", "-H", f"Content-Type: {TYPE}", "--data-binary", f"@{query}", "-o", answer, url]
        subprocess.run(words, check=True)
    return answer


def in_memory(authority, query):
    bare = compiled_peer("serve", authority.folder, "-D_GNU_SOURCE")
    bare_words = [bare, answered(authority, query), str(os.path.getsize(query))]
    words = [built("player"), "work", "serve", str(EXCHANGES + MORE)]
    runs = [(rate_of(words, query), rate_of(bare_words, query)) for _ in range(RUNS)]
    one, bare = (statistics.median(rates) for rates in zip(*runs))
    ratio = statistics.median(one / bare for one, bare in runs)
    told = f"a bare accept loop {bare:.0f} a second"
    yield "exchanges with the database in memory", f"{one:.0f} a second", told, ratio


def in_a_file(authority, query):
    file = os.open(authority.path("page"), os.O_RDWR | os.O_CREAT)
    two_syncs(file, ON_FILE)
    runs = []
    with authority.serving("--signing-key", authority.write("signing.key", b"a stand-in")) as server:
        for _ in range(RUNS):
            # each beside its own, since what else the disk does changes from moment to moment
            bare = two_syncs(file, ON_FILE)
            runs.append((1 / sent(server.port, query, ON_FILE), bare))
    os.close(file)
    one, bare = (statistics.median(times) * 1e6 for times in zip(*runs))
    ratio = statistics.median(one / bare for one, bare in runs)
    yield "a request, the database in a file", f"{one:.0f} us", f"two fdatasync {bare:.0f} us", ratio


def ratios(folder):
    authority = Authority(folder, "ECDSA")
    query = authority.write("query", authority.query("-sha256", "-cert", "-no_nonce"))
    yield from in_memory(authority, query)
    yield from in_a_file(authority, query)
