"""Tokens a second over HTTP for 1, 4, 16 and 64 clients, and the time within which half of their requests are answered:
with a key of ECDSA on P-256 and one of RSA with 2,048 bits, which the key holder has, and with the keyed hash; the
database on the disk as it is, on one whose syncs take a millisecond longer, and in memory. Beside a responder in C over
TS_RESP_create_response with a key in its own process, which makes the same two durable commits; beside the keyed hash
it has the key on P-256. All are the medians of runs in turns."""

import contextlib
import os
import statistics
import tempfile

from measurements.serve import sent
from measurements.timing import SOURCES, compiled_peer
from modules.authority import Authority, KeyHolder, Running
from modules.programs import compiled, environment_of

RUNS = 5
CLIENTS = 1, 4, 16, 64
MEMORY = "/dev/shm"
SLOWER = "1000"
# how many requests a client count has at least, and each client
REQUESTS, OF_CLIENT = 100, 20
KEYS = {"P-256": ("ECDSA", None, []), "RSA-2048": ("RSA", ["rsa:2048"], ["--allow-rsa-2048"]), "a keyed hash": None}


def half_within(path):
    """The milliseconds within which half of the requests were answered, as ab wrote them."""
    with open(path, encoding="ascii") as file:
        return float(dict(line.strip().split(",") for line in file.readlines()[1:])["50"])


@contextlib.contextmanager
def signer(authority, key):
    """The options of `serve` for a signer of this key."""
    if KEYS[key] is None:
        yield "--signing-key", authority.write("signing.key", b"a stand-in")
    else:
        with KeyHolder(authority.certified, *KEYS[key][2]) as holder:
            yield (holder.address,)


def authority_of(folder, key):
    kind, newkey, _ = KEYS[key] or KEYS["P-256"]
    authority = Authority(folder, kind)
    authority.use(authority.root.certified("stamping", newkey=newkey))
    return authority


def measured(port, query, times, clients):
    """How many requests a second are answered, and within which time half of them are."""
    count = max(REQUESTS, OF_CLIENT * clients)
    return sent(port, query, count, "-e", times, at_once=clients), half_within(times)


def by_clients(folder, key, environment):
    """For each count of clients the runs of both: rate and time of this one, and of the other."""
    authority = authority_of(folder, key)
    query, times = authority.write("query", authority.query("-sha256", "-cert", "-no_nonce")), authority.path("times")
    peer = compiled_peer("responder", folder, "-D_GNU_SOURCE", "-lcrypto", "-lsqlite3")
    words = [peer, authority.certified.key, authority.pem, authority.path("peer.db"), str(os.path.getsize(query)), "2"]
    with signer(authority, key) as how, environment_of(environment):
        with authority.serving(*how) as server, Running(words) as other:
            ports = server.port, int(other.process.stdout.readline())
            for clients in CLIENTS:
                yield clients, [[measured(port, query, times, clients) for port in ports] for _ in range(RUNS)]


def ratios(folder):
    source, library = os.path.join(SOURCES, "slow_sync.c"), os.path.join(folder, "slow_sync.so")
    compiled(source, library, "-shared", "-fPIC", "-O2")
    slower = {"LD_PRELOAD": library, "SYNC_MICROSECONDS": SLOWER}
    for disk, parent, environment in (
        ("the disk", folder, {}),
        ("a millisecond a sync", folder, slower),
        ("memory", MEMORY, {}),
    ):
        for key in KEYS:
            with tempfile.TemporaryDirectory(dir=parent) as own:
                for clients, runs in by_clients(own, key, environment):
                    one, half, other, other_half = (
                        statistics.median(run[which][what] for run in runs) for which in (0, 1) for what in (0, 1)
                    )
                    ratio = statistics.median(run[0][0] / run[1][0] for run in runs)
                    told = f"{other:.0f}, half in {other_half:.1f} ms"
                    yield f"{disk}, {key}, {clients} clients", f"{one:.0f} a second, half in {half:.1f} ms", told, ratio
