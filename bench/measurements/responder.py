"""Tokens a second over HTTP with an ECDSA key on P-256, which the key holder has, and the database in a file: beside
`openssl ts -reply` for each request, and beside a responder in C over TS_RESP_create_response that commits each serial
number and reply to SQLite on the same file system; the medians of runs in turns."""

import os
import statistics
import subprocess
import time

from measurements.serve import sent
from measurements.timing import compiled_peer
from modules.authority import Authority, Running

RUNS = 7
REQUESTS, BY_PROGRAM = 500, 30
# what `openssl ts -reply` is told (its manual page, section CONFIGURATION FILE OPTIONS)
CONFIGURATION = """\
[tsa]
serial = {0}/serial
crypto_device = builtin
signer_digest = sha256
default_policy = 2.999.1
digests = sha256
accuracy = secs:1
ess_cert_id_alg = sha256
"""


def by_program(authority, query):
    """How many replies a second `openssl ts -reply` gives."""
    configuration = authority.write("ts.conf", CONFIGURATION.format(authority.folder).encode())
    how = ["-config", configuration, "-section", "tsa", "-signer", authority.pem, "-inkey", authority.certified.key]
    begun = time.monotonic()
    for _ in range(BY_PROGRAM):
        words = ["openssl", "ts", "-reply", "-queryfile", query, *how, "-out", authority.path("reply")]
        subprocess.run(words, check=True, stderr=subprocess.DEVNULL)
    return BY_PROGRAM / (time.monotonic() - begun)


def ratios(folder):
    authority = Authority(folder, "ECDSA")
    authority.write("serial", b"01\n")
    query = authority.write("query", authority.query("-sha256", "-cert", "-no_nonce"))
    peer = compiled_peer("responder", folder, "-D_GNU_SOURCE", "-lcrypto", "-lsqlite3")
    words = [peer, authority.certified.key, authority.pem, authority.path("peer.db"), str(os.path.getsize(query)), "1"]
    runs = []
    with authority.key_holder() as holder, authority.serving(holder.address) as server, Running(words) as other:
        port = int(other.process.stdout.readline())
        for _ in range(RUNS):
            one = sent(server.port, query, REQUESTS)
            runs.append((one, by_program(authority, query), sent(port, query, REQUESTS)))
    for what, at in (("openssl ts -reply", 1), ("TS_RESP_create_response and SQLite", 2)):
        one, beside = (statistics.median(run[which] for run in runs) for which in (0, at))
        ratio = statistics.median(run[0] / run[at] for run in runs)
        yield "tokens, ECDSA on P-256", f"{one:.0f} a second", f"{what} {beside:.0f} a second", ratio
