"""Tokens over a database in a file, and replies without store and signature.

The time of one token over a table of 10, 1,000 and 100,000 stamps, beside two bare `fdatasync` on the same file system,
each after a write of one page in place: the medians of nine runs in turns. Then the processor time of one reply without
store and signature, beside OpenSSL's TS_RESP_create_response less its signature: the least of as many.
"""

import os
import shutil
import statistics
import subprocess
import tempfile
import time

from measurements.timing import compiled_peer, counted, filled, processor_time, two_syncs
from modules.programs import PROGRAM, built

RUNS = 9
GRANTS = 100
STAMPS = (10, 1_000, 100_000)
REPLIES = 20_000
CALIBRATION = "--reading 0 --offset 0 --uncertainty 0".split()


def seconds(path, count):
    """How long so many tokens over a copy of the database take, with starting the program and opening it."""
    with tempfile.TemporaryDirectory(dir=os.path.dirname(path)) as folder:
        copy = shutil.copy(path, folder)
        begun = time.monotonic()
        counted(count, built("player", "--optimized"), "work", "grant", str(count), copy)
        return time.monotonic() - begun


def grants(folder):
    paths = [filled(folder, stamps) for stamps in STAMPS]
    file = os.open(os.path.join(folder, "page"), os.O_RDWR | os.O_CREAT)
    two_syncs(file, GRANTS)
    for stamps, path in zip(STAMPS, paths):
        subprocess.run([PROGRAM, "calibrate", "--db", path, *CALIBRATION], check=True)
        # each is timed beside its own, since what else the disk does changes from moment to moment
        runs = []
        for _ in range(RUNS):
            bare = two_syncs(file, GRANTS)
            runs.append(((seconds(path, GRANTS) - seconds(path, 0)) / GRANTS, bare))
        one, bare = (statistics.median(times) * 1e6 for times in zip(*runs))
        ratio = statistics.median(one / bare for one, bare in runs)
        yield f"a token over {stamps:,} stamps", f"{one:.0f} us", f"two fdatasync {bare:.0f} us", ratio
    os.close(file)


def replies(folder):
    openssl = compiled_peer("grant", folder, "-lcrypto")
    names = "key.pem", "certificate.pem", "certificate.der"
    key, certificate, octets = (os.path.join(folder, name) for name in names)
    made = ["openssl", "req", "-x509", "-newkey", "ec", "-pkeyopt", "ec_paramgen_curve:P-256", "-nodes", "-keyout", key]
    made += ["-subj", "/CN=TSA", "-addext", "extendedKeyUsage=critical,timeStamping", "-out", certificate]
    subprocess.run(made, check=True, stderr=subprocess.DEVNULL)
    subprocess.run(["openssl", "x509", "-in", certificate, "-outform", "DER", "-out", octets], check=True)
    peers = (
        ((built("player"), "work", "reply"), [octets]),
        ((openssl, "reply"), [key, certificate]),
        ((openssl, "sign"), [key, certificate]),
    )
    runs = []
    for _ in range(RUNS):
        times = []
        for words, files in peers:
            spent, started = (processor_time(count, *words, str(count), *files) for count in (REPLIES, 0))
            times.append((spent - started) / REPLIES)
        runs.append(times)
    one, other, signature = (min(times) * 1e6 for times in zip(*runs))
    other -= signature
    told = f"TS_RESP_create_response, unsigned {other:.1f} us"
    yield "a reply without store and signature", f"{one:.1f} us", told, one / other


def ratios(folder):
    yield from grants(folder)
    yield from replies(folder)
