"""Tokens over HTTP with a key of RSA with 3,072 bits, and with one of ECDSA on P-256, which the key holder has, and the
database in a file; `ab` sends four requests at a time. How many a second, and the time within which 95 of 100 requests
are answered beside that of half of them; the medians of runs."""

import os
import statistics

from measurements.serve import sent
from modules.authority import Authority

RUNS = 7
REQUESTS = 500
KEYS = {"RSA of 3,072 bits": ("RSA", ["rsa:3072"]), "ECDSA on P-256": ("ECDSA", None)}


def within(path):
    """The milliseconds within which 95 of 100 requests were answered, and half of them, as ab wrote them."""
    with open(path, encoding="ascii") as file:
        times = dict(line.strip().split(",") for line in file.readlines()[1:])
    return float(times["95"]), float(times["50"])


def ratios(folder):
    for name, (kind, newkey) in KEYS.items():
        own = os.path.join(folder, kind)
        os.mkdir(own)
        authority = Authority(own, kind)
        authority.use(authority.root.certified("stamping", newkey=newkey))
        query = authority.write("query", authority.query("-sha256", "-cert", "-no_nonce"))
        times, runs = authority.path("times.csv"), []
        with authority.key_holder() as holder, authority.serving(holder.address) as server:
            for _ in range(RUNS):
                rate = sent(server.port, query, REQUESTS, "-e", times)
                runs.append((rate, *within(times)))
        rate, most, half = (statistics.median(values) for values in zip(*runs))
        told = f"95 of 100 within {most:.2f} ms, half within {half:.2f} ms"
        yield f"tokens, {name}", f"{rate:.0f} a second", told, most / half
