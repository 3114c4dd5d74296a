"""A signature by the key holder, over one session by TCP, beside one by EVP_DigestSign in one process, with the same
key; one over a Unix socket beside TCP; and one of 64 that are asked for at once: the medians of nine runs, in each of
which all take turns."""

import hashlib
import statistics
import subprocess

from measurements.timing import compiled_peer
from modules.authority import KeyHolder, Running
from modules.certificates import KINDS, CertificationAuthority
from modules.programs import built_key_holder

RUNS = 9
SIGNATURES = 1_000
# the signed attributes of a token, but for the digests of TSTInfo and certificate (RFC 5652 5.4)
ATTRIBUTES = (
    bytes.fromhex("318186 301a06092a864886f70d010903310d060b2a864886f70d0109100104 302f06092a864886f70d01090431220420"),
    bytes.fromhex("3037060b2a864886f70d010910022f 312830263024 30220420"),
)


def attribute_text(certificate):
    before, between = ATTRIBUTES
    return before + bytes(32) + between + hashlib.sha256(certificate).digest()


def ratios(folder):
    program, peer = built_key_holder(), compiled_peer("key_holder", folder, "-D_GNU_SOURCE", "-lcrypto")
    for kind in KINDS:
        certified = CertificationAuthority(folder, kind).certified("tsa")
        with open(certified.der, "rb") as file:
            text = attribute_text(file.read())
        path = f"{folder}/text"
        with open(path, "wb") as file:
            file.write(text)
        socket = f"unix:{folder}/socket"
        with KeyHolder(certified, program=program) as holder, at_file(program, certified, socket):
            words = [peer, certified.key, str(holder.port), f"{folder}/socket", path, str(SIGNATURES)]
            runs = [subprocess.run(words, stdout=subprocess.PIPE, check=True).stdout.split() for _ in range(RUNS)]
        medians = (statistics.median(int(run[way]) for run in runs) / 1000 for way in range(4))
        other, by_tcp, by_file, at_once = medians
        # of rates: how many signatures are given while the other way gives one
        ways = (1, 0), (2, 1), (3, 2)
        ratio = [statistics.median(int(run[at]) / int(run[way]) for run in runs) for way, at in ways]
        yield f"a signature, {kind}", f"{by_tcp:.0f} us", f"EVP_DigestSign {other:.0f} us", ratio[0]
        yield f"over a Unix socket, {kind}", f"{by_file:.0f} us", f"over TCP {by_tcp:.0f} us", ratio[1]
        yield f"64 at once, {kind}", f"{at_once:.0f} us", f"one by one {by_file:.0f} us", ratio[2]


def at_file(program, certified, address):
    """A key holder at a Unix socket, which listens."""
    words = [program, "--key", certified.key, "--certificate", certified.der, "--listen", address]
    holder = Running(words)
    holder.process.stdout.readline()
    return holder
