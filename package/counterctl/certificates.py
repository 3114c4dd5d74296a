"""Certificates, as OpenSSL reads them."""

import calendar
import os
import re
import tempfile
import time

from . import places
from .machine import Refused

MOST_CHAIN = 3
LEAST_BITS = 3072


def in_form(machine, path, form):
    """A certificate in DER or PEM, whichever it stands in."""
    for given in ("DER", "PEM"):
        status, written, _ = machine.ask("openssl", "x509", "-inform", given, "-in", path, "-outform", form)
        if status == 0:
            return written
    raise Refused(f"{path} is no certificate", "name the file that the authority sent, in PEM or DER")


def chain_in_der(machine, paths):
    """The certificates of some files, each of which has one in DER or several in PEM, one after the other."""
    found = []
    for path in paths:
        with open(path, "rb") as file:
            blocks = re.findall(rb"-----BEGIN CERTIFICATE-----.*?-----END CERTIFICATE-----\n?", file.read(), re.S)
        for block in blocks or [in_form(machine, path, "PEM")]:
            status, der, errors = machine.ask("openssl", "x509", "-outform", "DER", text=block)
            if status != 0:
                raise Refused(f"{path} has what is no certificate: {errors.decode().strip()}", "name another file")
            found.append(der)
    if len(found) > MOST_CHAIN:
        raise Refused(f"the chain has {len(found)} certificates, and tokens at most {MOST_CHAIN}", "leave the root out")
    return found


def text_of(machine, der, *words):
    return machine.ask("openssl", "x509", "-inform", "DER", "-noout", *words, text=der)[1].decode()


def public_key(machine, der):
    return text_of(machine, der, "-pubkey").strip()


def subject(machine, der):
    return text_of(machine, der, "-subject", "-nameopt", "RFC2253").strip().removeprefix("subject=")


def moment(text):
    """`Nov 29 07:00:00 2031 GMT` in seconds since 1970."""
    return calendar.timegm(time.strptime(text.strip(), "%b %d %H:%M:%S %Y GMT"))


def validity(machine, der):
    told = dict(line.split("=", 1) for line in text_of(machine, der, "-dates").splitlines() if "=" in line)
    if "notAfter" not in told:
        raise Refused("it is no certificate", "take back the one that was there, or counterctl certificate FILE")
    return moment(told["notBefore"]), moment(told["notAfter"])


def faults(machine, der, key=None, chain=(), root=None):
    """What is wrong with a TSA's certificate: usage (RFC 3161 2.3), key, kind of key, validity, and the way to the
    root. Each with what to do."""
    usage = text_of(machine, der, "-ext", "extendedKeyUsage")
    again = "have it issued again"
    if "critical" not in usage or usage.strip().splitlines()[-1].strip() != "Time Stamping":
        yield "its extended key usage isn't timeStamping alone and critical", again
    signs = text_of(machine, der, "-ext", "keyUsage").strip().splitlines()[1:]
    allowed = {"Digital Signature", "Non Repudiation", "Content Commitment"}
    if signs and not set(signs[0].strip().split(", ")) <= allowed:
        yield f"its key usage is {signs[0].strip()}, not for signatures alone", again
    if key is not None and public_key(machine, der) != key:
        yield "it is of another key than this one", "take the certificate that was issued for the request"
    begins, ends = validity(machine, der)
    if begins > time.time():
        yield f"it is valid only from {day(begins)} on", "wait, or have it issued again"
    if ends < time.time() + 86400:
        yield f"it ends on {day(ends)}", again
    form = r"Public Key Algorithm: rsa\S*\n +Public-Key: \((\d+) bit\)"
    bits = re.search(form, text_of(machine, der, "-text"))
    if bits and int(bits[1]) < LEAST_BITS:
        yield f"its key of RSA has {bits[1]} bits, and not {LEAST_BITS} or more", "counterctl ceremony, of a longer one"
    elif algorithm(machine, der) is None:
        yield "its key isn't of a kind that the key holder signs by", "counterctl ceremony, with RSA of 3,072 bits"
    if root is not None:
        yield from path_faults(machine, der, chain, root)


def day(seconds):
    return time.strftime("%Y-%m-%d", time.gmtime(seconds))


def algorithm(machine, der):
    """The AlgorithmIdentifier of the key's signatures, by the key holder; none for a key that it doesn't take."""
    with tempfile.NamedTemporaryFile() as file:
        file.write(der)
        file.flush()
        status, written, _ = machine.ask("key-holder", "--certificate", file.name, "--print-algorithm")
    return written if status == 0 else None


def path_faults(machine, der, chain, root):
    with tempfile.TemporaryDirectory() as folder:
        between = os.path.join(folder, "chain")
        with open(between, "wb") as file:
            for one in chain:
                file.write(machine.ask("openssl", "x509", "-inform", "DER", text=one)[1])
        own = os.path.join(folder, "own")
        with open(own, "wb") as file:
            file.write(machine.ask("openssl", "x509", "-inform", "DER", text=der)[1])
        by = ("-untrusted", between) if chain else ()
        words = ("openssl", "verify", "-purpose", "timestampsign", "-CAfile", root, *by, own)
        status, written, errors = machine.ask(*words)
    if status != 0:
        told = re.findall(r"error \d+ at .*: (.*)", (errors + written).decode(errors="replace"))
        cause = told[0] if told else "OpenSSL refuses it"
        yield f"its chain doesn't lead to the root: {cause}", "name what stands between by --chain FILE, and the --root"


def stored_chain(machine):
    """The certificates of the file that the counter has, each in DER."""
    if not machine.exists(places.CHAIN):
        return []
    octets, found = machine.octets(places.CHAIN), []
    while octets:
        length, head = octets[1], 2
        if length & 128:
            head += length & 127
            length = int.from_bytes(octets[2:head], "big")
        found.append(octets[: head + length])
        octets = octets[head + length :]
    return found
