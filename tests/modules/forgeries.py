"""Tokens that OpenSSL signs, of any moment and by any key, for the tests: what a forger or another authority makes."""

import calendar
import hashlib
import os
import time

from modules.certificates import KINDS, Certified, CertificationAuthority, USAGE, made
from modules.programs import openssl, value

TST_INFO = "1.2.840.113549.1.9.16.1.4"
# the object identifiers SHA-256 and 2.999.1, in DER
SHA256, POLICY = bytes.fromhex("0609608648016503040201"), bytes.fromhex("0603883701")


def moment(year, month=1, day=1):
    """Seconds since 1970."""
    return calendar.timegm((year, month, day, 0, 0, 0))


def token(certified, data, gen_time=None, *options):
    """A time-stamp token for the data, of a moment as a GeneralizedTime has it (RFC 3161 2.4.2) or of now, by a key."""
    told = gen_time or time.strftime("%Y%m%d%H%M%SZ", time.gmtime())
    digest = hashlib.sha256(data).digest()
    imprint = value(0x30, value(0x30, SHA256, b"\x05\x00"), value(0x04, digest))
    info = value(0x30, b"\x02\x01\x01", POLICY, imprint, b"\x02\x01\x07", value(0x18, told.encode("ascii")))
    how = ["-binary", "-nodetach", "-cades", "-nosmimecap", "-md", "sha256", "-outform", "DER", *options]
    by = ["-signer", certified.pem, "-inkey", certified.key]
    made_of, status = openssl("cms", "-sign", *how, "-econtent_type", TST_INFO, *by, input=info)
    if status:
        raise RuntimeError(f"OpenSSL signs no token by {certified.pem}")
    return made_of


def self_signed(folder, name, begins, ends):
    """A key whose certificate it signed itself, of that name and between these moments."""
    new = Certified(folder, name)
    extensions = [word for extension in USAGE for word in ("-addext", extension)]
    subject = ["-nodes", "-subj", f"/O=Example/CN={name}"]
    made("req", "-newkey", *KINDS["ECDSA"], *subject, *extensions, "-keyout", new.key, "-out", new.request)
    made("req", "-x509", "-key", new.key, *subject[1:], *extensions, "-out", new.pem)
    itself = CertificationAuthority(folder, "ECDSA", new)
    itself.certify_until(new, ends, begins)
    return new


class Forger:
    """Keys in a folder, whose certificates have an authority's name. It is anybody: nothing of the authority's own is
    needed, but that the expired one is certified by the authority."""

    def __init__(self, folder, authority):
        self.own = self_signed(folder, "tsa", moment(2018), moment(2048))
        below = os.path.join(folder, "below")
        os.mkdir(below)
        serial, _ = openssl("x509", "-in", authority.pem, "-noout", "-serial")
        number = "0x" + serial.decode().strip().partition("=")[2]
        # issuer, serial number and name are the authority's own
        self.namesake = CertificationAuthority(below, "ECDSA").certified("tsa", "-set_serial", number)
        self.expired = authority.root.certified("expired", begins=moment(2020), ends=moment(2021))
