"""Values, requests and what answers them, read and written from docs/formats.md and the standards alone, for the tests
beside this folder."""

import collections
import datetime

from modules.programs import value

MOST_LEVELS = 32
MOST_CONTENTS = 1 << 24
MOST_SUBIDENTIFIERS, MOST_SUBIDENTIFIER = 32, 1 << 128
SEQUENCE, INTEGER, BOOLEAN, OCTETS, OID, EXTENSIONS = 0x30, 0x02, 0x01, 0x04, 0x06, 0xA0
TRUE = value(BOOLEAN, b"\xff")


class NoValue(Exception):
    """The octets aren't what they should be."""


def need(holds):
    if not holds:
        raise NoValue


def read_value(octets, at, level=1):
    """One value (X.690 8.1, 10.1): its identifier octet, its contents or the values in it, and where it ends."""
    need(level <= MOST_LEVELS and at + 1 < len(octets))
    tag, count, at = octets[at], octets[at + 1], at + 2
    need(tag & 31 != 31)
    if count >= 128:
        digits = count - 128
        need(1 <= digits < 127 and at + digits <= len(octets))
        count, at = int.from_bytes(octets[at : at + digits], "big"), at + digits
        need(count >= 128 and count >> 8 * (digits - 1) and count < MOST_CONTENTS)
    end = at + count
    need(end <= len(octets))
    if not tag & 32:
        return tag, octets[at:end], end
    inside, values = octets[:end], []
    while at < end:
        tag_inside, contents, at = read_value(inside, at, level + 1)
        values.append((tag_inside, contents))
    return tag, values, end


def written(tag, contents):
    """The octets of a value that was read."""
    return value(tag, contents) if isinstance(contents, bytes) else value(tag, *(written(*one) for one in contents))


def integer(contents):
    """An INTEGER in its shortest form (X.690 8.3.2)."""
    need(contents)
    if len(contents) > 1:
        need((contents[0], contents[1] >> 7) not in ((0x00, 0), (0xFF, 1)))
    return contents


def subidentifiers(contents):
    """Those of an object identifier (X.690 8.19), within the counter's limits."""
    need(contents and contents[-1] < 128)
    found, number, begins = [], 0, True
    for octet in contents:
        need(not (begins and octet == 128))
        number, begins = number * 128 + octet % 128, octet < 128
        need(number < MOST_SUBIDENTIFIER)
        if begins:
            found.append(number)
            number = 0
    need(len(found) <= MOST_SUBIDENTIFIERS)
    return found


def oid(contents):
    subidentifiers(contents)
    return contents


def oid_text(contents):
    """As numbers joined by dots; other octets than an object identifier's in hexadecimal."""
    try:
        first, *others = subidentifiers(contents)
    except NoValue:
        return contents.hex()
    arc = min(first // 40, 2)
    return ".".join(map(str, (arc, first - 40 * arc, *others)))


def boolean(contents):
    need(contents in (b"\x00", b"\xff"))
    return contents == b"\xff"


class Members:
    """The members of a SEQUENCE, taken one after the other."""

    def __init__(self, values):
        self.left = list(values)

    def take(self, tag):
        need(self.left and self.left[0][0] == tag)
        return self.left.pop(0)[1]

    def optional(self, tag):
        return self.take(tag) if self.left and self.left[0][0] == tag else None

    def end(self):
        need(not self.left)


def members_of(octets):
    """The members of the SEQUENCE that octets are."""
    tag, values, end = read_value(octets, 0)
    need(tag == SEQUENCE and end == len(octets))
    return Members(values)


def subject_of(certificate):
    """The subject in the outline of a certificate (RFC 5280 4.1)."""
    need(len(certificate) <= 16_384)
    body = Members(members_of(certificate).take(SEQUENCE))
    body.optional(0xA0)
    integer(body.take(INTEGER))
    return [written(SEQUENCE, body.take(SEQUENCE)) for _ in range(4)][3]


def gen_time(moment):
    """The genTime with six digits of a fraction (X.690 11.7), by Python's calendar."""
    fraction = f"{moment % 10**6:06}".rstrip("0")
    text = (datetime.datetime(1970, 1, 1) + datetime.timedelta(microseconds=moment)).strftime("%Y%m%d%H%M%S")
    return (f"{text}.{fraction}Z" if fraction else f"{text}Z").encode()


def number(value):
    """An INTEGER that isn't negative."""
    return value.to_bytes(value.bit_length() // 8 + 1, "big")


def accuracy_of(micros):
    """RFC 3161 2.4.2: what is 0 is left away."""
    parts = zip((0x02, 0x80, 0x81), (micros // 10**6, micros // 1000 % 1000, micros % 1000))
    return value(SEQUENCE, *(value(tag, number(part)) for tag, part in parts if part))


def optional(tag, contents):
    return b"" if contents is None else value(tag, contents)


FIELDS = "version algorithm parameters hash policy nonce cert_req extensions"


class Request(collections.namedtuple("Request", FIELDS)):
    """The parts of a TimeStampReq (RFC 3161 2.4.1): numbers and identifiers by their contents, parameters as a whole,
    and of each extension its identifier, whether it is critical, and its value."""

    def imprint(self):
        algorithm = value(SEQUENCE, value(OID, self.algorithm), self.parameters or b"")
        return value(SEQUENCE, algorithm, value(OCTETS, self.hash))

    def all_extensions(self, tag):
        members = (
            value(SEQUENCE, value(OID, identifier), TRUE if critical else b"", value(OCTETS, contents))
            for identifier, critical, contents in self.extensions
        )
        return value(tag, *members) if self.extensions else b""

    def encoding(self):
        parts = value(INTEGER, self.version) + self.imprint() + optional(OID, self.policy)
        parts += optional(INTEGER, self.nonce) + (TRUE if self.cert_req else b"")
        return value(SEQUENCE, parts, self.all_extensions(EXTENSIONS))

    def answer(self, policy, serial, moment, accuracy, ordering, subject=None):
        """The TSTInfo (RFC 3161 2.4.2)."""
        parts = value(INTEGER, b"\x01") + value(OID, policy) + self.imprint() + value(INTEGER, number(serial))
        parts += value(0x18, gen_time(moment)) + accuracy_of(accuracy) + (TRUE if ordering else b"")
        parts += optional(INTEGER, self.nonce) + (value(0xA0, value(0xA4, subject)) if subject else b"")
        return value(SEQUENCE, parts, self.all_extensions(0xA1))


def read_extension(tag, values):
    need(tag == SEQUENCE)
    members = Members(values)
    kind, critical = oid(members.take(OID)), members.optional(BOOLEAN)
    is_critical = critical is not None and boolean(critical)
    contents = members.take(OCTETS)
    members.end()
    return kind, is_critical, contents


def read_request(octets):
    """The request that octets are."""
    need(len(octets) <= 65_536)
    members = members_of(octets)
    version = integer(members.take(INTEGER))
    imprint = Members(members.take(SEQUENCE))
    algorithm = Members(imprint.take(SEQUENCE))
    kind = oid(algorithm.take(OID))
    parameters = written(*algorithm.left.pop(0)) if algorithm.left else None
    algorithm.end()
    digest = imprint.take(OCTETS)
    imprint.end()
    policy, nonce = members.optional(OID), members.optional(INTEGER)
    cert_req, extensions = members.optional(BOOLEAN), members.optional(EXTENSIONS)
    members.end()
    need(extensions is None or extensions)
    if policy is not None:
        oid(policy)
    if nonce is not None:
        integer(nonce)
    wants = cert_req is not None and boolean(cert_req)
    extensions = [read_extension(*one) for one in extensions or []]
    return Request(version, kind, parameters, digest, policy, nonce, wants, extensions)
