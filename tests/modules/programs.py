"""The programs that the tests run, and what is found wrong of them: the counter, the player of rows and trials, OpenSSL
and sqlite3."""

import contextlib
import functools
import json
import os
import re
import shutil
import subprocess
import tempfile
import time

TESTS = os.path.dirname(os.path.dirname(os.path.abspath(__file__)))
ROOT = os.path.dirname(TESTS)
SCRIPTS = os.path.join(ROOT, "scripts")
CRATES = os.path.join(ROOT, "crates")
PROGRAM = os.path.join(CRATES, "counter", "out", "counter")
KEY_HOLDER = os.path.join(ROOT, "key-holder", "out", "key-holder")
EXAMPLE = os.path.join(ROOT, "docs", "example-policy.toml")
DATA = os.path.join(TESTS, "data")
# the schema of now, and its tables besides `meta`
SCHEMA = 3
TABLES = "stamp", "tally", "calibration", "hold", "deposit", "reader", "group_reader", "identity"
# Debian's Python, for which Debian's packages are installed
PYTHON = "/usr/bin/python3"
# a line of `openssl asn1parse`: depth, kind and text
VALUE = re.compile(r"\s*\d+:d=(\d+)\s+hl=\d+\s+l=\s*\d+\s+(?:prim|cons):\s*([A-Z0-9 \[\]a-z]+?)\s*(?::(.*))?$")
# a certificate of the outline that is read, and no real one: an empty key and signature, and the name CN=TSA
NAME = "300e310c300a06035504030c03545341"
ALGORITHM = bytes.fromhex("30050603883709")
VALIDITY = "301e170d3730303130313030303030305a170d3439313233313233353935395a"
CERTIFICATE = bytes.fromhex(
    "3064 3057 020107 {0} {1} {2} {1} 300b {0} 03020001 {0} 03020001".format(ALGORITHM.hex(), NAME, VALIDITY)
)

# gets a token by the client, which verifies it where that is an RSA key's, and writes it to standard output
CLIENT = """
import sys, rfc3161ng
url, certificate, document, algorithm, nonce = sys.argv[1:]
certificate = open(certificate, "rb").read() if certificate else None
client = rfc3161ng.RemoteTimestamper(url, certificate=certificate, hashname=algorithm, include_tsa_certificate=True)
data = open(document, "rb").read()
token = client(data=data, nonce=int(nonce) if nonce else None)
if certificate and not rfc3161ng.check_timestamp(token, certificate=certificate, data=data, hashname=algorithm):
    sys.exit("not verified")
print(rfc3161ng.get_timestamp(token), file=sys.stderr)
sys.stdout.buffer.write(token)
"""

# where rows have their marks, between which memory is refused: allocations of so many octets
BETWEEN_MARKS = {"REFUSED_AFTER": "1000003", "REFUSED_BEFORE": "1000033"}


class Wrong:
    """What was found wrong, told as it is found."""

    # of what is told again at the end: so many, and so many characters of each
    MOST = 8
    LENGTH = 700

    def __init__(self):
        self.found = []

    @property
    def count(self):
        return len(self.found)

    def unless(self, what, got, want):
        if got != want:
            self.found.append(f"{what}: got {got!r}, want {want!r}")
            print(self.found[-1], flush=True)

    def ended(self, what):
        """Tells at the end of a test what it did, how much was wrong, and the first of it again; its status."""
        print(f"{what}; {self.count} wrong")
        for told in self.found[: self.MOST]:
            print(told[: self.LENGTH])
        return self.count > 0


@contextlib.contextmanager
def environment_of(variables):
    """Has programs that begin meanwhile find these variables."""
    before = dict(os.environ)
    os.environ.update(variables)
    try:
        yield
    finally:
        os.environ.clear()
        os.environ.update(before)


def built(crate, *options):
    """The path of a crate's program, which is proved and built first if that wasn't done since the sources changed."""
    words = [os.path.join(SCRIPTS, "built"), *options, crate]
    return subprocess.run(words, stdout=subprocess.PIPE, check=True, text=True).stdout.strip()


def built_key_holder(*targets):
    """The path of the key holder, which its Makefile builds, with its other targets if some are named."""
    subprocess.run(["make", "-s", "-C", os.path.join(ROOT, "key-holder"), "all", *targets], check=True)
    return KEY_HOLDER


def build(*options):
    """Proves and builds the counter, if that wasn't done yet, and builds the key holder."""
    built("counter", *options)
    built_key_holder()


def compiled(source, program, *options):
    """Compiles a C file."""
    subprocess.run(["cc", "-o", program, source, *options], check=True)
    return program


def compiled_library(name, folder):
    """Compiles a file of tests/c as a library that a program loads before the others."""
    source = os.path.join(TESTS, "c", f"{name}.c")
    return compiled(source, os.path.join(folder, f"{name}.so"), "-shared", "-fPIC", "-O1")


def refusing(library, mark, number, which, **more):
    """The environment in which the library `refused_memory` refuses the allocation of this number, that `one` or `all`
    from it on, and makes the file `mark` if there was one."""
    return {
        "LD_PRELOAD": library,
        "REFUSED_ALLOCATION": str(number),
        "REFUSED_ALLOCATIONS": which,
        "REFUSAL_MARK": mark,
        **more,
    }


def refused_in_turn(words, text, folder, library, which, **more):
    """What a program writes to its ends, and its status: with memory, and by number with that allocation refused, that
    `one` or `all` from it on. The library `refused_memory` has it go on from each of them in a process of its own."""
    own = tempfile.mkdtemp(dir=folder)
    first = [os.path.join(own, f"first.{name}") for name in ("in", "out", "err")]
    with open(first[0], "wb") as file:
        file.write(text)
    environment = {"LD_PRELOAD": library, "REFUSALS": own, "REFUSED_ALLOCATIONS": which, **more}
    with open(first[0], "rb") as stdin, open(first[1], "wb") as stdout, open(first[2], "wb") as stderr:
        done = subprocess.run(words, stdin=stdin, stdout=stdout, stderr=stderr, env=environment, timeout=600)
    output, errors, ended = (octets_of(os.path.join(own, name)) for name in ("out", "err", "ended"))
    refused, output_at, errors_at = {}, 0, 0
    for line in ended.splitlines():
        number, status, output_end, errors_end = map(int, line.split())
        refused[number] = output[output_at:output_end], errors[errors_at:errors_end], status
        output_at, errors_at = output_end, errors_end
    whole = octets_of(first[1]), octets_of(first[2]), done.returncode
    shutil.rmtree(own)
    return whole, refused


def octets_of(path):
    """What a file holds; nothing where there is none."""
    if not os.path.exists(path):
        return b""
    with open(path, "rb") as file:
        return file.read()


def played(words, text, path):
    """What the player tells of each row of a text: the row, and the lines behind it. The words are the program, and the
    kind of the rows."""
    with open(path, "w", encoding="utf-8") as file:
        file.write(text)
    done = subprocess.run([*words, path], capture_output=True, env={}, timeout=60)
    return told_by_rows(done.stdout, done.stderr, done.returncode)


def played_refused(words, text, path, library, which, **more):
    """The same with memory, and by number with that allocation refused between the marks of the rows."""
    with open(path, "w", encoding="utf-8") as file:
        file.write(text)
    folder, more = os.path.dirname(path), BETWEEN_MARKS | more
    whole, refused = refused_in_turn([*words, path], b"", folder, library, which, **more)
    told = {written: told_by_rows(*written) for written in {whole, *refused.values()}}
    return told[whole], {number: told[written] for number, written in refused.items()}


def told_by_rows(output, errors, status):
    """What the player told of each row, by what it wrote and its status."""
    if status or errors:
        raise RuntimeError(f"the player ended with {status}, and said: {output.decode()}{errors.decode()}")
    told = []
    for line in output.decode().rstrip("\n").split("\n"):
        if line.startswith("  "):
            told[-1].append(line[2:])
        else:
            told.append([line])
    return [tuple(lines) for lines in told]


def ended_runs(what, begun):
    """Waits for calls that each answer a count of runs and what is wrong with them, and tells of all: the status."""
    runs, wrong = 0, []
    for number, found in (one.result() for one in begun):
        runs += number
        wrong += found
    print(*wrong, f"{what}: {runs} runs; {len(wrong)} wrong", sep="\n")
    return len(wrong) > 0


@functools.cache
def has_client():
    """Whether the RFC 3161 client rfc3161ng is installed."""
    return subprocess.run([PYTHON, "-c", "import rfc3161ng"], stderr=subprocess.DEVNULL).returncode == 0


def asked_by_client(url, certificate, document, algorithm="sha256", nonce=""):
    """How the client ended that asked for a token of a document, with the token on its standard output."""
    return subprocess.run([PYTHON, "-c", CLIENT, url, certificate, document, algorithm, nonce], capture_output=True)


def openssl(*words, **how):
    """What OpenSSL writes, and its status."""
    done = subprocess.run(["openssl", *words], stdout=subprocess.PIPE, stderr=subprocess.PIPE, **how)
    return done.stdout, done.returncode


def values(der):
    """The values that `openssl asn1parse` finds: depth, kind and text of each."""
    said = subprocess.run(["openssl", "asn1parse", "-inform", "DER"], input=der, capture_output=True, check=True)
    found = []
    for text in said.stdout.decode().splitlines():
        parts = VALUE.match(text.replace("[HEX DUMP]", ""))
        if not parts:
            raise ValueError(f"not understood: {text}")
        found.append((int(parts[1]), parts[2], parts[3]))
    return found


def value(tag, *contents):
    """One value's encoding (X.690 8.1.1, 8.1.3, 10.1)."""
    octets = b"".join(contents)
    count = len(octets)
    if count < 128:
        return bytes([tag, count]) + octets
    digits = count.to_bytes((count.bit_length() + 7) // 8, "big")
    return bytes([tag, 128 + len(digits)]) + digits + octets


def name_of(identifier):
    """How OpenSSL shows an object identifier: by its name if it has one."""
    said = subprocess.run(["openssl", "asn1parse", "-genstr", f"OID:{identifier}"], capture_output=True, check=True)
    return said.stdout.decode().strip().rsplit(":", 1)[1]


def sqlite(path, sql):
    """The rows that sqlite3 finds, each a dictionary."""
    done = subprocess.run(["sqlite3", "-json", path, sql], capture_output=True, check=True)
    return json.loads(done.stdout or b"[]")


def now():
    """The reading of the machine's clock."""
    return time.time_ns() // 1000
