"""What the package keeps of an authority for later, for the tests beside this folder: a database with stamps at any
moment, and the package's scripts over it."""

import calendar
import os
import subprocess
import time

from modules.authority import Authority
from modules.programs import PROGRAM, ROOT

PACKAGE = os.path.join(ROOT, "package")
# a service that doesn't serve
SYSTEMCTL = "#!/bin/sh\ncase $2 in *ActiveState) echo inactive ;; *) echo 0 ;; esac\n"


class Archive:
    """An authority's database, with stamps at any moment, and the package's scripts over it."""

    def __init__(self, folder, other):
        self.authority, self.other = Authority(folder, "ECDSA", is_calibrated=False), other
        self.path = self.authority.path
        os.mkdir(self.path("stand-ins"))
        self.stand_in("systemctl", SYSTEMCTL)
        path = os.pathsep.join((self.path("stand-ins"), os.path.dirname(PROGRAM), os.environ["PATH"]))
        self.environment = {**os.environ, "PATH": path, "RULES": self.authority.rules, "AUTHORITY": other.file}
        self.environment |= {"ANCHORS": self.path("anchors"), "RENEWALS": self.path("renewals")}

    def stand_in(self, name, text):
        """Puts a program before the system's, or takes it away."""
        path = self.path(f"stand-ins/{name}")
        if text is None:
            os.remove(path)
            return
        with open(path, "w", encoding="ascii") as file:
            file.write(text)
        os.chmod(path, 0o755)

    def run(self, *words, at=None, **environment):
        """Status, and what a script of the package writes to both ends, now or at another second."""
        words = [os.path.join(PACKAGE, words[0]), *words[1:]]
        if at:
            words = ["faketime", time.strftime("%Y-%m-%d %H:%M:%S", time.gmtime(at)), *words]
        environment = {**self.environment, "DATABASE": self.authority.db, "TZ": "UTC", **environment}
        done = subprocess.run(words, capture_output=True, text=True, env=environment, timeout=600)
        return done.returncode, done.stdout, done.stderr

    def calibrate(self, second):
        words = ["--reading", str(second * 1_000_000), "--offset", "0", "--uncertainty", "1"]
        self.authority.words("calibrate", "--db", self.authority.db, *words)

    def asked(self, word, holder, second, octets, *words):
        """What `answer` or `exchange` does at a second."""
        words = [*self.authority.desk_words(holder.address), "--reading", str(second * 1_000_000), *words]
        return subprocess.run([PROGRAM, word, *words], input=octets, capture_output=True, check=True).stdout

    def stamp(self, holder, second, *words, data=b"abc"):
        """The reply to a request for a token."""
        query = self.authority.query("-sha256", "-cert", data=data)
        return bytes.fromhex(self.asked("answer", holder, second, query.hex().encode(), *words).decode())

    def deposit(self, holder, second, document):
        head = f"POST /deposits HTTP/1.1\r\nCounter-Key: hello\r\nDeposit-Reference: {document}\r\n"
        head += f"Content-Length: {len(document)}\r\n\r\n{document}"
        return self.asked("exchange", holder, second, head.encode()).partition(b"\r\n\r\n")[2]

    def extract(self, first, last):
        words = ["--rules", self.authority.rules, "--account", "audra", "--from", str(first), "--to", str(last)]
        words = [PROGRAM, "audit", "--db", self.authority.db, *words]
        return subprocess.run(words, capture_output=True, check=True).stdout


def months():
    """The second at which this month begins in UTC, and the next one."""
    year, month = time.gmtime()[:2]
    after = (year, month + 1) if month < 12 else (year + 1, 1)
    return calendar.timegm((year, month, 1, 0, 0, 0)), calendar.timegm((*after, 1, 0, 0, 0))


def read(path):
    with open(path, "rb") as file:
        return file.read()
