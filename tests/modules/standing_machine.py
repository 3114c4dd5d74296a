"""A folder that stands for a machine, on which counterctl does its tasks by the counter itself and stand-ins of systemd
and others; each change may be the one before which it is stopped."""

import contextlib
import glob
import hashlib
import io
import os
import shutil
import subprocess
import sys

from modules.commands import CHRONYC
from modules.programs import KEY_HOLDER, PROGRAM, ROOT, environment_of

PACKAGE = os.path.join(ROOT, "package")
sys.path.insert(0, PACKAGE)
os.environ["COUNTERCTL_PROGRAMS"] = PACKAGE
os.environ["COUNTERCTL_EXAMPLES"] = PACKAGE
from counterctl import asking, main
from counterctl.machine import Machine

# a unit is active if there is a file of its name, and what is asked stands in a file
SYSTEMCTL = """\
#!/bin/sh
state=${0%/bin/*}/units
mkdir -p "$state"
while :; do case $1 in --quiet | --no-block | --now) shift ;; *) break ;; esac; done
word=$1
shift
case $word-$1 in show---property=ActiveState) echo inactive ;; esac
for unit; do case $unit in --*) ;; *) unit=${unit%.service} && case $word in
  start | restart) touch "$state/$unit" ;;
  stop) rm -f "$state/$unit" ;;
  is-active) [ -e "$state/$unit" ] || exit 3 ;;
  is-enabled) ;;
  esac ;; esac; done
"""
RUNUSER = '#!/bin/sh\nshift 3\nexec "$@"\n'
JOURNALCTL = '#!/bin/sh\ncat "${0%/bin/*}/journal" 2> /dev/null\n'
STAND_INS = {"systemctl": SYSTEMCTL, "runuser": RUNUSER, "journalctl": JOURNALCTL, "chronyc": CHRONYC}


class StoppedHere(Exception):
    """The machine was stopped."""


class Stopping(Machine):
    """A machine that is stopped before its change of this number, from 0."""

    def __init__(self, root, at):
        super().__init__(root)
        self.left = at

    def step(self):
        if self.left == 0:
            raise StoppedHere
        self.left -= 1


def stopped_before(name):
    def method(self, *words, **how):
        self.step()
        return getattr(Machine, name)(self, *words, **how)

    return method


for name in ("write", "move", "copy", "remove", "run"):
    setattr(Stopping, name, stopped_before(name))


class Standing:
    """The folder, and what tasks tell on it."""

    def __init__(self, folder):
        self.root = folder
        self.programs = os.path.join(folder, "bin")
        os.makedirs(self.programs)
        for name, text in STAND_INS.items():
            self.program(name, text)
        for name, path in (("counter", PROGRAM), ("key-holder", KEY_HOLDER)):
            os.symlink(path, os.path.join(self.programs, name))
        for place in ("etc/counter", "etc/counter-key-holder", "var/lib/counter", "run/counter", "var/backups/counter"):
            os.makedirs(self.path(place))

    def program(self, name, text):
        with open(os.path.join(self.programs, name), "w", encoding="utf-8") as file:
            file.write(text)
        os.chmod(os.path.join(self.programs, name), 0o755)

    def path(self, name):
        return os.path.join(self.root, name.lstrip("/"))

    def write(self, name, text):
        os.makedirs(os.path.dirname(self.path(name)), exist_ok=True)
        with open(self.path(name), "w", encoding="utf-8") as file:
            file.write(text)

    def read(self, name):
        with open(self.path(name), encoding="utf-8") as file:
            return file.read()

    def does(self, *words):
        """Status, and what counterctl writes to both ends; a token is asked of nobody."""
        return self.run(lambda given: Machine(self.root, given.dry_run), *words)

    def stopped(self, at, *words):
        """Whether the task comes to that change of its, before which it is stopped."""
        try:
            self.run(lambda given: Stopping(self.root, at), *words)
        except StoppedHere:
            return True
        return False

    def run(self, machine_of, *words):
        out, errors = io.StringIO(), io.StringIO()
        asked, made = asking.token, main.Machine
        asking.token = lambda machine, what="a token": machine.tell(f"{what} is asked for")
        main.Machine = lambda root, dry_run: machine_of(main.parser().parse_args(words))
        variables = {"PATH": f"{self.programs}:{os.environ['PATH']}", "COUNTERCTL_ROOT": self.root}
        variables["DATABASE"] = self.path("/var/lib/counter/counter.db")
        try:
            with environment_of(variables), contextlib.redirect_stdout(out), contextlib.redirect_stderr(errors):
                status = main.main(words)
        finally:
            asking.token, main.Machine = asked, made
        return status, out.getvalue(), errors.getvalue()

    def files(self):
        """Each file of the machine's own, with its SHA-256."""
        found = {}
        for place in ("etc", "var"):
            for folder, _, names in os.walk(self.path(place)):
                for name in names:
                    path = os.path.join(folder, name)
                    with open(path, "rb") as file:
                        found[os.path.relpath(path, self.root)] = hashlib.sha256(file.read()).hexdigest()
        return found

    def backup(self, name, database):
        """A backup as package/backup leaves it."""
        folder = self.path(f"var/backups/counter/{name}")
        os.makedirs(folder)
        shutil.copyfile(database, os.path.join(folder, "counter.db"))
        if os.path.exists(f"{database}-wal"):
            shutil.copyfile(f"{database}-wal", os.path.join(folder, "counter.db-wal"))
        subprocess.run(["sqlite3", os.path.join(folder, "counter.db"), "PRAGMA user_version"], check=True, stdout=-3)
        if os.path.exists(self.path("/var/lib/counter/rules")):
            shutil.copytree(self.path("/var/lib/counter/rules"), os.path.join(folder, "rules"))
        self.sum(folder)
        return f"/var/backups/counter/{name}"

    def sum(self, folder):
        names = ["counter.db", *sorted(glob.glob("rules/*", root_dir=folder))]
        digest = subprocess.run(["sha256sum", *names], cwd=folder, capture_output=True, check=True).stdout
        with open(os.path.join(folder, "SHA256SUMS"), "wb") as file:
            file.write(digest)
