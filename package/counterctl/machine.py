"""The machine as tasks see it: its files and commands, and what is told of each step. With a root other than `/` all
files are below that folder, and nobody else's; with `--dry-run` nothing is written and no command that changes
anything is run, and both are told."""

import fcntl
import grp
import os
import pwd
import shlex
import shutil
import subprocess
import syslog
import tempfile

LOCK = "/run/counterctl.lock"


class Refused(Exception):
    """What isn't done, and what to do instead."""

    def __init__(self, what, instead):
        super().__init__(what)
        self.what, self.instead = what, instead


class Stopped(Refused):
    """Where a task has stopped, and how it goes on."""


class Machine:
    def __init__(self, root="/", dry_run=False):
        self.root, self.dry_run = root, dry_run
        # by a dry run: what would have been written, or None where it would have been moved away
        self.pretended = {}
        self.lock = None

    def path(self, name):
        return os.path.join(self.root, name.lstrip("/")) if name.startswith("/") else name

    def only_one(self):
        """No two tasks change the machine at a time, and nobody but root does."""
        if os.geteuid() != 0:
            raise Refused("only root may do that", "sudo counterctl ..")
        if self.dry_run:
            return
        os.makedirs(os.path.dirname(self.path(LOCK)), exist_ok=True)
        self.lock = open(self.path(LOCK), "w", encoding="utf-8")
        try:
            fcntl.flock(self.lock, fcntl.LOCK_EX | fcntl.LOCK_NB)
        except BlockingIOError:
            raise Refused("another task of counterctl is at work", "wait for its end") from None

    def tell(self, text):
        print(text, flush=True)
        self.log(text)

    def log(self, text):
        if self.root == "/":
            syslog.openlog("counterctl", syslog.LOG_PID)
            syslog.syslog(text)

    # files

    def exists(self, name):
        if name in self.pretended:
            return self.pretended[name] is not None
        return os.path.exists(self.path(name))

    def read(self, name):
        return self.octets(name).decode("utf-8")

    def octets(self, name):
        if self.pretended.get(name) is not None:
            return self.pretended[name]
        with open(self.path(name), "rb") as file:
            return file.read()

    def write(self, name, contents, mode=0o644, owner="root", group="root"):
        """Whether the file had to be written: in one step, so that it is there whole or as it was."""
        contents = contents.encode() if isinstance(contents, str) else contents
        if self.exists(name) and self.octets(name) == contents:
            return False
        if self.dry_run:
            self.tell(f"would write {name} (mode {mode:o}, {owner}:{group})")
            self.pretended[name] = contents
            return True
        self.log(f"writes {name}")
        path = self.path(name)
        os.makedirs(os.path.dirname(path), exist_ok=True)
        handle, new = tempfile.mkstemp(dir=os.path.dirname(path), prefix=".counterctl-")
        with os.fdopen(handle, "wb") as file:
            file.write(contents)
            os.fchmod(file.fileno(), mode)
            self.give(file.fileno(), owner, group)
            file.flush()
            os.fsync(file.fileno())
        os.rename(new, path)
        self.sync(os.path.dirname(path))
        return True

    def give(self, file, owner, group):
        if self.root == "/":
            os.chown(file, pwd.getpwnam(owner).pw_uid, grp.getgrnam(group).gr_gid)

    def sync(self, folder):
        handle = os.open(folder, os.O_RDONLY)
        os.fsync(handle)
        os.close(handle)

    def folder(self, name, mode=0o755, owner="root", group="root"):
        if self.exists(name):
            return
        if self.dry_run:
            self.tell(f"would make the folder {name} (mode {mode:o}, {owner}:{group})")
            self.pretended[name] = b""
            return
        os.makedirs(self.path(name), exist_ok=True)
        os.chmod(self.path(name), mode)
        self.give(self.path(name), owner, group)

    def move(self, old, new):
        """Moves a file or folder to a name that nothing has."""
        if self.exists(new):
            raise Refused(f"{new} is there already", f"look what it is, and move it away; {old} stays where it is")
        if self.dry_run:
            self.tell(f"would move {old} to {new}")
            self.pretended[new] = self.octets(old) if os.path.isfile(self.path(old)) else b""
            self.pretended[old] = None
            return
        self.log(f"moves {old} to {new}")
        os.makedirs(os.path.dirname(self.path(new)), exist_ok=True)
        try:
            os.rename(self.path(old), self.path(new))
        except OSError:
            # to another disk
            shutil.move(self.path(old), self.path(new))
        self.sync(os.path.dirname(self.path(new)))

    def copy(self, old, new, owner="root"):
        """A copy that is on the disk before it has its name."""
        if self.dry_run:
            self.tell(f"would copy {old} to {new}")
            self.pretended[new] = b""
            return
        self.log(f"copies {old} to {new}")
        part = f"{self.path(new)}.part"
        shutil.copyfile(self.path(old), part)
        os.chmod(part, 0o600)
        self.give(part, owner, owner)
        with open(part, "rb") as file:
            os.fsync(file.fileno())
        os.rename(part, self.path(new))
        self.sync(os.path.dirname(self.path(new)))

    def remove(self, name):
        if not self.exists(name):
            return
        if self.dry_run:
            self.tell(f"would remove {name}")
            self.pretended[name] = None
            return
        self.log(f"removes {name}")
        os.remove(self.path(name))

    # commands

    def ask(self, *words, text=None, secrets=None):
        """Status, and what the command writes to both ends; it changes nothing."""
        environment = {**os.environ, "LC_ALL": "C", **(secrets or {})}
        given = {"stdin": subprocess.DEVNULL} if text is None else {"input": text}
        try:
            done = subprocess.run(words, capture_output=True, env=environment, **given)
        except FileNotFoundError:
            return 127, b"", f"there is no command {words[0]}".encode()
        return done.returncode, done.stdout, done.stderr

    def tells(self, *words, **how):
        """What the command writes, as text; nothing if it fails."""
        status, written, _ = self.ask(*words, **how)
        return written.decode(errors="replace").strip() if status == 0 else ""

    def run(self, *words, text=None, secrets=None, instead=None):
        """What a command writes that changes the machine. Secrets are variables of its environment alone."""
        line = shlex.join(words)
        if self.dry_run:
            self.tell(f"would run {line}")
            return b""
        self.log(f"runs {line}")
        status, written, errors = self.ask(*words, text=text, secrets=secrets)
        if status != 0:
            told = (errors or written).decode(errors="replace").strip()
            raise Refused(f"`{line}` fails: {told}", instead or "see to what it tells, and give the task again")
        return written

    def needs(self, commands):
        """Refuses if a command is missing, and names the package that has it."""
        missing = sorted({package for name, package in commands.items() if not shutil.which(name)})
        if missing:
            raise Refused(f"this needs {', '.join(missing)}", f"apt-get install {' '.join(missing)}")
