"""The edits of a crate, in must-fail/ and edits/: the functions that each turns, and whether the prover refuses these.

`rt ci` takes an edit for refused where one of its functions is. A proof rests on the contracts of what its function
calls and not on their bodies, so here many functions are turned in one check, which tells of each. What an edit is, and
when a check has reached the prover, is as the toolchain's `rt` has it.
"""

import dataclasses
import os
import re
import shutil
import subprocess
import sys
import tempfile
import time

from modules.toolchain import is_left_by_gate, is_usable, rt

FOLDERS = ("must-fail", "edits")
FUNCTION = re.compile(r"^([ \t]*)(?:pub(?:\([a-z ]+\))?\s+)?(?:const\s+|final\s+)?fn\s+(\w+)")
BLOCK = re.compile(r"^(?:impl|(?:pub(?:\([a-z ]+\))?\s+)?trait)\b")
VERDICT = re.compile(r"^(?:fn|impl|struct|enum|trait) (\S+): ")
# what the prover says against a place in a file, and no advice
PLACE = re.compile(r"(?:note: )?(?:\./)?([\w+/]+\.(?:rt|antt)):\d+:\d+: (?!note)")
# what a proof file says where it names a thing that the edit took away, which says little of the contract
NAMES = re.compile(r"has no field|is not in scope|has no `|was not admitted|which was rejected")
SAYS_LITTLE = "only since a proof file names what the edit took away: "
LONGEST_LINE = 116


class TimeUp(Exception):
    """There is no time left for a check."""


def edits_of(folder):
    """The edits of the crate in this folder, by their paths in it."""
    found = [part for part in FOLDERS if os.path.isdir(os.path.join(folder, part))]
    paths = [f"{part}/{name}" for part in found for name in os.listdir(os.path.join(folder, part))]
    return sorted(path for path in paths if path.endswith(".edit"))


@dataclasses.dataclass
class Turned:
    """A function with the lines that one edit turns in it; with no name, lines outside of functions."""

    edit: str
    path: str
    name: str = ""
    block: str = ""
    lines: dict = dataclasses.field(default_factory=dict)
    # what is wrong with the edit
    why: str = ""

    def place(self):
        return self.path, self.name, self.block

    def is_told_as(self, function):
        """Whether a check tells of it by this path: below its module, or below its type, which may stand elsewhere."""
        if not self.name:
            return True
        parts = function.split("::")[1:]
        if not self.block:
            return parts == [*module_of(self.path), self.name]
        trait, *kind = [word.split("::")[-1] for word in self.block.split(" for ")]
        if len(parts) < 2 or parts[-1] != self.name:
            return False
        # of a type with parameters that the block gives, the path has these behind its name
        return parts[-2].startswith(kind[0] + trait) if kind else parts[-2].partition("+")[0] == trait

    def __str__(self):
        return f"{self.edit}: {self.path}{', ' if self.name else ''}{self.name}"


@dataclasses.dataclass
class Refusal:
    """What a check says of a turned function: whether it is refused, as which function it is told of, what tells most
    against it, and whether that is only that another one isn't proved, which it calls."""

    turned: Turned
    is_refused: bool
    function: str
    line: str
    waits: bool = False

    def __str__(self):
        return f"{self.turned.edit} {self.function}\n  {self.line}"


def module_of(path):
    inside = path.removeprefix("src/").removesuffix(".rt")
    return [] if inside in ("lib", "main") else inside.removesuffix("/mod").split("/")


def block_at(lines, head):
    """The impl block that begins with this line, without parameters: its type, or `TRAIT for TYPE`; or the trait."""
    whole = " ".join(line.strip() for line in lines[head:])
    text = BLOCK.sub("", whole.partition("{")[0].partition(" where ")[0])
    if "trait" in BLOCK.match(whole)[0]:
        text = text.partition(":")[0]
    while (shorter := re.sub(r"<[^<>]*>", "", text)) != text:
        text = shorter
    return text.strip()


def place_of(lines, at):
    """The function that the line is in, and the impl block or the trait around it; both are empty outside of one."""
    for number in range(at, -1, -1):
        found = FUNCTION.match(lines[number])
        if found:
            if found[1] + "}" in lines[number:at]:
                return "", ""
            heads = [head for head in range(number) if BLOCK.match(lines[head])] if found[1] else []
            return found[2], block_at(lines, heads[-1]) if heads else ""
    return "", ""


def read(path):
    with open(path, encoding="utf-8") as file:
        return file.read()


def functions_of(folder):
    """Each function that an edit of the crate in this folder turns."""
    found = []
    for edit in edits_of(folder):
        texts, why = rt.read_edit(os.path.join(folder, edit), folder)
        if why:
            found.append(Turned(edit, "", why=why))
        for path, text in (texts or {}).items():
            before, places = read(os.path.join(folder, path)).split("\n"), {}
            for at, (one, other) in enumerate(zip(before, text.split("\n"))):
                if one != other:
                    places.setdefault(place_of(before, at), {})[at] = other
            found += [Turned(edit, path, *place, lines) for place, lines in places.items()]
    return found


def round_of(turned):
    """Those that one check can take, each function once, and the others; lines outside of functions by themselves."""
    taken, places, others = [], set(), []
    for it in turned:
        if it.place() in places or not it.name:
            others.append(it)
        else:
            places.add(it.place())
            taken.append(it)
    return (taken, others) if taken else (turned[:1], turned[1:])


def has_verdict(status, said, texts):
    """Whether a check got as far as the proofs."""
    ends = re.search(r"^(logic=(not-)?proved|only=\d+ proved=\d+)[^\n]*\s*\Z", said, re.M)
    is_read = not any(rt.unread(line, texts) for line in said.split("\n"))
    return status in (0, 1) and ends is not None and is_read and not rt.rtlib.STALE.search(said)


def located(said, function):
    """The lines of a check at places of this function: in its proof files, and, above its verdict, in its source."""
    *inside, name = function.split("::")[1:]
    proofs = "/".join(["proofs", *inside, name]) + "/", "/".join(["proofs", *inside, f"+{name}"]) + "/"
    found, above = [], []
    for line in said.split("\n"):
        place, verdict = PLACE.match(line), VERDICT.match(line)
        if place and place[1].startswith(proofs):
            found.append(line)
        elif place and place[1].startswith("src/"):
            above.append(line)
        elif verdict:
            found += above if verdict[1] == function else []
            above = []
    return [line.removeprefix("note: ").removeprefix("./") for line in found]


def said_against(said, function):
    """What a check says against this function, without words on the search: first what tells most, last the verdict."""
    lines = [line.split("; ")[0] if line.startswith("src/") else line for line in located(said, function)]
    naming = [line for line in lines if line.startswith("proofs/") and NAMES.search(line)]
    telling = [line for line in lines if line not in naming]
    verdicts = [line for line in said.split("\n") if line.startswith(f"fn {function}: ")]
    return [line[:LONGEST_LINE].rstrip() for line in [*telling, *(SAYS_LITTLE + line for line in naming), *verdicts]]


def told_of(turned, said):
    """What a check says of a function that it had turned."""
    told = [it for it in re.findall(r"^fn (\S+): (.*)$", said, re.M) if turned.is_told_as(it[0])]
    refused = [it for it in told if not it[1].startswith(("proved", "could not tell"))]
    # first those that don't wait for others
    for function, verdict in sorted(refused, key=lambda it: "it calls" in it[1])[:1]:
        line = said_against(said, function)[0]
        waits = "it calls" in verdict and line.startswith((SAYS_LITTLE, "fn "))
        return Refusal(turned, not waits, function, line, waits)
    why = "it is still proved" if told else "a check tells nothing of it"
    return Refusal(turned, False, turned.name, f"NOT REFUSED: {why}")


def make_libraries(crates):
    """Proves and builds the libraries below these crates that aren't yet."""
    for below in {it.name: it for crate in crates for it in crate.below()}.values():
        if not is_usable(below) and not is_left_by_gate(below):
            print(f"{below.name}: its library is proved and built", flush=True)
            with open(os.devnull, "w", encoding="utf-8") as below.out:
                if below.build_rlib(["--jobs", "1"], anew=False):
                    sys.exit(f"{below.name} isn't proved: rt check tells why")
            if not all(it.is_built() for it in below.below()):
                # The toolchain takes a stamp for one over libraries that have stamps.
                os.remove(os.path.join(os.path.dirname(below.rlib), "stamp"))


class Trial:
    """Checks of a copy of a crate, the first from nothing, the others over what those before kept, until a moment of
    `time.monotonic` where one is given."""

    def __init__(self, crate, room, deadline=None):
        if deadline and time.monotonic() >= deadline:
            raise TimeUp
        self.crate, self.room, self.deadline = crate, room, deadline
        self.kept = os.path.join(room, "kept")
        os.mkdir(self.kept)

    def begin_with_kept(self):
        """Has the first check too begin with what checks on this machine kept."""
        kept = os.path.join(self.crate.folder, "out", "incremental")
        if os.path.isdir(kept):
            shutil.copytree(kept, self.kept, dirs_exist_ok=True)
        return self

    def check(self, taken, *flags):
        """The status and the output of a check with these functions turned, and the texts of their files."""
        texts = {it.path: read(os.path.join(self.crate.folder, it.path)).split("\n") for it in taken}
        for it in taken:
            for at, line in it.lines.items():
                texts[it.path][at] = line
        with tempfile.TemporaryDirectory(dir=self.room) as copy:
            for part in rt.rtlib.PARTS:
                if os.path.isdir(os.path.join(self.crate.folder, part)):
                    shutil.copytree(os.path.join(self.crate.folder, part), os.path.join(copy, part))
            for path, lines in texts.items():
                with open(os.path.join(copy, path), "w", encoding="utf-8") as file:
                    file.write("\n".join(lines))
            status, said = self.run(copy, ["--jobs", "1", *flags])
        return status, said, texts

    def run(self, copy, flags):
        words = [*rt.rtlib.guarded(), rt.rtlib.RATTLE, "check", *self.crate.words(flags, keeps=False)]
        how = {"cwd": copy, "stdin": subprocess.DEVNULL, "stdout": subprocess.PIPE, "stderr": subprocess.STDOUT}
        how |= {"timeout": max(self.deadline - time.monotonic(), 0) if self.deadline else None}
        try:
            done = subprocess.run([*words, "--incremental", self.kept], text=True, errors="replace", check=False, **how)
        except subprocess.TimeoutExpired as stopped:
            raise TimeUp from stopped
        return done.returncode, done.stdout

    def is_proved(self):
        """Whether the crate is proved with no edit."""
        return self.check([])[0] == 0

    def refusals(self, turned):
        """What checks say of each of these functions."""
        found = [Refusal(it, False, it.path, f"BAD EDIT: {it.why}") for it in turned if it.why]
        left = [[it for it in turned if not it.why]]
        while left:
            taken, others = round_of(left.pop())
            told, again = self.told(taken)
            found += told
            left = [it for it in [*left, *again, others] if it]
        return found

    def told(self, taken):
        """What one check says of these functions, and those of which it says nothing, to be turned again."""
        status, said, texts = self.check(taken)
        halves = [taken[: len(taken) // 2], taken[len(taken) // 2 :]]
        if not has_verdict(status, said, texts):
            if len(taken) > 1:
                return [], halves
            line = next((line for line in said.split("\n") if "error" in line), said.strip())
            return [Refusal(taken[0], False, taken[0].name, f"BAD EDIT: no proof was tried: {line[:LONGEST_LINE]}")], []
        told = [told_of(it, said) for it in taken]
        waiting = [it.turned for it in told if it.waits]
        if waiting == taken:
            return (told, []) if len(taken) == 1 else ([], halves)
        return [it for it in told if not it.waits], [waiting]
