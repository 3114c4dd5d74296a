"""From the promises to the definitions: the lists of docs/clauses.md, with the files and numbers that the sources give.

An item names calls and laws, with their clauses, and some of the words that these lead to. In which files of the crate
they stand, and how many definitions all clauses of a promise lead to, is looked up.
"""

import collections
import glob
import os
import re
import textwrap

ROOT = os.path.dirname(os.path.dirname(os.path.dirname(os.path.realpath(__file__))))
CRATES = os.path.join(ROOT, "crates")
PAGE = os.path.join(ROOT, "docs", "clauses.md")
USE = re.compile(r"^ *(?:pub )?(?:ghost )?use Rattle\.([\w.]+?)(?:\.\{([^}]*)\}| as (\w+)).*$", re.M)
DEFINED = re.compile(
    r"^(?:(?: *(?:abbrev |unfoldable )?(?:mutual )?pub (?:record |data )?| *(?:abbrev|unfoldable|record|data) ))(\w+) "
    r"|^(\w+) :",
    re.M,
)
CONSTRUCTOR = re.compile(r"^ +(\w+) :", re.M)
FIELD = re.compile(r"^ +pub \w+ :")
NAME = re.compile(r"`(\w+)`")
PROMISE = re.compile(r"\*\*(?:Promise )?(.*?)\*\* leads? to \d+ definitions in \d+ files, \d+ of them in its clauses\.$")


def read(path):
    with open(path, encoding="utf-8") as file:
        return file.read()


class Unknown(Exception):
    """A name of the page that no source has."""


class File:
    """A file of definitions: the text of each word, the words by the names of their constructors, and what it uses."""

    def __init__(self, path):
        text = re.sub(r"--.*", "", read(path))
        self.uses = uses_of(text)
        self.texts, self.words, self.public = collections.defaultdict(str), {}, set()
        word, is_record = None, False
        for line in USE.sub("", text).splitlines():
            found = None if is_record and FIELD.match(line) else DEFINED.match(line)
            if found:
                word, is_record = found[1] or found[2], "record " in line
                self.words[word] = word
                if " pub " in f" {line} ":
                    self.public.add(word)
            elif word and CONSTRUCTOR.match(line):
                self.words.setdefault(CONSTRUCTOR.match(line)[1], word)
            if word:
                self.texts[word] += line + "\n"


def imports(text):
    """Of what a text uses of definitions: the file, the word, or none where all of the file has a name, and the name."""
    for module, words, name in USE.findall(text):
        for word in words.split(",") if words else ("",):
            own, _, other = word.strip().partition(" as ")
            below, _, last = own.rpartition(".")
            path = "/".join(filter(None, (module + "." + below).split("."))) + ".antt"
            if re.match(r"\w+/specs/", path) and os.path.exists(os.path.join(CRATES, path)):
                yield path, last or None, name or other or last


def uses_of(text):
    """By each name that a text may have for it: a file and a word of it, or none where all of a file has a name."""
    return {name: (path, word) for path, word, name in imports(text)}


class Definitions:
    """All files of definitions, and what words lead to."""

    def __init__(self):
        paths = glob.glob("*/specs/**/*.antt", root_dir=CRATES, recursive=True)
        self.files = {path: File(os.path.join(CRATES, path)) for path in paths}

    def named_in(self, text, uses, own=None):
        """The words that a text names: each with its file."""
        for name in re.findall(r"\w+(?:\.\w+)?", text):
            first, _, second = name.partition(".")
            path, word = uses.get(first, (own, first))
            if path in self.files:
                file = self.files[path]
                word = file.words.get(word or second)
                if word:
                    yield path, word
                elif (word or first) in file.uses:
                    yield file.uses[word or first]

    def led_to(self, words):
        """The words, and all that their definitions name."""
        found, new = set(), set(words)
        while new:
            found |= new
            new = self.named_by(new) - found
        return found

    def named_by(self, words):
        """What the definitions of these words name."""
        files = self.files
        return {
            other
            for path, word in words
            if word
            for other in self.named_in(files[path].texts[word], files[path].uses, path)
        }

    def file_of(self, word, crate, path):
        """The file of a crate that defines a word: the one that is named, if that does."""
        there = [each for each, file in self.files.items() if each.startswith(f"{crate}/") and word in file.public]
        if path in there or len(there) != 1:
            there = [path] if path in there else []
        if not there:
            raise Unknown(f"no one file in {crate}/specs defines {word}")
        return there[0]


def contracts_of(text, function):
    """Of each function of that name whether it is private, and its clauses: text by name, those without one by ""."""
    found = []
    for head in re.finditer(rf"\b(pub )?fn {function}\b", text):
        # a contract stands between the signature and the line of the body's brace, or the end of a trait's item
        contract = re.split(r"^ *\{|;\n", text[head.end() :], maxsplit=1, flags=re.M)[0]
        clauses = collections.defaultdict(str)
        for clause in re.split(r"\bensures\*? ", contract)[1:]:
            name = re.match(r"(\w+) \{", clause)
            clauses[name[1] if name else ""] += clause
        found.append((head[1] is None, clauses))
    return found


class Sources:
    """The sources of the crates, and the clauses of their functions."""

    def __init__(self):
        paths = glob.glob("*/src/**/*.rt", root_dir=CRATES, recursive=True)
        self.texts = {path: re.sub(r"//.*", "", read(os.path.join(CRATES, path))) for path in paths}

    def found(self, function, clauses, crate):
        """The file of a crate in which a function has these clauses, and their text; all of them if none is named."""
        there = []
        for path, text in self.texts.items():
            for is_private, contract in contracts_of(text, function) if path.startswith(f"{crate}/") else ():
                if any(clause in contract for clause in clauses) or (contract and not clauses):
                    there.append((is_private, path, {name: contract[name] for name in clauses or contract}))
        there.sort(key=lambda it: it[:2])
        if not there or [is_private for is_private, *_ in there].count(there[0][0]) != 1:
            raise Unknown(f"{function} with {clauses or 'a contract'} stands {len(there)} times in {crate}/src")
        return there[0][1:]


class Item:
    """An item of the page: promises, calls with their clauses, and words."""

    def __init__(self, text, promise, sources, definitions):
        also, calls, words = re.fullmatch(r"- (?:also ([\d, ]+): )?(.*) → (.*)", text).groups()
        self.promises, self.also = [promise, *(also.split(", ") if also else [])], also
        self.seeds = set()
        self.calls = self.calls_of(calls, sources, definitions)
        self.words = self.words_of(words, definitions)

    def calls_of(self, text, sources, definitions):
        """The calls, with the files of today."""
        told, crate = [], None
        for part in text.split("; "):
            path, _, rest = part.partition(": ") if "/" in part else ("", "", part)
            crate = path.partition("/")[0] or crate
            names, _, named = rest.partition("`: ")
            functions, clauses = NAME.findall(names + "`"), NAME.findall(named)
            found = [sources.found(function, clauses, crate) for function in functions]
            missing = set(clauses).difference(*([name for name, text in texts.items() if text] for _, texts in found))
            if missing:
                raise Unknown(f"none of {functions} in {crate}/src has the clauses {sorted(missing)}")
            for file, texts in found:
                uses = uses_of(read(os.path.join(CRATES, file)))
                self.seeds |= set(definitions.named_in(" ".join(texts.values()), uses))
            told.append((", ".join(dict.fromkeys(file for file, _ in found)), rest))
        return grouped(told)

    def words_of(self, text, definitions):
        """The words, with the files of today."""
        told = []
        for part in text.split("; "):
            path, _, names = part.rpartition(": ")
            crate = path.partition("/")[0]
            by_file = collections.defaultdict(list)
            for word in NAME.findall(names):
                file = definitions.file_of(word, crate, path)
                by_file[file].append(f"`{word}`")
                self.seeds.add((file, word))
            told += [(file, ", ".join(words)) for file, words in by_file.items()]
        return grouped(told)

    def __str__(self):
        also = f"also {self.also}: " if self.also else ""
        return wrapped(f"- {also}{self.calls} → {self.words}", "  ")


def grouped(parts):
    """Parts behind the file in which they stand, which is named once."""
    told, last = [], None
    for path, text in parts:
        told.append(text if path == last else f"{path}: {text}")
        last = path
    return "; ".join(told)


def wrapped(text, indent=""):
    return textwrap.fill(text, 120, subsequent_indent=indent, break_long_words=False, break_on_hyphens=False)


def by_promise(items):
    """What the clauses and words of each promise name."""
    found = collections.defaultdict(set)
    for item in items:
        for promise in item.promises:
            found[promise] |= item.seeds
    return found


def parts_of(page, definitions):
    """The page in parts: texts, the names of promises, and items."""
    sources, promise = Sources(), None
    for text in re.split(r"\n(?=\n|- )", page):
        line = " ".join(text.split())
        named = PROMISE.fullmatch(line)
        if named:
            promise = named[1]
            yield promise, None
        elif promise and line.startswith("- ") and " → " in line:
            yield text, Item(line, promise, sources, definitions)
        else:
            yield text, None


def renewed():
    """The page, with files and numbers as the sources have them."""
    definitions = Definitions()
    parts = list(parts_of(read(PAGE), definitions))
    named = by_promise(item for _, item in parts if item)
    return "\n".join(str(item) if item else heading(text, named, definitions) for text, item in parts)


def heading(text, named, definitions):
    """A text, or to how many definitions a promise of that name leads."""
    if text not in named:
        return text
    reached = definitions.led_to(named[text])
    files = {path for path, _ in reached}
    name = f"**Promise {text}** leads" if text.isdigit() else f"**{text}** leads"
    told = f"{name} to {len(reached)} definitions in {len(files)} files, {len(named[text])} of them in its clauses."
    return "\n" + wrapped(told)


def renew():
    page = renewed()
    with open(PAGE, "w", encoding="utf-8") as file:
        file.write(page)


def behind(promise):
    """The definitions behind a promise, by file: those that its clauses name first, then those that these name."""
    definitions = Definitions()
    items = [item for _, item in parts_of(read(PAGE), definitions) if item]
    found, new = set(), by_promise(items)[promise]
    while new:
        files = collections.defaultdict(list)
        for path, word in sorted(new):
            files[path].append(word)
        yield dict(files)
        found |= new
        new = definitions.named_by(new) - found
