"""The toolchain's program `rt`, as a module, and which libraries of crates are of their sources."""

import hashlib
import importlib.machinery
import importlib.util
import os
import subprocess
import sys


def toolchain():
    """The toolchain's program `rt`, as a module."""
    try:
        page = subprocess.run(["rt", "doc"], stdout=subprocess.PIPE, check=True, text=True).stdout.strip()
    except FileNotFoundError:
        sys.exit("the toolchain's program rt isn't in PATH")
    loader = importlib.machinery.SourceFileLoader("rt", os.path.join(os.path.dirname(page), "bin", "rt"))
    module = importlib.util.module_from_spec(importlib.util.spec_from_loader("rt", loader))
    sys.dont_write_bytecode = True
    loader.exec_module(module)
    return module


rt = toolchain()


def made_at(crate):
    """When the crate's library was made, in nanoseconds; 0 where there is none."""
    return os.stat(crate.rlib).st_mtime_ns if os.path.isdir(crate.rlib) else 0


def mark_of(crate):
    """What scripts/build writes beside what it makes of a crate: a digest of the crate's sources and of the toolchain,
    and of when the libraries below were made."""
    below = [(it.name, made_at(it)) for it in crate.below()]
    mark = hashlib.sha256(repr((crate.said, below)).encode())
    for path in (os.path.join(rt.rtlib.KIT, "WHAT"), *rt.rtlib.files_of(crate.folder)):
        with open(path, "rb") as file:
            mark.update(repr((path.removeprefix(crate.folder), file.read())).encode())
    return mark.hexdigest()


def is_usable(crate):
    """Whether the crate's library is of its sources, and over the libraries below as they are now, if those are usable:
    by the mark of scripts/build, or by the toolchain's stamp."""
    made, below = made_at(crate), [made_at(it) for it in crate.below()]
    if not made or not all(below):
        return False
    is_marked = rt.rtlib.text_of(os.path.join(os.path.dirname(crate.rlib), "mark")) == mark_of(crate)
    return is_marked or max(below, default=0) <= made and crate.is_built()


def is_left_by_gate(crate):
    """Whether the crate's library is as `rt ci` leaves one: it has neither mark nor stamp, and is younger than all that
    it is made from."""
    sources = [file for it in [*crate.below(), crate] for file in rt.rtlib.files_of(it.folder)]
    made = made_at(crate)
    if not made or {"mark", "stamp"} & {*os.listdir(os.path.dirname(crate.rlib))}:
        return False
    return max(os.stat(file).st_mtime_ns for file in sources) < made
