"""The commands of a page and what they have to write: blocks of `sh`, and behind some a block of `text`, in which `..`
stands for whatever a line has there, and by itself for lines."""

import os
import re

from modules.programs import ROOT

BLOCK = re.compile(r"^```(sh|text)\n(.*?)^```$", re.M | re.S)
MARK = "--- block {} ---"
# what chronyd says of a clock that is kept, which was measured in the last second
OTHERS = "-0.000001619,-0.000000023,0.0,-0.1,-0.001,0.1,0.00001,0.000002,0.3,Normal"
CHRONYC = f"#!/bin/sh\necho 7F000001,127.0.0.1,2,$(date +%s).0,{OTHERS}\n"


def blocks(name, root=ROOT):
    """The commands of each block, and what has to be written there; none where the page doesn't show it."""
    with open(os.path.join(root, "docs", name), encoding="utf-8") as file:
        found = BLOCK.findall(file.read())
    for number, (kind, text) in enumerate(found):
        if kind == "sh":
            shown = found[number + 1][1] if found[number + 1 : number + 2] and found[number + 1][0] == "text" else None
            yield text, shown


def script(found, first=0):
    """What bash runs for these blocks: it marks where each begins to write."""
    return "".join(f"echo '{MARK.format(number)}'\n{commands}" for number, (commands, _) in enumerate(found, first))


def alike(text):
    """The text without what differs from run to run: times, hashes of tokens, lengths of three digits and more, sizes
    of databases, and the commit."""
    text = re.sub(r"\b\d{14}(\.\d{1,6})?Z", "TIME", text.replace("\r", ""))
    text = re.sub(r"^(calibration-(age|left)-us) \d+$", r"\1 SPAN", text, flags=re.M)
    text = re.sub(r"^(database-octets) \d+$", r"\1 OCTETS", text, flags=re.M)
    text = re.sub(r"\((unknown commit|commit [0-9a-f]{7})\)$", "(COMMIT)", text, flags=re.M)
    text = re.sub(r"(?<=sealed,)[0-9a-f]{64}$", "TOKEN", text, flags=re.M)
    return re.sub(r"^(Content-Length: )\d{3,}$", r"\1LENGTH", text, flags=re.M)


def is_shown(text, shown):
    """Whether a page shows what was written."""
    parts = [r"(?:.*\n)*" if line == "..\n" else ".*".join(map(re.escape, line.split(".."))) for line in shown]
    return re.fullmatch("".join(parts), text) is not None


def compare(name, found, said, wrong):
    """What the blocks wrote beside what the page shows."""
    written = re.split(r"^--- block \d+ ---\n", said, flags=re.M)[1:]
    wrong.unless(f"{name}: blocks", len(written), len(found))
    for (commands, shown), text in zip(found, written):
        text, shown = alike(text), alike(shown or "")
        wrong.unless(f"{name}: {commands}", text, text if is_shown(text, shown.splitlines(True)) else shown)
