"""Scenarios of `crates/player/data/scenarios`: played with memory and with growths refused, and what answers tell."""

import os

from modules.programs import CRATES, played, played_refused

DATA = os.path.join(CRATES, "player", "data", "scenarios")
DIGEST = "ba7816bf8f01cfea414140de5dae2223b00361a396177a9cb410ff61f20015ad"
COLUMNS = r"serial,genTime,account,policy,algorithm,digest,state,token\n"
STAMP = "1,19700101000000Z,{},2.999.1,2.16.840.1.101.3.4.2.1," + DIGEST
VOID = COLUMNS + STAMP.format("guest") + r",void,\n"
# the texts that have names
TEXTS = {"NOTHING": "", "COLUMNS": COLUMNS, "VOID_1": VOID}
RULE_12 = ("reply RULE_12",)
# an answer, whatever of the request wasn't read
UNAVAILABLE = (
    "Answered(503)",
    r"head HTTP/1.1 503 Service Unavailable\r\nContent-Type: text/plain\r\nContent-Length: 16\r\n"
    r"Connection: close\r\n\r\n",
    r"body 503 Unavailable\n",
)


def scenarios_of(name):
    """The scenarios of a file, each as its lines."""
    with open(os.path.join(DATA, name), encoding="utf-8") as file:
        blocks = file.read().rstrip("\n").split("\n\n")
    return [block.split("\n") for block in blocks if block.startswith("# ")]


def scenario(title):
    """The lines of a scenario, by its title."""
    for name in sorted(os.listdir(DATA)):
        for lines in scenarios_of(name):
            if lines[0] == f"# {title}":
                return lines
    raise ValueError(f"no scenario {title}")


def octets_for(lines, names):
    """The lines of files that name octets, but for long ones that these lines don't name."""
    words = set(" ".join(lines).split())
    kept = []
    for name in names:
        with open(os.path.join(DATA, name), encoding="utf-8") as file:
            for line in file.read().split("\n\n")[0].splitlines():
                is_named = line.startswith("octets ")
                if not is_named or "*" not in line or words & set(line.split()):
                    kept.append(line)
    return kept


def answers_of(told):
    return [tuple(answers) for _, *answers in told]


class Player:
    """Plays one scenario after the other, in a folder of its own, with the octets that some files name."""

    def __init__(self, program, library, folder, names=("octets.txt",)):
        self.words, self.library, self.names, self.whole = [program, "scenarios"], library, names, {}
        self.path = os.path.join(folder, "scenario.txt")

    def text(self, lines):
        return "\n".join([*octets_for(lines, self.names), "", *lines, ""])

    def play(self, lines):
        """What each line tells with memory; it is played once."""
        key = "\n".join(lines)
        if key not in self.whole:
            self.whole[key] = answers_of(played(self.words, self.text(lines), self.path))
        return self.whole[key]

    def play_refused(self, lines, which="one", numbers=None):
        """By number, what each line tells with that growth refused, or all from it on; of all growths, or of those
        between the least and the greatest of some numbers."""
        only = {"REFUSED_FROM": str(min(numbers)), "REFUSED_TO": str(max(numbers))} if numbers else {}
        with_memory, refused = played_refused(self.words, self.text(lines), self.path, self.library, which, **only)
        if answers_of(with_memory) != self.play(lines):
            raise RuntimeError(f"the library changes what is told: {with_memory}")
        return {number: answers_of(told) for number, told in refused.items()}


def written(answer, word):
    """The octets that a line tells, as they are escaped."""
    text = next(line for line in answer if line.startswith(word)).removeprefix(word).removeprefix(" ")
    return TEXTS.get(text, text)


def without_unread(answer):
    """What is answered over HTTP, whatever of the request wasn't read."""
    return tuple(line for line in answer if not line.startswith("unread "))


def is_unavailable(answer):
    """Whether it is 503, which may come before the request was read."""
    return without_unread(answer) == UNAVAILABLE


def is_begun(answer, whole_text):
    """Whether only the beginning of an answer was written, which is told so."""
    text = written(answer, "head") + written(answer, "body")
    sent = len(text.replace(r"\r", "r").replace(r"\n", "n"))
    is_told = answer[0] == f"WriteFailed {{ status: 200, sent: {sent} }}"
    return is_told and text != whole_text and whole_text.startswith(text)


def reply(name, octets):
    """The answer over HTTP that has a reply of so many octets."""
    head = f"HTTP/1.1 200 OK|Content-Type: application/timestamp-reply|Content-Length: {octets}|Connection: close||"
    return "Answered(200)", "unread 0", "head " + head.replace("|", r"\r\n"), f"body {name}"
