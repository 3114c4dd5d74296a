"""What a stop at any call of the disk may leave of the files that a program writes, by the record that the library
`recorded_disk` keeps of these calls."""

import hashlib
import itertools
import os


class Calls(list):
    """The calls of a record, one after the other: what is done, to which path or socket, and with what."""

    def __init__(self, path):
        super().__init__()
        with open(path, "rb") as file:
            octets = file.read()
        at = 0
        while at < len(octets):
            end = octets.index(b"\n", at)
            word, *numbers = octets[at:end].decode().split(" ")
            at = end + 1
            name = numbers.pop()
            if word in ("write", "send"):
                count = int(numbers.pop())
                numbers.append(octets[at : at + count])
                at += count
            self.append((word, name, [int(each) if isinstance(each, str) else each for each in numbers]))


def changed(octets, change, part=1):
    """What a file holds after a call that writes its octets, or the first part of them, or sets its length."""
    if len(change) == 1:
        return octets[: change[0]].ljust(change[0], b"\0")
    at, written = change
    written = written[: len(written) // part]
    return octets[:at].ljust(at, b"\0") + written + octets[at + len(written) :]


class File:
    """A file: what it held when it was last on the disk, the calls since, and whether its name is there for good."""

    def __init__(self, octets, is_named):
        self.synced, self.since, self.is_named = octets, [], is_named

    def after(self, changes, part=1):
        octets = self.synced
        for change in changes:
            octets = changed(octets, change, part)
        return octets

    def octets(self):
        return self.after(self.since)

    def sync(self):
        self.synced, self.since = self.octets(), []

    def left(self):
        """What a stop may leave: all that was written, nothing that isn't on the disk, the first half of each write,
        one of them alone, or all but one; and no file where its folder isn't on the disk."""
        places = range(len(self.since))
        found = [self.octets(), self.synced, self.after(self.since, 2)]
        found += [self.after([self.since[at]]) for at in places]
        found += [self.after([self.since[other] for other in places if other != at]) for at in places]
        return {octets: None for octets in found + [None] * (not self.is_named)}


class Disk:
    """The files of a folder by their names, as a record's calls change them."""

    def __init__(self, folder, contents):
        self.folder, self.files = folder, {name: File(octets, True) for name, octets in contents.items()}

    def do(self, call):
        word, path, change = call
        name = os.path.basename(path)
        if word == "make":
            self.files[name] = File(b"", False)
        elif word == "sync" and path == self.folder:
            for file in self.files.values():
                file.is_named = True
        elif word == "sync":
            self.files[name].sync()
        else:
            self.files[name].since.append(change)

    def whole(self):
        return {name: file.octets() for name, file in self.files.items()}

    def left(self):
        """What a stop here may leave, each as the octets of the files that are there by name."""
        for contents in itertools.product(*(file.left() for file in self.files.values())):
            yield {name: octets for name, octets in zip(self.files, contents) if octets is not None}


def left_by_stops(disk, calls):
    """What stops may leave, each once: before the first call, and after each."""
    seen = set()
    for call in (None, *calls):
        if call:
            disk.do(call)
        for files in disk.left():
            mark = tuple((name, hashlib.sha256(octets).digest()) for name, octets in sorted(files.items()))
            if mark not in seen:
                seen.add(mark)
                yield files


def put(folder, files):
    """Writes the files into a folder."""
    for name, octets in files.items():
        with open(os.path.join(folder, name), "wb") as file:
            file.write(octets)
