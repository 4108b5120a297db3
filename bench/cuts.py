"""The files of a folder as a disk may have them behind a cut of the power, by what cuts.c has written down.

What was written before a sync that is done is on the disk. Of what was written to a file since, the disk has all, nothing or some of
it: then each piece of 512 or of 4,096 bytes is as it was behind one of the writes that touched it, or before them, whatever the others
are; so a write may be there in part, and a later one without an earlier one. The length of the file is that behind one of the changes
since, and what is within it and wasn't written is zeros; what a length cut off that the disk hasn't is still there. A file that was
made is there, or isn't, until a sync of the folder is done. Of what a failed sync was to bring the same holds, once and for all:
no later sync brings it."""

import collections
import os
import struct

RECORD = struct.Struct("=IIQQ")
# What cuts.c wrote of one thing, with the place of its bytes in the log.
Record = collections.namedtuple("Record", "kind file place first size")
PIECES, SHARES = (512, 4096), (0.1, 0.5, 0.9)


class Log:
    """What was written down of a program over a folder, which had these files before, by their names."""

    def __init__(self, name, folder, before):
        with open(name, "rb") as it:
            self.bytes = it.read()
        self.before, self.records, self.names, at = before, [], {}, 0
        while at + RECORD.size <= len(self.bytes):
            kind, file, place, size = RECORD.unpack_from(self.bytes, at)
            at += RECORD.size + size
            if at <= len(self.bytes):
                self.records.append(Record(chr(kind), file, place, at - size, size))
        for it in self.records:
            if it.kind == "O":
                self.names[it.file] = os.path.relpath(self.bytes_of(it).decode(), folder)

    def bytes_of(self, record):
        return self.bytes[record.first : record.first + record.size]

    def places(self, kinds, name=None):
        """Behind which records of these kinds, of this file, a cut may come."""
        return [at + 1 for at, it in enumerate(self.records) if it.kind in kinds and (name is None or self.names[it.file] == name)]

    def opened(self, file):
        name = self.names[file]
        return File(self, name in self.before, self.before.get(name, b""))

    def behind(self, cut, draw):
        """The files that a disk has behind so many records, as they are drawn; all of what was written where nothing draws."""
        files, begun = {}, {}
        for at, it in enumerate(self.records[:cut]):
            if it.kind == "O":
                files[it.file] = self.opened(it.file)
            elif it.kind in "WT":
                files[it.file].changes.append((at, it))
            elif it.kind == "S":
                begun[it.place] = at
            elif it.kind in "EF":
                sync(self, files, it, begun[it.place], draw if it.kind == "F" else None)
        return self.before | {self.names[file]: bytes(it.content) for file, it in files.items() if self.names[file] != "." and it.is_left(draw)}


class File:
    """A file: whether its folder has it, what the disk has of it, and its changes since, each behind its place in the log."""

    def __init__(self, log, is_there, content):
        self.log, self.is_there, self.content, self.changes = log, is_there, bytearray(content), []

    def is_left(self, draw):
        """Cuts the power; whether the file is there then."""
        self.take(self.changes, draw)
        return self.is_there or draw is None or draw.random() < 0.5

    def take(self, changes, draw):
        """Has the disk take of these changes what is drawn, all where nothing draws."""
        how = draw.choice(("all", "nothing", "some", "some")) if draw else "all"
        if how == "all":
            for _, it in changes:
                self.write(it, it.place, it.place + it.size) if it.kind == "W" else self.cut(it.place)
        elif how == "some":
            self.take_some([it for _, it in changes], draw, draw.choice(PIECES), draw.choice(SHARES))

    def write(self, it, first, end):
        """Writes the bytes of a change that stand at these places."""
        self.content.extend(bytes(max(0, end - len(self.content))))
        at = it.first - it.place
        self.content[first:end] = self.log.bytes[first + at : end + at]

    def cut(self, length):
        del self.content[length:]
        self.content.extend(bytes(length - len(self.content)))

    def take_some(self, changes, draw, piece, share):
        """Of the changes of the length the first ones, and of each piece the first writes."""
        kept = first_of(len(changes), draw, share)
        length, cuts = len(self.content), []
        for number, it in enumerate(changes):
            if it.kind == "T":
                cuts.append((number, it.place))
            if number < kept:
                length = max(length, it.place + it.size) if it.kind == "W" else it.place
                if it.kind == "T":
                    self.cut(it.place)
        for at, numbers in sorted(touched(changes, piece).items()):
            first = max((number for number, length in cuts if number < kept and length <= at), default=-1)
            end = min((number for number, length in cuts if number >= kept and length <= at), default=len(changes))
            numbers = [it for it in numbers if it < end]
            for number in numbers[: first_of(len(numbers), draw, share)]:
                it = changes[number]
                if number > first:
                    self.write(it, max(at, it.place), min(at + piece, it.place + it.size))
        self.cut(length)


def touched(changes, piece):
    """The pieces of a file that these changes write to, by where they begin, with the changes' numbers."""
    found = {}
    for number, it in enumerate(changes):
        if it.kind == "W":
            for at in range(it.place - it.place % piece, it.place + it.size, piece):
                found.setdefault(at, []).append(number)
    return found


def first_of(count, draw, share):
    """How many of so many the disk has: all of them at this share, else fewer."""
    return count if count == 0 or draw.random() < share else draw.randrange(count)


def sync(log, files, record, begun, draw):
    """Has the disk take what was written before a sync, which began there, all of it or as it is drawn."""
    file = files[record.file]
    if log.names[record.file] == "." and draw is None:
        for at, it in enumerate(log.records[:begun]):
            if it.kind == "O":
                files[it.file].is_there = True
    file.take([it for it in file.changes if it[0] < begun], draw)
    file.changes = [it for it in file.changes if it[0] > begun]
