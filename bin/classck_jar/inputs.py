"""The jars and folders that are judged."""
import hashlib
import io
import os
import shutil
import stat
import sys

from jars import MOST_NESTED, Jar, Tree
from output import Refused

from classck_jar.command import STANDARD_INPUT

# The classes of a jar are kept if it has at most so many bytes, and they so many, and their file system four times the room; and if there are so many
# at most, since their paths stand on one command line.
MOST_PACKED, MOST_KEPT, MOST_COUNT = 1 << 26, 1 << 28, 10_000
# The line of a class that was not kept as the jar has it.
OTHER = b"\n"


class KeptJar(Jar):
    """A jar whose classes are kept in a folder of the cache, in which each is compared with what the jar has."""

    def __init__(self, classes, *words):
        self.classes = classes
        super().__init__(*words)

    def folder(self, _, count):
        if self.size > MOST_KEPT or count > MOST_COUNT or shutil.disk_usage(self.classes.path).free < 4 * self.size:
            raise Refused("there is no room to keep its classes")
        return self.classes.path

    def write(self, path, data):
        return (OTHER,) if self.classes.put(path, data) else ()

    def find(self, lines):
        super().find(it for it in lines if not self.is_other(it))

    def is_other(self, line):
        """Whether a line tells of a class that was not kept as the jar has it."""
        self.classes.is_changed |= line == OTHER
        return line == OTHER


def whole(path):
    """The bytes of a jar whose classes may be kept; none of another."""
    try:
        if stat.S_ISREG(os.stat(path).st_mode):
            with open(path, "rb", buffering=0) as it:
                data = it.read(MOST_PACKED + 1)
                return data if len(data) <= MOST_PACKED else b""
    except OSError:
        pass
    return b""


def from_standard_input(most):
    """The bytes of a jar on standard input, at most so many."""
    if sys.stdin is None:
        raise Refused("there is no standard input")
    data = sys.stdin.buffer.read(most + 1)
    if len(data) > most:
        raise Refused(f"standard input has more than {most} bytes")
    return io.BytesIO(data)


class Inputs:
    """Unpacks the classes of jars and folders, at most so many bytes of all. `room` removes the files that are not kept."""

    def __init__(self, gate, known):
        self.room, self.ahead, self.release, self.known = gate.room, gate.ahead, gate.profile.release, known
        self.most = self.left = gate.given.most_bytes
        self.found, self.above = [], 0

    def unpack(self, words, is_nested):
        """The classes of the jars and folders of these words, and with them those of the jars within."""
        for word in words:
            judged = self.judged(word, f"{word}!" if len(words) > 1 else "")
            self.add(judged)
            for it in judged.within(self.room, self.left) if is_nested else ():
                self.add(it)
        return self.found

    def judged(self, word, outer):
        if word == STANDARD_INPUT:
            return Jar(word, from_standard_input(min(MOST_NESTED, self.most)), self.room, self.known, outer, self.left)
        if os.path.isdir(word):
            return Tree(word, self.room, self.known, outer, self.left)
        return self.jar(word, outer)

    def jar(self, word, outer):
        """A jar, whose classes are kept where that is possible."""
        data = whole(word) if self.ahead.path else b""
        kept = self.ahead.folder(data and f"judged-{hashlib.sha256(data).hexdigest()}", self.room)
        if kept:
            try:
                # Of these bytes is the sum, whatever becomes of the file.
                return KeptJar(kept, word, io.BytesIO(data), self.room, self.known, outer, self.left)
            except Refused:
                # Where it is the jar that is at fault, the way without a cache says so.
                self.ahead.forget()
        return Jar(word, word, self.room, self.known, outer, self.left)

    def add(self, judged):
        self.left -= judged.size
        self.above += judged.leave_out_above(self.release) if self.release else 0
        self.found.append(judged)


    def lines(self, is_nested):
        """Lines on all that is left out."""
        nested = left_out(self.found, is_nested)
        above = f"{self.above} classes are of versions that Java SE {self.release} does not look for" if self.above else ""
        return [it for it in (nested, above) if it]


def left_out(judged, is_nested):
    """How many jars within are not judged, as a line; or nothing."""
    number = sum(len(it.nested) for it in judged if it.is_within or not is_nested)
    if not number:
        return ""
    return f"{number} jars within those are not judged" if is_nested else f"{number} jars within are not judged: --nested judges them"
