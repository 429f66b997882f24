"""The classes of folders by their names, and the known classes of the classes of a jar: those of places that these name.

A place has `classes(package)`, the names of the files of that package; `file(package, last)`, the file of one of them, or None; and `beginnings()`, with
which the names of its classes begin.
"""
import os
import re

from output import Refused, escaped, joined, reason

# A class file has 16,777,216 bytes at most, so no more is read of a file than tells that it has more.
MOST = 16777217
# The classes that a class may need without naming them.
UNNAMED = ["java/io/Serializable", *(f"java/lang/{it}" for it in ("Class", "Cloneable", "Object", "String", "Throwable", "invoke/MethodHandle", "invoke/MethodType"))]
# The bytes of each constant with its tag; a text (1) has three, and as many more as its length says.
SIZES = {3: 5, 4: 5, 5: 9, 6: 9, 7: 3, 8: 3, 9: 5, 10: 5, 11: 5, 12: 5, 15: 4, 16: 3, 17: 5, 18: 5, 19: 3, 20: 3}
# The answers on bytes that are no class file.
FAULTS = (IndexError, KeyError, TypeError, UnicodeDecodeError)
# So many patterns are looked for one by one.
MOST_PATTERNS = 16
# The names of packages that are looked for.
NAME = re.compile(r"[\w$]+", re.ASCII)


class Folder:
    """Class files by their names below a folder."""

    def __init__(self, path):
        self.path, self.base = path, os.path.abspath(path)
        try:
            os.scandir(path).close()
        except OSError as why:
            wanted = "a folder with class files by their names, as java/lang/Object.class, is expected"
            raise Refused(f"{escaped(path)}: {reason(why)}: {wanted}") from why

    def find(self, name):
        file = os.path.join(self.path, *name.split("/")) + ".class"
        return file if os.path.isfile(file) else None

    def classes(self, package):
        return {it.name for it in entries(f"{self.base}/{package}")}

    def file(self, package, last):
        return regular(f"{self.base}/{package}/{last}")

    def beginnings(self):
        """The beginnings of the names of its classes: the folders in it, and for one that holds nothing but another folder the path of both."""
        for it in entries(self.path):
            if it.is_dir() and NAME.fullmatch(it.name):
                below = entries(it.path)
                yield f"{it.name}/{below[0].name}" if len(below) == 1 and below[0].is_dir() else it.name


def regular(path):
    """The path, if a regular file is there, or a link to one."""
    return path if os.path.isfile(path) else None


def beginnings_of(packages):
    """The beginnings of the names of classes of these packages: the first part of each, and where few go on from it, and no class stands there, both."""
    found = {}
    for first, _, rest in (it.partition("/") for it in packages if it):
        found.setdefault(first, set()).add(rest.partition("/")[0])
    for first, seconds in found.items():
        if NAME.fullmatch(first):
            is_short = "" in seconds or len(seconds) > 8 or not all(map(NAME.fullmatch, seconds))
            yield from [first] if is_short else [f"{first}/{it}" for it in seconds]


def entries(path):
    """The entries of a folder; none of another file, or of none."""
    try:
        with os.scandir(path) as it:
            return list(it)
    except (OSError, ValueError):
        return []


def contents(file):
    """The bytes of a class file."""
    try:
        with open(file, "rb", buffering=0) as it:
            return it.read(min(os.fstat(it.fileno()).st_size, MOST))
    except OSError as why:
        raise Refused(f"{escaped(file)} cannot be read: {reason(why)}") from why


def constants(data):
    """The places of the constants of a class file by their indices, None for the second index of a long one, and the place after the last."""
    at, number, count = 10, 1, data[8] << 8 | data[9]
    places = [None] * (count + 1)
    while number < count:
        places[number] = at
        tag = data[at]
        if tag == 1:
            at += 3 + (data[at + 1] << 8 | data[at + 2])
        else:
            at += SIZES[tag]
            number += tag in (5, 6)
        number += 1
    return places, at


def text_at(data, at):
    """The text of a constant in modified UTF-8 (JVMS 4.4.7)."""
    text = data[at + 3 : at + 3 + (data[at + 1] << 8 | data[at + 2])]
    if text.isascii():
        return text.decode("ascii")
    return joined(text.replace(b"\xc0\x80", b"\0").decode("utf-8", "surrogatepass"))


def class_names(data):
    """The names of the class and of its superclass in the bytes of a class file; None for what is not there, and where the bytes are no class file."""
    try:
        places, at = constants(data)
        named = [places[data[it] << 8 | data[it + 1]] for it in (at + 2, at + 4)]
        return tuple(text_at(data, places[data[it + 1] << 8 | data[it + 2]]) if it else None for it in named)
    except FAULTS:
        return None, None


def names_in(data):
    """The names of classes that the constants of a class file may hold: each text, and those in it that stand as in a descriptor; none of other bytes."""
    try:
        places, _ = constants(data)
        texts = {text_at(data, at) for at in places if at and data[at] == 1}
    except FAULTS:
        return set()
    return texts | {part.partition("L")[2] for text in texts for part in text.split(";")[:-1]}


class Known:
    """The classes of places: each package is listed once, and `files` has those whose names were added, with the classes above them."""

    def __init__(self, places):
        self.places, self.packages, self.files, self.seen = places, {}, {}, set()
        self.checked = tuple(f"{it.path}/" for it in places if getattr(it, "is_checked", False))
        beginnings = sorted({re.escape(name) for it in places for name in it.beginnings()}, key=len, reverse=True)
        # A pattern that begins with a text is found faster than one of several, where they are few.
        groups = beginnings if len(beginnings) <= MOST_PATTERNS else [f"(?:{'|'.join(beginnings)})"]
        self.patterns = [re.compile(rf"{it}/[\w$/]+".encode(errors="replace")) for it in groups]
        self.add(UNNAMED)

    def find(self, name):
        """The file of the class of this name in the first place that has it, or None."""
        if name in self.files:
            return self.files[name]
        package, _, last = name.rpartition("/")
        places = self.packages.get(package)
        if places is None:
            places = self.packages[package] = [(it, names) for it in self.places if (names := it.classes(package))]
        last += ".class"
        return next((file for it, names in places if last in names and (file := it.file(package, last))), None)

    def named(self, data):
        """The names in the bytes of classes that may be those of classes of the places."""
        return {name for it in self.patterns for name in it.findall(data)}

    def add(self, names):
        """Adds the classes of these names that the places have, and those above them; none whose file holds a class of another name."""
        wanted = [*names]
        while wanted:
            name = wanted.pop()
            file = None if name in self.seen else self.find(name)
            if file:
                self.seen.add(name)
                own, above = class_names(contents(file))
                wanted.append(above or UNNAMED[0])
                if own == name:
                    self.files[name] = file

    def add_found(self, names):
        """Adds classes of these names that an earlier search added. Where they are in a place whose classes are all known by their names, none is read."""
        for name in names:
            file = self.find(name)
            if file and file.startswith(self.checked):
                self.seen.add(name)
                self.files[name] = file
            else:
                self.add([name])
